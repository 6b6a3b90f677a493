package main

import (
	"fmt"
	"strings"
)

func table(r, c int) [][]int {
	t := make([][]int, r)
	for i := range t {
		t[i] = make([]int, c)
	}
	return t
}

func lcs(a, b string) string {
	t := table(len(a)+1, len(b)+1)
	for i := len(a) - 1; i >= 0; i-- {
		for j := len(b) - 1; j >= 0; j-- {
			switch {
			case a[i] == b[j]:
				t[i][j] = t[i+1][j+1] + 1
			case t[i+1][j] >= t[i][j+1]:
				t[i][j] = t[i+1][j]
			default:
				t[i][j] = t[i][j+1]
			}
		}
	}
	var out []byte
	for i, j := 0, 0; i < len(a) && j < len(b); {
		switch {
		case a[i] == b[j]:
			out = append(out, a[i])
			i++
			j++
		case t[i+1][j] >= t[i][j+1]:
			i++
		default:
			j++
		}
	}
	return string(out)
}

func least(x int, more ...int) int {
	for _, y := range more {
		if y < x {
			x = y
		}
	}
	return x
}

type edit struct {
	op   byte
	a, b rune
}

func distance(x, y string) (int, []edit) {
	a, b := []rune(x), []rune(y)
	t := table(len(a)+1, len(b)+1)
	for i := range t {
		for j := range t[i] {
			switch {
			case i == 0:
				t[i][j] = j
			case j == 0:
				t[i][j] = i
			default:
				cost := 1
				if a[i-1] == b[j-1] {
					cost = 0
				}
				t[i][j] = least(t[i-1][j]+1, t[i][j-1]+1, t[i-1][j-1]+cost)
			}
		}
	}
	var es []edit
	for i, j := len(a), len(b); i > 0 || j > 0; {
		switch {
		case i > 0 && j > 0 && a[i-1] == b[j-1] && t[i][j] == t[i-1][j-1]:
			i, j = i-1, j-1
		case i > 0 && j > 0 && t[i][j] == t[i-1][j-1]+1:
			es = append(es, edit{'r', a[i-1], b[j-1]})
			i, j = i-1, j-1
		case i > 0 && t[i][j] == t[i-1][j]+1:
			es = append(es, edit{op: 'd', a: a[i-1]})
			i--
		default:
			es = append(es, edit{op: 'i', b: b[j-1]})
			j--
		}
	}
	return t[len(a)][len(b)], es
}

func knapsack(cap int, items [][2]int) (best int, taken []int) {
	t := table(len(items)+1, cap+1)
	for i, it := range items {
		copy(t[i+1], t[i])
		for w := it[0]; w <= cap; w++ {
			if v := t[i][w-it[0]] + it[1]; v > t[i+1][w] {
				t[i+1][w] = v
			}
		}
	}
	for i, w := len(items), cap; i > 0; i-- {
		if t[i][w] != t[i-1][w] {
			taken = append(taken, i-1)
			w -= items[i-1][0]
		}
	}
	return t[len(items)][cap], taken
}

func change(amount int, coins ...int) (ways uint64, fewest int) {
	w := make([]uint64, amount+1)
	f := make([]int, amount+1)
	w[0] = 1
	for i := 1; i <= amount; i++ {
		f[i] = 1 << 30
		for _, c := range coins {
			if c <= i && f[i-c]+1 < f[i] {
				f[i] = f[i-c] + 1
			}
		}
	}
	for _, c := range coins {
		for i := c; i <= amount; i++ {
			w[i] += w[i-c]
		}
	}
	return w[amount], f[amount]
}

func rising(xs []int) (r []int) {
	prev := make([]int, len(xs))
	var ends []int
	for i, x := range xs {
		lo, hi := 0, len(ends)
		for lo < hi {
			m := int(uint(lo+hi) >> 1)
			if xs[ends[m]] < x {
				lo = m + 1
			} else {
				hi = m
			}
		}
		prev[i] = -1
		if lo > 0 {
			prev[i] = ends[lo-1]
		}
		ends = append(ends[:lo], i)
	}
	for i := ends[len(ends)-1]; i >= 0; i = prev[i] {
		r = append([]int{xs[i]}, r...)
	}
	return
}

func main() {
	fmt.Println(lcs("AGGTABQXZ", "GXTXAYBZ"), lcs("", "abc") == "", len(lcs(strings.Repeat("abc", 15), strings.Repeat("acb", 15))))
	for _, p := range [][2]string{{"kitten", "sitting"}, {"", "abc"}, {"stra\u00dfe", "strasse"}, {"same", "same"}} {
		n, es := distance(p[0], p[1])
		fmt.Print(n)
		for _, e := range es {
			fmt.Printf(" %c", e.op)
			if e.a != 0 {
				fmt.Print(string(e.a))
			}
			if e.b != 0 {
				fmt.Print(string(e.b))
			}
		}
		fmt.Println()
	}
	fmt.Println(knapsack(26, [][2]int{{12, 24}, {7, 13}, {11, 23}, {8, 15}, {9, 16}}))
	fmt.Println(change(100, 1, 5, 10, 25, 50))
	fmt.Println(change(7, 5, 10))
	fmt.Println(change(700, 1, 2, 3, 4, 5, 6, 7, 8, 9, 10))
	fmt.Println(rising([]int{0, 8, 4, 12, 2, 10, 6, 14, 1, 9, 5, 13, 3, 11, 7, 15}))
}
