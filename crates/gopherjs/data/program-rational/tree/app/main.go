package main

import (
	"fmt"
	"strconv"
	"strings"
)

type rat struct{ num, den int64 }

func gcd(a, b int64) int64 {
	for b != 0 {
		a, b = b, a%b
	}
	if a < 0 {
		return -a
	}
	return a
}

func newRat(n, d int64) rat {
	if d == 0 {
		panic(fmt.Sprintf("%d/0", n))
	}
	if d < 0 {
		n, d = -n, -d
	}
	if g := gcd(n, d); g > 1 {
		n, d = n/g, d/g
	}
	return rat{n, d}
}

func whole(n int64) rat      { return rat{n, 1} }
func (a rat) plus(b rat) rat { return newRat(a.num*b.den+b.num*a.den, a.den*b.den) }
func (a rat) neg() rat       { return rat{-a.num, a.den} }
func (a rat) minus(b rat) rat {
	return a.plus(b.neg())
}
func (a rat) times(b rat) rat { return newRat(a.num*b.num, a.den*b.den) }
func (a rat) inv() rat        { return newRat(a.den, a.num) }
func (a rat) cmp(b rat) int64 { return a.num*b.den - b.num*a.den }
func (a rat) zero() bool      { return a.num == 0 }

func (a rat) String() string {
	if a.den == 1 {
		return strconv.FormatInt(a.num, 10)
	}
	return strconv.FormatInt(a.num, 10) + "/" + strconv.FormatInt(a.den, 10)
}

// decimal gives n digits after the point, cut off, and where they begin again.
func (a rat) decimal(n int) string {
	var b strings.Builder
	num := a.num
	if num < 0 {
		b.WriteByte('-')
		num = -num
	}
	b.WriteString(strconv.FormatInt(num/a.den, 10))
	b.WriteByte('.')
	seen := map[int64]int{}
	for i, r := 0, num%a.den; i < n && r != 0; i++ {
		if at, ok := seen[r]; ok {
			return b.String() + " again from " + strconv.Itoa(at)
		}
		seen[r] = i
		r *= 10
		b.WriteByte(byte('0' + r/a.den))
		r %= a.den
	}
	return b.String()
}

func fractions(a rat) (parts []int64) {
	for {
		q := a.num / a.den
		if a.num%a.den < 0 {
			q--
		}
		parts = append(parts, q)
		a = a.minus(whole(q))
		if a.zero() {
			return
		}
		a = a.inv()
	}
}

func show(xs []int64) string {
	s := make([]string, len(xs))
	for i, x := range xs {
		s[i] = strconv.FormatInt(x, 10)
	}
	return "[" + strings.Join(s, "; ") + "]"
}

// solve is Gauss's elimination with exact numbers.
func solve(m [][]rat) (x []rat, ok bool) {
	n := len(m)
	for c := 0; c < n; c++ {
		p := c
		for p < n && m[p][c].zero() {
			p++
		}
		if p == n {
			return nil, false
		}
		m[c], m[p] = m[p], m[c]
		f := m[c][c].inv()
		for j := range m[c] {
			m[c][j] = m[c][j].times(f)
		}
		for i := range m {
			if i == c || m[i][c].zero() {
				continue
			}
			f := m[i][c]
			for j := range m[i] {
				m[i][j] = m[i][j].minus(f.times(m[c][j]))
			}
		}
	}
	for _, row := range m {
		x = append(x, row[n])
	}
	return x, true
}

func system(rows ...[]int64) (m [][]rat) {
	for _, r := range rows {
		var row []rat
		for _, v := range r {
			row = append(row, whole(v))
		}
		m = append(m, row)
	}
	return
}

func main() {
	a, b := newRat(3, -6), newRat(10, 4)
	fmt.Println(a, b, a.plus(b), a.minus(b), a.times(b), b.inv(), a.inv(), a.cmp(b) < 0, a == newRat(-1, 2))
	sum := whole(0)
	for i := int64(1); i <= 20; i++ {
		sum = sum.plus(newRat(1, i))
	}
	fmt.Println(sum, sum.decimal(12))
	for _, r := range []rat{newRat(1, 7), newRat(-22, 8), newRat(1, 12), newRat(5, 1), newRat(1, 97)} {
		fmt.Println(r, r.decimal(30), show(fractions(r)))
	}
	fmt.Println(show(fractions(newRat(415, 93))), show(fractions(newRat(-415, 93))))
	x, ok := solve(system([]int64{2, 1, -1, 8}, []int64{-3, -1, 2, -11}, []int64{-2, 1, 2, -3}))
	fmt.Println(x[0], x[1], x[2], ok)
	x, ok = solve(system([]int64{0, 3, 1}, []int64{4, 5, 2}))
	fmt.Println(x[0], x[1], ok)
	_, ok = solve(system([]int64{1, 2, 3}, []int64{2, 4, 7}))
	fmt.Println(ok)
	seen := map[rat]int{}
	for d := int64(1); d <= 12; d++ {
		for n := int64(1); n < d; n++ {
			seen[newRat(n, d)]++
		}
	}
	fmt.Println(len(seen), seen[newRat(1, 2)], seen[newRat(2, 6)], seen[rat{2, 6}])
	defer func() { fmt.Println("recovered", recover()) }()
	fmt.Println(whole(0).inv())
}
