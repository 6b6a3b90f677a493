// A trie of runes, with suggestions, and words that differ by few letters.
package main

import (
	"fmt"
	"strings"
)

type node struct {
	next map[rune]*node
	word bool
	size int
}

func (n *node) add(word string) bool {
	if n.has(word) {
		return false
	}
	for _, r := range word {
		n.size++
		child, ok := n.next[r]
		if !ok {
			child = &node{}
			if n.next == nil {
				n.next = map[rune]*node{}
			}
			n.next[r] = child
		}
		n = child
	}
	n.size++
	n.word = true
	return true
}

func (n *node) walk(prefix string) *node {
	for _, r := range prefix {
		if n = n.next[r]; n == nil {
			return nil
		}
	}
	return n
}

func (n *node) has(word string) bool {
	end := n.walk(word)
	return end != nil && end.word
}

func (n *node) remove(word string) bool {
	if !n.has(word) {
		return false
	}
	n.size--
	for _, r := range word {
		child := n.next[r]
		child.size--
		if child.size == 0 {
			delete(n.next, r)
			return true
		}
		n = child
	}
	n.word = false
	return true
}

func sortRunes(rs []rune) []rune {
	for i := 1; i < len(rs); i++ {
		for j := i; j > 0 && rs[j] < rs[j-1]; j-- {
			rs[j], rs[j-1] = rs[j-1], rs[j]
		}
	}
	return rs
}

// each calls f for the words below, in order, until it says stop.
func (n *node) each(prefix []rune, f func(string) bool) bool {
	if n == nil {
		return true
	}
	if n.word && !f(string(prefix)) {
		return false
	}
	var rs []rune
	for r := range n.next {
		rs = append(rs, r)
	}
	for _, r := range sortRunes(rs) {
		if !n.next[r].each(append(prefix, r), f) {
			return false
		}
	}
	return true
}

func (n *node) suggest(prefix string, most int) (found []string) {
	n.walk(prefix).each([]rune(prefix), func(w string) bool {
		found = append(found, w)
		return len(found) < most
	})
	return
}

func distance(a, b string) int {
	x, y := []rune(a), []rune(b)
	row := make([]int, len(y)+1)
	for j := range row {
		row[j] = j
	}
	for i, r := range x {
		before := row[0]
		row[0] = i + 1
		for j, s := range y {
			cost := before
			if r != s {
				cost++
			}
			before = row[j+1]
			for _, other := range []int{row[j] + 1, before + 1} {
				if other < cost {
					cost = other
				}
			}
			row[j+1] = cost
		}
	}
	return row[len(y)]
}

func reverse(s string) string {
	rs := []rune(s)
	for i, j := 0, len(rs)-1; i < j; i, j = i+1, j-1 {
		rs[i], rs[j] = rs[j], rs[i]
	}
	return string(rs)
}

func main() {
	root := &node{}
	words := strings.Fields("sea seal seam sear season search see seed été étude eta shore ship 海 海洋 海岸 sea")
	for _, w := range words {
		if !root.add(w) {
			fmt.Println("again", w)
		}
	}
	fmt.Println(root.size, root.has("sea"), root.has("seas"), root.has("été"), root.has("é"), root.has(""))
	fmt.Println(root.suggest("sea", 4), root.suggest("é", 9), root.suggest("海", 9), root.suggest("x", 9), root.suggest("", 3))
	fmt.Println(root.remove("sea"), root.remove("sea"), root.remove("season"), root.size, root.suggest("sea", 9))
	fmt.Println(root.add(""), root.has(""), root.size, root.suggest("", 2))
	for _, pair := range [][2]string{{"season", "reason"}, {"été", "ete"}, {"", "abc"}, {"海岸", "海"}, {"kitten", "sitting"}} {
		fmt.Print(distance(pair[0], pair[1]), distance(pair[1], pair[0]), " ")
	}
	fmt.Println()
	for _, w := range []string{"étude", "海岸x", "", "abc"} {
		fmt.Print(reverse(w), " ", reverse(reverse(w)) == w, " ", len(w), len([]rune(w)), "; ")
	}
	fmt.Println()
	near := map[int]int{}
	for i, a := range words {
		for _, b := range words[i+1:] {
			near[distance(a, b)]++
		}
	}
	for d := 0; d < 10; d++ {
		if n, ok := near[d]; ok {
			fmt.Print(d, "x", n, " ")
		}
	}
	fmt.Println()
}
