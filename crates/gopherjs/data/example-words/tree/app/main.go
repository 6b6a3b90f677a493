// Words: a map of counts, sorted by hand.
package main

import (
	"fmt"
	"strings"
)

const text = `the sea is wide and the sky is wide
and the ship is small but the ship is ours`

type entry struct {
	word  string
	count int
}

// before orders entries by falling counts, then by their words.
func (e entry) before(o entry) bool {
	if e.count != o.count {
		return e.count > o.count
	}
	return e.word < o.word
}

// sorted sorts by merging halves.
func sorted(es []entry) []entry {
	if len(es) < 2 {
		return es
	}
	a, b := sorted(es[:len(es)/2]), sorted(es[len(es)/2:])
	all := make([]entry, 0, len(es))
	for len(a) > 0 && len(b) > 0 {
		if b[0].before(a[0]) {
			all, b = append(all, b[0]), b[1:]
		} else {
			all, a = append(all, a[0]), a[1:]
		}
	}
	return append(append(all, a...), b...)
}

func main() {
	counts := map[string]int{}
	for _, line := range strings.Split(text, "\n") {
		for _, word := range strings.Fields(line) {
			counts[word]++
		}
	}
	delete(counts, "but")
	var es []entry
	for word, count := range counts {
		es = append(es, entry{word, count})
	}
	for _, e := range sorted(es) {
		fmt.Printf("%-6s%2d %s\n", e.word, e.count, strings.Repeat("*", e.count))
	}
	if _, ok := counts["but"]; !ok {
		fmt.Println(len(counts), "words")
	}
}
