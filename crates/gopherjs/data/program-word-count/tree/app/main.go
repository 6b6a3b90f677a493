package main

import (
	"fmt"
	"strings"
)

const text = `It was the best of times, it was the worst of times,
it was the age of wisdom, it was the age of foolishness,
it was the epoch of belief, it was the epoch of incredulity.

We had everything before us; we had nothing before us!`

type entry struct {
	word  string
	count int
	lines []int
}

func lower(s string) string {
	b := []byte(s)
	for i, c := range b {
		if 'A' <= c && c <= 'Z' {
			b[i] = c + 'a' - 'A'
		}
	}
	return string(b)
}

func words(line string) []string {
	return fields(lower(line), func(c byte) bool { return c < 'a' || c > 'z' })
}

func fields(s string, cut func(byte) bool) (r []string) {
	start := -1
	for i := 0; i <= len(s); i++ {
		in := i < len(s) && !cut(s[i])
		if in && start < 0 {
			start = i
		}
		if !in && start >= 0 {
			r = append(r, s[start:i])
			start = -1
		}
	}
	return
}

type index struct {
	by    map[string]*entry
	all   []*entry
	total int
}

func (x *index) add(w string, line int) {
	e := x.by[w]
	if e == nil {
		e = &entry{word: w}
		x.by[w] = e
		x.all = append(x.all, e)
	}
	e.count++
	x.total++
	if n := len(e.lines); n == 0 || e.lines[n-1] != line {
		e.lines = append(e.lines, line)
	}
}

type order func(a, b *entry) bool

func (o order) then(next order) order {
	return func(a, b *entry) bool {
		switch {
		case o(a, b):
			return true
		case o(b, a):
			return false
		}
		return next(a, b)
	}
}

func sorted(es []*entry, o order) []*entry {
	r := append([]*entry{}, es...)
	for i := 1; i < len(r); i++ {
		for j := i; j > 0 && o(r[j], r[j-1]); j-- {
			r[j], r[j-1] = r[j-1], r[j]
		}
	}
	return r
}

func main() {
	x := &index{by: map[string]*entry{}}
	chars := 0
	lines := strings.Split(text, "\n")
	for n, l := range lines {
		chars += len(l)
		for _, w := range words(l) {
			x.add(w, n+1)
		}
	}
	fmt.Println(len(lines), x.total, len(x.all), chars+len(lines)-1 == len(text))
	byCount := order(func(a, b *entry) bool { return a.count > b.count })
	byWord := order(func(a, b *entry) bool { return a.word < b.word })
	byLength := order(func(a, b *entry) bool { return len(a.word) > len(b.word) })
	for i, e := range sorted(x.all, byCount.then(byWord)) {
		if i == 10 {
			break
		}
		fmt.Printf("%-8s %2d %v\n", e.word, e.count, e.lines)
	}
	var longest []string
	for _, e := range sorted(x.all, byLength.then(byWord))[:5] {
		longest = append(longest, e.word)
	}
	fmt.Println(strings.Join(longest, ","))
	hist := make([]int, 14)
	for _, e := range x.all {
		hist[len(e.word)] += e.count
	}
	for n, c := range hist {
		if c > 0 {
			fmt.Printf("%2d %s %d\n", n, strings.Repeat("*", c), c)
		}
	}
	fmt.Println(strings.Fields("  a\tb \n c  "), len(strings.Fields(" \t ")), strings.Split("a,b,,c,", ","), len(strings.Split("", ",")), len(strings.Split("h\u00e9!", "")))
	fmt.Println(strings.Index("chicken", "ken"), strings.Index("x", "xx"), strings.Index("abc", ""), strings.Contains("seafood", "foo"), strings.TrimSpace(" \t x y \r\n")+"|")
}
