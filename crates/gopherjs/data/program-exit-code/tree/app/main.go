package main

import (
	"fmt"
	"os"
	"strings"
)

type level int

const (
	info level = iota
	warn
	fatal
)

func (l level) String() string { return [...]string{"info", "warn", "fatal"}[l] }

type report struct {
	counts map[level]int
	lines  []string
}

func (r *report) add(l level, format string, args ...interface{}) {
	r.counts[l]++
	r.lines = append(r.lines, fmt.Sprintf("%-5v ", l)+fmt.Sprintf(format, args...))
	if l == fatal {
		r.finish()
	}
}

func (r *report) code() int {
	switch {
	case r.counts[fatal] > 0:
		return 256 + 3
	case r.counts[warn] > 0:
		return 1
	}
	return 0
}

func (r *report) finish() {
	fmt.Println(strings.Join(r.lines, "\n"))
	fmt.Println(r.counts[info], r.counts[warn], r.counts[fatal])
	os.Exit(r.code() & 0xff)
}

type rule struct {
	name string
	test func(string) (level, bool)
}

func main() {
	r := &report{counts: map[level]int{}}
	defer fmt.Println("never printed")
	defer func() {
		recover()
		fmt.Println("never recovered")
	}()
	rules := []rule{
		{"blank", func(s string) (level, bool) { return info, strings.TrimSpace(s) == "" }},
		{"tab", func(s string) (level, bool) { return warn, strings.Contains(s, "\t") }},
		{"trailing", func(s string) (level, bool) { return warn, strings.HasSuffix(s, " ") }},
		{"long", func(s string) (level, bool) { return warn, len(s) > 24 }},
		{"tabs", func(s string) (level, bool) { return fatal, strings.HasPrefix(s, "\t\t") }},
	}
	text := "package x\n\nfunc f() {\n\treturn \n}\n// a rather long comment stands here\n\t\tbad\nnever seen \n"
	for n, line := range strings.Split(text, "\n") {
		for _, u := range rules {
			if l, hit := u.test(line); hit {
				r.add(l, "%d: %s", n+1, u.name)
			}
		}
	}
	r.finish()
}
