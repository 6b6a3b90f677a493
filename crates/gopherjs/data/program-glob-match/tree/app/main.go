package main

import (
	"errors"
	"fmt"
)

var errPattern = errors.New("bad pattern")

type matcher interface {
	match(s []rune, k func([]rune) bool) bool
}

type (
	char  rune
	any_  struct{}
	class struct {
		not    bool
		ranges [][2]rune
	}
	seq  []matcher
	alt  []matcher
	star struct{ m matcher }
	opt  struct{ m matcher }
	end  struct{}
)

func (c char) match(s []rune, k func([]rune) bool) bool {
	return len(s) > 0 && s[0] == rune(c) && k(s[1:])
}

func (any_) match(s []rune, k func([]rune) bool) bool { return len(s) > 0 && k(s[1:]) }

func (c *class) match(s []rune, k func([]rune) bool) bool {
	if len(s) == 0 {
		return false
	}
	in := false
	for _, r := range c.ranges {
		in = in || r[0] <= s[0] && s[0] <= r[1]
	}
	return in != c.not && k(s[1:])
}

func (q seq) match(s []rune, k func([]rune) bool) bool {
	if len(q) == 0 {
		return k(s)
	}
	return q[0].match(s, func(rest []rune) bool { return q[1:].match(rest, k) })
}

func (a alt) match(s []rune, k func([]rune) bool) bool {
	for _, m := range a {
		if m.match(s, k) {
			return true
		}
	}
	return false
}

func (t star) match(s []rune, k func([]rune) bool) bool {
	return t.m.match(s, func(rest []rune) bool {
		return len(rest) < len(s) && t.match(rest, k)
	}) || k(s)
}

func (o opt) match(s []rune, k func([]rune) bool) bool { return o.m.match(s, k) || k(s) }

func (end) match(s []rune, k func([]rune) bool) bool { return len(s) == 0 && k(s) }

type parser struct {
	in  []rune
	pos int
}

func (p *parser) more() bool { return p.pos < len(p.in) }

func (p *parser) take() rune {
	if !p.more() {
		panic(errPattern)
	}
	p.pos++
	return p.in[p.pos-1]
}

func (p *parser) alt() matcher {
	a := alt{p.seq()}
	for p.more() && p.in[p.pos] == '|' {
		p.pos++
		a = append(a, p.seq())
	}
	if len(a) == 1 {
		return a[0]
	}
	return a
}

func (p *parser) seq() matcher {
	var q seq
	for p.more() && p.in[p.pos] != '|' && p.in[p.pos] != ')' {
		m := p.atom()
	suffix:
		for p.more() {
			switch p.in[p.pos] {
			case '*':
				m = star{m}
			case '+':
				m = seq{m, star{m}}
			case '?':
				m = opt{m}
			default:
				break suffix
			}
			p.pos++
		}
		q = append(q, m)
	}
	return q
}

func (p *parser) atom() matcher {
	switch r := p.take(); r {
	case '.':
		return any_{}
	case '$':
		return end{}
	case '(':
		m := p.alt()
		if p.take() != ')' {
			panic(errPattern)
		}
		return m
	case '[':
		c := &class{}
		if p.more() && p.in[p.pos] == '^' {
			c.not = true
			p.pos++
		}
		for r := p.take(); r != ']'; r = p.take() {
			hi := r
			if p.pos+1 < len(p.in) && p.in[p.pos] == '-' && p.in[p.pos+1] != ']' {
				p.pos++
				hi = p.take()
			}
			c.ranges = append(c.ranges, [2]rune{r, hi})
		}
		return c
	case '\\':
		return char(p.take())
	case '*', '+', '?', ')':
		panic(errPattern)
	default:
		return char(r)
	}
}

func compile(s string) (m matcher, err error) {
	defer func() {
		if r := recover(); r != nil {
			err = r.(error)
		}
	}()
	p := &parser{in: []rune(s)}
	m = p.alt()
	if p.more() {
		return nil, errPattern
	}
	return m, nil
}

func full(m matcher, s string) bool {
	return m.match([]rune(s), func(rest []rune) bool { return len(rest) == 0 })
}

func find(m matcher, s string) (from, to int) {
	rs := []rune(s)
	for i := range rs {
		if m.match(rs[i:], func(rest []rune) bool { to = len(rs) - len(rest); return true }) {
			return i, to
		}
	}
	return -1, -1
}

func main() {
	words := []string{"", "a", "ab", "abb", "abab", "ba", "x1", "x12y", "na\u00efve", "a.b"}
	for _, pat := range []string{"a", "ab*", "(ab)*", "a|b.", "a?b+", "[a-c]+", "x[0-9]+y?", "[^a-z]*", "na.ve", `a\.b`, "(a*)*b", "", "(", "*a", "[a", "a)"} {
		m, err := compile(pat)
		if err != nil {
			fmt.Println(pat, "!", err)
			continue
		}
		hits := []string{}
		for _, w := range words {
			if full(m, w) {
				hits = append(hits, "<"+w+">")
			}
		}
		fmt.Println(pat, hits)
	}
	m, _ := compile("[0-9]+(-[0-9]+)?$")
	for _, s := range []string{"ab 12-34", "12x", "7", "1-2-3", "\u00e9\u00e8 5"} {
		fmt.Println(find(m, s))
	}
	_, isStar := matcher(star{end{}}).(star)
	fmt.Println(isStar, matcher(char('a')) == char('a'), matcher(any_{}) == matcher(end{}))
}
