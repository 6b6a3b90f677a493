package main

import (
	"fmt"
	"strings"
)

type matcher func(s string, k func(rest string) bool) bool

type compiler struct {
	src string
	pos int
}

type badPattern string

func (b badPattern) Error() string { return "pattern: " + string(b) }

func seq(ms ...matcher) matcher {
	return func(s string, k func(string) bool) bool {
		var step func(i int, s string) bool
		step = func(i int, s string) bool {
			if i == len(ms) {
				return k(s)
			}
			return ms[i](s, func(rest string) bool { return step(i+1, rest) })
		}
		return step(0, s)
	}
}

func alt(a, b matcher) matcher {
	return func(s string, k func(string) bool) bool { return a(s, k) || b(s, k) }
}

func star(m matcher, least int) matcher {
	return func(s string, k func(string) bool) bool {
		var loop func(n int, s string) bool
		loop = func(n int, s string) bool {
			return m(s, func(rest string) bool { return len(rest) < len(s) && loop(n+1, rest) }) || n >= least && k(s)
		}
		return loop(0, s)
	}
}

func class(test func(rune) bool) matcher {
	return func(s string, k func(string) bool) bool {
		for i, r := range s {
			if i == 0 {
				if !test(r) {
					return false
				}
				continue
			}
			return k(s[i:])
		}
		return s != "" && k("")
	}
}

func (c *compiler) more() bool { return c.pos < len(c.src) }

func (c *compiler) alternatives() matcher {
	m := c.sequence()
	for c.more() && c.src[c.pos] == '|' {
		c.pos++
		m = alt(m, c.sequence())
	}
	return m
}

func (c *compiler) sequence() matcher {
	var ms []matcher
	for c.more() && !strings.Contains("|)", c.src[c.pos:c.pos+1]) {
		m := c.atom()
	suffix:
		for c.more() {
			switch c.src[c.pos] {
			case '*':
				m = star(m, 0)
			case '+':
				m = star(m, 1)
			case '?':
				old := m
				m = alt(old, func(s string, k func(string) bool) bool { return k(s) })
			default:
				break suffix
			}
			c.pos++
		}
		ms = append(ms, m)
	}
	return seq(ms...)
}

func (c *compiler) char() (r rune) {
	for i, x := range c.src[c.pos:] {
		if i > 0 {
			c.pos += i
			return
		}
		r = x
	}
	c.pos = len(c.src)
	return
}

func (c *compiler) atom() matcher {
	switch r := c.char(); r {
	case '(':
		m := c.alternatives()
		if !c.more() {
			panic(badPattern("( without )"))
		}
		c.pos++
		return m
	case '[':
		not := c.more() && c.src[c.pos] == '^'
		if not {
			c.pos++
		}
		type span struct{ lo, hi rune }
		var spans []span
		for {
			if !c.more() {
				panic(badPattern("[ without ]"))
			}
			lo := c.char()
			if lo == ']' {
				break
			}
			hi := lo
			if c.pos+1 < len(c.src) && c.src[c.pos] == '-' && c.src[c.pos+1] != ']' {
				c.pos++
				hi = c.char()
			}
			spans = append(spans, span{lo, hi})
		}
		return class(func(r rune) bool {
			for _, s := range spans {
				if s.lo <= r && r <= s.hi {
					return !not
				}
			}
			return not
		})
	case '.':
		return class(func(rune) bool { return true })
	case '*', '+', '?':
		panic(badPattern("nothing before " + string(r)))
	case '\\':
		r = c.char()
		return class(func(x rune) bool { return x == r })
	default:
		return class(func(x rune) bool { return x == r })
	}
}

func compile(p string) (find func(string) (int, int), err error) {
	defer func() {
		switch r := recover().(type) {
		case nil:
		case badPattern:
			err = r
		default:
			panic(r)
		}
	}()
	c := &compiler{src: p}
	m := c.alternatives()
	if c.more() {
		return nil, badPattern("left " + c.src[c.pos:])
	}
	return func(s string) (from, to int) {
		for i := range s + " " {
			if i <= len(s) && m(s[i:], func(rest string) bool { to = len(s) - len(rest); return true }) {
				return i, to
			}
		}
		return -1, -1
	}, nil
}

func main() {
	for _, p := range []string{"a*b", "(ab|a)(c|bcd)d*", "x[0-9]+y?", "[^a-c]+", "é.", "(a|b)*abb", "", "(", "*a", "[a", "a)b", "\\*+", "((a*)*)*b", "日?本"} {
		find, err := compile(p)
		if err != nil {
			fmt.Println(p, err, find == nil)
			continue
		}
		fmt.Print(p, ":")
		for _, s := range []string{"", "aaab", "abcd", "zx12y", "caféx", "babaabb", "**", "本日本"} {
			from, to := find(s)
			fmt.Print(" ", from, ",", to)
			if from >= 0 {
				fmt.Printf("=%s", s[from:to])
			}
		}
		fmt.Println()
	}
}
