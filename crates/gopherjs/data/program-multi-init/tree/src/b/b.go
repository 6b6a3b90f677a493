package b

import (
	"a/deep"
	log "tlog"
)

var (
	a = f(c, "b.a")
	c = f(d, "b.c")
	d = f(deep.Total, "b.d")
	e = func() int { return g() }()
	h = log.Say("b.h")
)

func f(x int, s string) int { return x*10 + log.Say(s) }

func g() int { return h * 1000 }

func Sum() int { return a + c + d + e }

type T struct{ n int }

var Default = newT(Sum())

func newT(n int) *T {
	log.Say("b.newT")
	return &T{n}
}

func (t *T) N() int { return t.n }

func init() { Default.n++ }
