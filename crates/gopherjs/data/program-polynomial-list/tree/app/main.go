package main

import (
	"fmt"
	"strconv"
)

// term is a node of a list, sorted by falling exponent.
type term struct {
	coef, exp int
	next      *term
}

type poly struct{ first *term }

func of(coefs ...int) (p poly) {
	at := &p.first
	for i, c := range coefs {
		if c != 0 {
			*at = &term{c, len(coefs) - 1 - i, nil}
			at = &(*at).next
		}
	}
	return
}

func (p *poly) add(c, e int) {
	at := &p.first
	for *at != nil && (*at).exp > e {
		at = &(*at).next
	}
	if t := *at; t != nil && t.exp == e {
		if t.coef += c; t.coef == 0 {
			*at = t.next
		}
		return
	}
	if c != 0 {
		*at = &term{c, e, *at}
	}
}

func (p poly) each(f func(c, e int)) {
	for t := p.first; t != nil; t = t.next {
		f(t.coef, t.exp)
	}
}

func (p poly) plus(q poly) (r poly) {
	p.each(r.add)
	q.each(r.add)
	return
}

func (p poly) times(q poly) (r poly) {
	p.each(func(c, e int) {
		q.each(func(d, f int) { r.add(c*d, e+f) })
	})
	return
}

func (p poly) neg() poly { return p.times(of(-1)) }

func (p poly) derive() (r poly) {
	p.each(func(c, e int) {
		if e > 0 {
			r.add(c*e, e-1)
		}
	})
	return
}

func (p poly) at(x int) int {
	v, last := 0, -1
	p.each(func(c, e int) {
		for ; last > e; last-- {
			v *= x
		}
		v += c
		last = e
	})
	for ; last > 0; last-- {
		v *= x
	}
	return v
}

// div needs a divisor whose first coefficient is 1 or -1.
func (p poly) div(q poly) (quo, rem poly) {
	rem = rem.plus(p)
	for rem.first != nil && rem.first.exp >= q.first.exp {
		var t poly
		t.add(rem.first.coef/q.first.coef, rem.first.exp-q.first.exp)
		quo = quo.plus(t)
		rem = rem.plus(t.times(q).neg())
	}
	return
}

func (p poly) String() string {
	s := ""
	p.each(func(c, e int) {
		switch {
		case s == "" && c < 0:
			s, c = "-", -c
		case s != "" && c < 0:
			s += " - "
			c = -c
		case s != "":
			s += " + "
		}
		if c != 1 || e == 0 {
			s += strconv.Itoa(c)
		}
		switch e {
		case 0:
		case 1:
			s += "x"
		default:
			s += "x^" + strconv.Itoa(e)
		}
	})
	if s == "" {
		return "0"
	}
	return s
}

func same(p, q poly) bool {
	s, t := p.first, q.first
	for s != nil && t != nil && s.coef == t.coef && s.exp == t.exp {
		s, t = s.next, t.next
	}
	return s == t
}

func reverse(t *term) (r *term) {
	for t != nil {
		t, t.next, r = t.next, r, t
	}
	return
}

func main() {
	p, q := of(1, 0, -3, 2), of(2, -1)
	fmt.Println(p, "|", q, "|", of(), "|", of(-1, 1), "|", of(0, 7))
	fmt.Println(p.plus(q), "|", p.times(q), "|", p.plus(p.neg()), "|", p.derive(), "|", q.derive().derive())
	fmt.Println(p.at(0), p.at(2), p.at(-3), q.at(10), of().at(5), of(1, 0, 0).at(7), of(3, 0, 0, 0, 0).at(-2))
	quo, rem := p.div(of(1, -1))
	fmt.Println(quo, "|", rem, "|", same(quo.times(of(1, -1)).plus(rem), p))
	quo, rem = of(1, 0, 0, 0, 0, 1).div(of(-1, 1, 1))
	fmt.Println(quo, "|", rem, "|", same(quo.times(of(-1, 1, 1)).plus(rem), of(1, 0, 0, 0, 0, 1)))
	pow := of(1)
	for i := 0; i < 12; i++ {
		pow = pow.times(of(1, 1))
	}
	fmt.Println(pow)
	fmt.Println(pow.at(1), pow.at(2), pow.at(-1))
	var sparse poly
	for i := 0; i < 8; i++ {
		sparse.add(i*i-9, i*37%11)
	}
	sparse.add(5, 1000)
	fmt.Println(sparse, same(sparse, sparse.plus(of())))
	cheb := []poly{of(1), of(1, 0)}
	for i := 2; i < 9; i++ {
		cheb = append(cheb, of(2, 0).times(cheb[i-1]).plus(cheb[i-2].neg()))
	}
	fmt.Println(cheb[8], cheb[8].at(1), cheb[7].at(-1), cheb[5].at(3))
	p.first = reverse(p.first)
	fmt.Println(p, p.first.exp, same(p, of(1, 0, -3, 2)))
}
