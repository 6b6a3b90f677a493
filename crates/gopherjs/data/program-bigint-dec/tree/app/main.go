package main

import (
	"fmt"
	"strconv"
	"strings"
)

const base = 10000

// nat is a number without sign, the least four digits first.
type nat []int

func fromInt(n int) (r nat) {
	for ; n > 0; n /= base {
		r = append(r, n%base)
	}
	return
}

func parse(s string) (r nat, ok bool) {
	for len(s) > 0 {
		cut := len(s) - 4
		if cut < 0 {
			cut = 0
		}
		n, err := strconv.Atoi(s[cut:])
		if err != nil || n < 0 {
			return nil, false
		}
		r = append(r, n)
		s = s[:cut]
	}
	return r.norm(), true
}

func (a nat) norm() nat {
	for len(a) > 0 && a[len(a)-1] == 0 {
		a = a[:len(a)-1]
	}
	return a
}

func (a nat) String() string {
	if len(a) == 0 {
		return "0"
	}
	var b strings.Builder
	b.WriteString(strconv.Itoa(a[len(a)-1]))
	for i := len(a) - 2; i >= 0; i-- {
		b.WriteString(fmt.Sprintf("%04d", a[i]))
	}
	return b.String()
}

func (a nat) cmp(b nat) int {
	if len(a) != len(b) {
		return len(a) - len(b)
	}
	for i := len(a) - 1; i >= 0; i-- {
		if a[i] != b[i] {
			return a[i] - b[i]
		}
	}
	return 0
}

func (a nat) add(b nat) nat {
	if len(a) < len(b) {
		a, b = b, a
	}
	r := make(nat, 0, len(a)+1)
	carry := 0
	for i, x := range a {
		carry += x
		if i < len(b) {
			carry += b[i]
		}
		r = append(r, carry%base)
		carry /= base
	}
	return append(r, carry).norm()
}

func (a nat) sub(b nat) nat {
	if a.cmp(b) < 0 {
		panic("negative")
	}
	r := append(nat(nil), a...)
	borrow := 0
	for i := range r {
		d := r[i] - borrow
		if i < len(b) {
			d -= b[i]
		}
		borrow = 0
		if d < 0 {
			d += base
			borrow = 1
		}
		r[i] = d
	}
	return r.norm()
}

func (a nat) mul(b nat) nat {
	r := make(nat, len(a)+len(b))
	for i, x := range a {
		carry := 0
		for j, y := range b {
			carry += x*y + r[i+j]
			r[i+j] = carry % base
			carry /= base
		}
		r[i+len(b)] += carry
	}
	return r.norm()
}

func (a nat) divSmall(d int) (q nat, rem int) {
	q = make(nat, len(a))
	for i := len(a) - 1; i >= 0; i-- {
		rem = rem*base + a[i]
		q[i], rem = rem/d, rem%d
	}
	return q.norm(), rem
}

func (a nat) div(b nat) (q, r nat) {
	if len(b) == 0 {
		panic(fmt.Errorf("%v divided by zero", a))
	}
	q = make(nat, len(a))
	for i := len(a) - 1; i >= 0; i-- {
		r = append(nat{a[i]}, r...).norm()
		lo, hi := 0, base-1
		for lo < hi {
			m := (lo + hi + 1) / 2
			if b.mul(fromInt(m)).cmp(r) <= 0 {
				lo = m
			} else {
				hi = m - 1
			}
		}
		q[i] = lo
		r = r.sub(b.mul(fromInt(lo)))
	}
	return q.norm(), r
}

func (a nat) pow(n int) nat {
	if n == 0 {
		return nat{1}
	}
	h := a.pow(n / 2)
	h = h.mul(h)
	if n%2 == 1 {
		h = h.mul(a)
	}
	return h
}

func main() {
	f := nat{1}
	for i := 2; i <= 50; i++ {
		f = f.mul(fromInt(i))
	}
	fmt.Println("50! =", f)
	a, b := nat{}, nat{1}
	for i := 0; i < 300; i++ {
		a, b = b, a.add(b)
	}
	fmt.Println("fib(300) =", a)
	p := fromInt(2).pow(200)
	fmt.Println("2^200 =", p, p.sub(nat{1}))
	q, r := f.div(p)
	fmt.Println(q, r, q.mul(p).add(r).cmp(f) == 0)
	q2, rem := f.divSmall(9973)
	fmt.Println(q2, rem, q2.mul(fromInt(9973)).add(fromInt(rem)).cmp(f))
	x, ok := parse("000123456789012345678901234567890")
	_, ok2 := parse("12a4")
	fmt.Println(x, ok, ok2, nat(nil), fromInt(0).add(nil), fromInt(2147483647))
	sum := 0
	for _, c := range p.String() {
		sum += int(c - '0')
	}
	fmt.Println(sum, len(f.String()))
	func() {
		defer func() { fmt.Println(recover()) }()
		nat{1}.sub(nat{2})
	}()
	defer func() { fmt.Println(recover()) }()
	x.div(nil)
}
