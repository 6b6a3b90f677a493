package main

import "fmt"

type sorter interface {
	Len() int
	Less(i, j int) bool
	Swap(i, j int)
}

type ints []int

func (s ints) Len() int           { return len(s) }
func (s ints) Less(i, j int) bool { return s[i] < s[j] }
func (s ints) Swap(i, j int)      { s[i], s[j] = s[j], s[i] }

type person struct {
	name string
	age  int
}

type people struct {
	list []person
	less func(a, b *person) bool
}

func (p *people) Len() int           { return len(p.list) }
func (p *people) Less(i, j int) bool { return p.less(&p.list[i], &p.list[j]) }
func (p *people) Swap(i, j int)      { p.list[i], p.list[j] = p.list[j], p.list[i] }

type reversed struct{ sorter }

func (r reversed) Less(i, j int) bool { return r.sorter.Less(j, i) }

type counted struct {
	sorter
	less, swap int
}

func (c *counted) Less(i, j int) bool { c.less++; return c.sorter.Less(i, j) }
func (c *counted) Swap(i, j int)      { c.swap++; c.sorter.Swap(i, j) }

func insertion(s sorter) {
	for i := 1; i < s.Len(); i++ {
		for j := i; j > 0 && s.Less(j, j-1); j-- {
			s.Swap(j, j-1)
		}
	}
}

func heap(s sorter) {
	n := s.Len()
	down := func(i, n int) {
		for c := 2*i + 1; c < n; i, c = c, 2*c+1 {
			if c+1 < n && s.Less(c, c+1) {
				c++
			}
			if !s.Less(i, c) {
				return
			}
			s.Swap(i, c)
		}
	}
	for i := n/2 - 1; i >= 0; i-- {
		down(i, n)
	}
	for i := n - 1; i > 0; i-- {
		s.Swap(0, i)
		down(0, i)
	}
}

func quick(s sorter) {
	var part func(lo, hi int)
	part = func(lo, hi int) {
		for hi-lo > 1 {
			s.Swap(lo, lo+(hi-lo)/2)
			m := lo
			for i := lo + 1; i < hi; i++ {
				if s.Less(i, lo) {
					m++
					s.Swap(i, m)
				}
			}
			s.Swap(lo, m)
			if m-lo < hi-m {
				part(lo, m)
				lo = m + 1
			} else {
				part(m+1, hi)
				hi = m
			}
		}
	}
	part(0, s.Len())
}

func shell(s sorter) {
	for gap := s.Len() / 2; gap > 0; gap /= 2 {
		for i := gap; i < s.Len(); i++ {
			for j := i; j >= gap && s.Less(j, j-gap); j -= gap {
				s.Swap(j, j-gap)
			}
		}
	}
}

func radix(xs []uint32) {
	tmp := make([]uint32, len(xs))
	for shift := uint(0); shift < 32; shift += 8 {
		var count [257]int
		for _, x := range xs {
			count[x>>shift&255+1]++
		}
		for i := range count[1:] {
			count[i+1] += count[i]
		}
		for _, x := range xs {
			b := x >> shift & 255
			tmp[count[b]] = x
			count[b]++
		}
		xs, tmp = tmp, xs
	}
}

func isSorted(s sorter) bool {
	for i := s.Len() - 1; i > 0; i-- {
		if s.Less(i, i-1) {
			return false
		}
	}
	return true
}

func search(n int, f func(int) bool) int {
	lo, hi := 0, n
	for lo < hi {
		m := int(uint(lo+hi) >> 1)
		if !f(m) {
			lo = m + 1
		} else {
			hi = m
		}
	}
	return lo
}

func data(n int, seed uint32) (r ints) {
	for i := 0; i < n; i++ {
		seed = seed*1103515245 + 12345
		r = append(r, int(seed>>16%1000)-500)
	}
	return
}

func main() {
	algos := []struct {
		name string
		f    func(sorter)
	}{{"insertion", insertion}, {"heap", heap}, {"quick", quick}, {"shell", shell}}
	for _, a := range algos {
		for _, n := range []int{0, 1, 2, 17, 120} {
			s := data(n, 42)
			c := &counted{sorter: s}
			a.f(c)
			t := data(n, 42)
			a.f(reversed{t})
			mirror := true
			for i := range t {
				mirror = mirror && t[i] == s[n-1-i]
			}
			fmt.Println(a.name, n, isSorted(s), isSorted(reversed{t}), mirror, c.less, c.swap)
		}
	}
	us := []uint32{}
	for i, x := range data(300, 7) {
		us = append(us, uint32(x)<<uint(i%20)^uint32(i))
	}
	radix(us)
	ok := true
	for i := 1; i < len(us); i++ {
		ok = ok && us[i-1] <= us[i]
	}
	fmt.Println("radix", ok, us[0], us[299])

	p := &people{list: []person{{"Eve", 30}, {"Al", 25}, {"Bo", 30}, {"Di", 25}, {"Cy", 41}}}
	for _, less := range []func(a, b *person) bool{
		func(a, b *person) bool { return a.age < b.age },
		func(a, b *person) bool { return a.name < b.name },
		func(a, b *person) bool { return a.age > b.age || a.age == b.age && len(a.name) < len(b.name) },
	} {
		p.less = less
		insertion(p)
		for _, x := range p.list {
			fmt.Print(x.name, " ", x.age, "; ")
		}
		fmt.Println()
	}
	s := data(50, 9)
	heap(s)
	at := search(len(s), func(i int) bool { return s[i] >= 0 })
	fmt.Println(at, s[at] >= 0, at == 0 || s[at-1] < 0, search(10, func(int) bool { return false }))
}
