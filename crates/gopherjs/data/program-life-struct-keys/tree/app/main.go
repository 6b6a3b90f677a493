package main

import (
	"fmt"
	"strings"
)

type point struct{ x, y int }

type cells map[point]bool

func parse(at point, rows ...string) cells {
	c := cells{}
	for y, row := range rows {
		for x, ch := range row {
			if ch == '#' {
				c[point{at.x + x, at.y + y}] = true
			}
		}
	}
	return c
}

func (c cells) step() cells {
	near := map[point]int{}
	for p := range c {
		for dy := -1; dy <= 1; dy++ {
			for dx := -1; dx <= 1; dx++ {
				if dx != 0 || dy != 0 {
					near[point{p.x + dx, p.y + dy}]++
				}
			}
		}
	}
	next := cells{}
	for p, n := range near {
		if n == 3 || n == 2 && c[p] {
			next[p] = true
		}
	}
	return next
}

func (c cells) box() (lo, hi point) {
	first := true
	for p := range c {
		if first {
			lo, hi, first = p, p, false
			continue
		}
		if p.x < lo.x {
			lo.x = p.x
		}
		if p.y < lo.y {
			lo.y = p.y
		}
		if p.x > hi.x {
			hi.x = p.x
		}
		if p.y > hi.y {
			hi.y = p.y
		}
	}
	return
}

func (c cells) String() string {
	lo, hi := c.box()
	var b strings.Builder
	for y := lo.y; y <= hi.y; y++ {
		for x := lo.x; x <= hi.x; x++ {
			if c[point{x, y}] {
				b.WriteByte('#')
			} else {
				b.WriteByte('.')
			}
		}
		b.WriteByte('\n')
	}
	return b.String()
}

func same(a, b cells) bool {
	if len(a) != len(b) {
		return false
	}
	for p := range a {
		if !b[p] {
			return false
		}
	}
	return true
}

type side bool

type key struct {
	pos  [2]int8
	name string
	side
	big int64
	_   int
}

func main() {
	glider := parse(point{0, 0}, ".#.", "..#", "###")
	g := glider
	for i := 0; i < 4; i++ {
		g = g.step()
	}
	lo, hi := g.box()
	fmt.Print(g, lo.x, lo.y, hi.x, hi.y, "\n")
	pent := parse(point{-5, 7}, ".##", "##.", ".#.")
	for i := 0; i < 12; i++ {
		pent = pent.step()
	}
	fmt.Println("r-pentomino after 40:", len(pent))
	blinker := parse(point{0, 0}, "###")
	one := blinker.step()
	fmt.Println(same(blinker, one), same(blinker, one.step()))

	m := map[key]int{}
	a := key{[2]int8{1, 2}, "n", true, 1 << 40, 7}
	b := a
	m[a]++
	m[b]++
	b.pos[1]++
	m[b] += 10
	b.side = false
	m[b]++
	fmt.Println(len(m), m[a], m[b], a == b, m[key{}])
	delete(m, a)
	_, ok := m[a]
	fmt.Println(len(m), ok)

	grid := map[[3]int]string{{1, 2, 3}: "abc", {}: "zero"}
	grid[[...]int{1, 2, 3}] += "d"
	fmt.Println(grid[[3]int{1, 2, 3}], grid[[3]int{}], len(grid[[3]int{0, 0, 1}]))
	nested := map[string]map[bool][]int{}
	for i, w := range []string{"a", "b", "a", "c", "b", "a"} {
		if nested[w] == nil {
			nested[w] = map[bool][]int{}
		}
		nested[w][i%2 == 0] = append(nested[w][i%2 == 0], i)
	}
	fmt.Println(nested["a"][true], nested["a"][false], nested["b"][true], nested["x"][true] == nil)
	u := map[uint64]int8{1<<64 - 1: -1, 1 << 32: 2, 0: 3}
	u[1<<64-1] -= 127
	fmt.Println(u[1<<64-1], u[1<<32], u[0], len(u))
}
