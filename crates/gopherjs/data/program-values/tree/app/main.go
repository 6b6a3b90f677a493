// What is copied and what is shared: arrays, structs, slices, maps, pointers, interfaces.
package main

import "fmt"

type point struct{ x, y int }

type box struct {
	corner point
	marks  [3]int
	names  []string
	next   *box
}

type shape interface{ area() int }

func (b box) area() int { return b.corner.x * b.corner.y }

func (b box) grown() box {
	b.corner.x++
	b.marks[0] = 100
	if len(b.names) > 0 {
		b.names[0] = "grown"
	}
	return b
}

func (b *box) grow() *box {
	b.corner.y *= 10
	return b
}

func arrays(a [3]int, p *[3]int, s []int) (int, [3]int) {
	a[0] = 7
	p[1] = 8
	s[2] = 9
	return a[0] + p[1] + s[2], a
}

func variadic(first int, rest ...int) (n int) {
	for i := range rest {
		rest[i] *= first
		n += rest[i]
	}
	return
}

func main() {
	a := [3]int{1, 2, 3}
	b := a
	sum, c := arrays(a, &a, a[:])
	fmt.Println(a[0], a[1], a[2], b == [3]int{1, 2, 3}, a == b, sum, c[0], c[1], c[2])

	x := box{corner: point{2, 3}, names: []string{"n"}}
	y := x.grown()
	fmt.Println(x.corner == point{2, 3}, x.marks[0], x.names[0], y.corner.x, y.marks[0])
	x.grow().grow().next = &y
	fmt.Println(x.corner.y, x.next.corner.x, x.area(), x.next.area())
	z := *x.next
	z.corner.x = 50
	x.next.marks[1] = 5
	fmt.Println(y.corner.x, y.marks[1], z.marks[1])

	var s shape = x
	x.corner = point{1, 1}
	t := s
	fmt.Println(s.area(), t.(box).area(), x.area())
	s = &x
	x.corner.x = 4
	fmt.Println(s.area(), s == shape(&x), s.(*box).corner == x.corner)

	grid := [2][2]point{{{1, 1}, {2, 2}}, {{3, 3}, {4, 4}}}
	row := grid[0]
	cell := &grid[1][0]
	grid[0][1].x = 9
	grid[1] = [2]point{{5, 5}, {6, 6}}
	fmt.Println(row[1].x, cell.x, grid == [2][2]point{{{1, 1}, {9, 2}}, {{5, 5}, {6, 6}}})
	for i, r := range grid {
		r[0].x = 1000
		grid[1][1].y += i + r[1].y
	}
	fmt.Println(grid[0][0].x, grid[1][1].y)

	m := map[point][2]int{{1, 2}: {3, 4}}
	v := m[point{1, 2}]
	v[0] = 30
	m[point{v[1], 0}] = v
	fmt.Println(len(m), m[point{1, 2}][0], m[point{4, 0}][0], m[point{}][1])
	byName := map[string]*point{"a": {1, 2}, "b": {}}
	byName["a"].x += 10
	p, q := byName["a"], byName["b"]
	*q = *p
	p.y = -1
	fmt.Println(byName["a"].x, byName["b"].x, byName["b"].y, p == q, *p == *q)

	l := make([]int, 3, 10)
	k := append(l, 4)
	n := append(l, 5)
	fmt.Println(k[3], n[3], len(l), len(l[:5]), cap(l[2:]), cap(l[2:4:6]))
	o := append(l[:1:1], 6)
	o[0] = 77
	fmt.Println(l[0], l[1], o[0], o[1])
	fmt.Println(copy(k[1:], k), k[0], k[1], k[2], k[3], copy(k, []int{}))
	words := []string{"a", "b", "c", "d"}
	copy(words[1:], words[:3])
	fmt.Println(words, copy(make([]byte, 3), "héllo"))
	fmt.Println(variadic(2), variadic(2, 3), variadic(3, l[1:3]...), variadic(10, []int{1, 2}...))
	args := []int{1, 2}
	variadic(5, args...)
	fmt.Println(args)

	e := []interface{}{1, int8(1), "1", point{1, 1}, [1]int{1}, nil, true, 'a', &a, int64(1)}
	equal := 0
	for _, i := range e {
		for _, j := range e {
			if i == j {
				equal++
			}
		}
	}
	fmt.Println(equal, e[0] == 1, e[1] == 1, e[3] == point{1, 1}, e[5] == nil, e[7] == rune(97))
	f := struct {
		point
		f interface{}
	}{point{1, 2}, "x"}
	g := f
	g.f = string([]byte{'x'})
	fmt.Println(f == g, f.x, g.point.y)
	var np *box
	var ns shape = np
	fmt.Println(np == nil, ns == nil, ns.(*box) == nil)
}
