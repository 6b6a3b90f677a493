package main

// The order of evaluation that the profile fixes: strictly left to right, a
// variable is read when it is reached, and an assignment has two phases. Go
// leaves these open, so another compiler may print other numbers.

type point struct{ x, y int }

func (p point) sum(k int) int   { return p.x + p.y + k }
func (p *point) move(k int) int { p.x += k; return p.x }

func three(a, b, c int) { println(a, b, c) }

func results() (int, int) {
	n := 1
	inc := func() int { n++; return n }
	return n, inc()
}

func main() {
	x := 1
	f := func() int { x++; return x * 10 }
	println(x, f(), x)
	three(x, f(), x)
	a := []int{x, f(), x}
	println(a[0], a[1], a[2])
	println(x + f() + x)
	p, q := x, f()
	println(p, q)
	s := struct{ a, b int }{x, f()}
	println(s.a, s.b)
	for k, v := range map[int]int{x: f()} {
		println(k, v)
	}
	println(x == f()/10, x < f(), -x+f())
	r1, r2 := results()
	println(r1, r2)

	// left sides: operands first, then the right side, then the assignments
	i := 0
	g := func() int { i = 2; return 5 }
	arr := [3]int{1, 2, 3}
	arr[i] = g()
	println(arr[0], arr[1], arr[2], i)
	i = 0
	arr[i] += g()
	println(arr[0], arr[1], arr[2], i)
	i = 0
	i, arr[i] = 1, 40
	println(arr[0], arr[1], arr[2], i)
	old := []int{1, 2, 3}
	sl := old
	h := func() int { sl = []int{7, 8, 9}; return 4 }
	sl[0] = h()
	println(old[0], sl[0])
	sl = old
	println(sl[h()-3], sl[1])
	m := map[string]int{}
	n := m
	m["a"] = func() int { m = map[string]int{"b": 1}; return 6 }()
	println(n["a"], len(n), len(m))
	pt := &point{1, 2}
	was := pt
	pt.x = func() int { pt = &point{50, 60}; return 9 }()
	println(was.x, pt.x)
	z := 1
	z += func() int { z = 50; return 1 }()
	println(z)
	z *= z + func() int { z = 100; return 0 }()
	println(z)
	t := "a"
	k := func() string { t += "b"; return "-" }
	println(t + k() + t + k() + t)

	// receivers and arguments
	v := point{1, 2}
	println(v.sum(v.move(10)), v.x)
	println(v.move(v.x), v.x)
	w := v.sum
	v.x = 1000
	println(w(0), v.sum(0))
	defer println(v.x, v.move(1), v.x)
	c := make(chan int, 3)
	c <- v.x + v.move(5) + v.x
	println(<-c, len(c))
	var e interface{} = v
	v.y = -1
	println(e.(point).y, v.y)
	b := [2]point{{1, 1}, {2, 2}}
	b[0], b[1] = b[1], b[0]
	b[0].x, b[1].x = b[1].x+5, b[0].x+7
	println(b[0].x, b[0].y, b[1].x, b[1].y)
	switch x = 3; f() {
	case x * 10:
		println("case", x)
	}
	for j := range [3]int{x, f(), x} {
		x += j
	}
	println(x)
}
