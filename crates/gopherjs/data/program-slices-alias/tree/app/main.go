package main

import "fmt"

type ring struct {
	buf         []int
	start, size int
}

func (r *ring) push(x int) (lost int, full bool) {
	if r.size == len(r.buf) {
		lost, full = r.buf[r.start], true
		r.buf[r.start] = x
		r.start = (r.start + 1) % len(r.buf)
		return
	}
	r.buf[(r.start+r.size)%len(r.buf)] = x
	r.size++
	return
}

func (r *ring) slice() []int {
	end := r.start + r.size
	if end <= len(r.buf) {
		return r.buf[r.start:end:end]
	}
	out := append([]int{}, r.buf[r.start:]...)
	return append(out, r.buf[:end-len(r.buf)]...)
}

func insert(s []int, i int, xs ...int) []int {
	s = append(s, xs...)
	copy(s[i+len(xs):], s[i:])
	copy(s[i:], xs)
	return s
}

func remove(s []int, i int) []int { return append(s[:i], s[i+1:]...) }

func filter(s []int, f func(int) bool) []int {
	out := s[:0]
	for _, x := range s {
		if f(x) {
			out = append(out, x)
		}
	}
	return out
}

func reverse(s []int) {
	for i, j := 0, len(s)-1; i < j; i, j = i+1, j-1 {
		s[i], s[j] = s[j], s[i]
	}
}

func rotate(s []int, k int) {
	reverse(s[:k])
	reverse(s[k:])
	reverse(s)
}

func change(s []int, a [3]int, p *[3]int) {
	s[0], a[0], p[0] = 100, 100, 100
	s = append(s, 1)
	s[1] = 200
}

type matrix [2][3]int

type box struct {
	m    matrix
	tags []string
	in   struct{ a, b [2]int }
}

func main() {
	base := []int{0, 1, 2, 3, 4, 5, 6, 7}
	a := base[2:5]
	b := append(a, 99)
	c := append(base[2:5:5], 77)
	fmt.Println(base, a, b, c, len(a), cap(a), cap(base[2:5:5]))
	c[0] = -1
	b[0] = -2
	fmt.Println(base, a[0], c[0])
	fmt.Println(copy(base[3:], base), base, copy(base, base[3:]), base, copy(base, base[:0]))

	s := insert([]int{1, 2, 5}, 2, 3, 4)
	fmt.Println(s, remove(append([]int(nil), s...), 0), insert(nil, 0, 7), insert([]int{1}, 1, 2))
	f := filter(s, func(x int) bool { return x%2 == 1 })
	fmt.Println(f, s)
	s = []int{1, 2, 3, 4, 5, 6, 7}
	rotate(s, 2)
	fmt.Println(s)

	x := make([]int, 2, 10)
	arr, parr := [3]int{1, 2, 3}, [3]int{1, 2, 3}
	change(x, arr, &parr)
	fmt.Println(x, x[:3], arr[0], parr[0])

	r := ring{buf: make([]int, 3)}
	for i := 1; i <= 5; i++ {
		lost, full := r.push(i * i)
		fmt.Print(lost, " ", full, " ", r.slice(), "; ")
	}
	fmt.Println()

	// arrays and structs are copied whole, slices inside are shared
	p := box{tags: []string{"a", "b"}}
	p.in.a[1] = 5
	q := p
	q.m[1][2] = 9
	q.in.b = q.in.a
	q.tags[0] = "shared"
	q.tags = append(q.tags, "own")
	rows := p.m[:]
	rows[0][0] = 4
	for _, row := range q.m {
		row[0] = 1000
	}
	for i := range q.m {
		q.m[i][0]++
	}
	fmt.Println(p.m[0][0], p.m[1][2], q.m[0][0], q.m[1][0], q.m[1][2], p.tags, q.tags, p.in.b[1], q.in.b[1], p.m == q.m, p.in == q.in)
	list := []box{p, q}
	for _, e := range list {
		e.m[0][1] = 1
	}
	first := &list[0]
	list = append(list, box{})
	first.m[0][1] = 2
	fmt.Println(list[0].m[0][1], first.m[0][1], len(list))

	// range looks at the length once, and at an array's copy
	n := 0
	grow := []int{1, 2, 3}
	for i, v := range grow {
		grow = append(grow, v*10)
		grow[2] = 50
		n += v + i
	}
	fix := [3]int{1, 2, 3}
	for i, v := range fix {
		fix[2] = 100
		n += v * (i + 1)
	}
	for i, v := range &fix {
		fix[2] = 7
		n += v * (i + 1)
	}
	fmt.Println(n, grow, fix[2])
	bs := append([]byte("ab"), "cd\xff"...)
	var none []int
	for range none {
		n++
	}
	fmt.Println(len(bs), bs[4], string(bs[:4]), none == nil, none[:0] == nil, append(none, none...) == nil, len(append([]int{}, none...)))
	two := make([][]int, 3)
	for i := range two {
		two[i] = base[i : i+2]
	}
	two[1][0] = -9
	fmt.Println(two[0], two[1], two[2])
}
