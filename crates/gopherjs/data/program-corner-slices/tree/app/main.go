// Slices, arrays and strings in their corners.
package main

import "fmt"

type cell struct{ r, c int }

func show(name string, s []int) { fmt.Print(name, len(s), "/", cap(s), s, " ") }

func modify(s []int, a [3]int, p *[3]int) {
	s[0] = 100
	a[0] = 200
	p[0] = 300
	s = append(s, 1)
	s[1] = 400
}

func try(f func()) (msg string) {
	defer func() {
		if e, ok := recover().(error); ok {
			msg = e.Error()
		}
	}()
	f()
	return "fine"
}

func main() {
	var n []int
	e := []int{}
	fmt.Println(n == nil, e == nil, len(n), cap(e), n[:0] == nil, len(n[0:0:0]), append(n, e...) == nil)
	a := [...]int{0, 1, 2, 3, 4, 5, 6, 7}
	s := a[2:5]
	t := s[1:4:5]
	u := a[:0:3]
	show("s", s)
	show("t", t)
	show("u", u)
	t[0] = 30
	u = append(u, 9)
	fmt.Println(a[3], a[0], s[1], cap(append(t, 1)), len(append(t, 1, 2)) == 5)
	t = append(t, 50)
	t = append(t, 60)
	t[0] = -1
	fmt.Println(a[6], a[3], t[0], s[1])

	arr := [3]int{1, 2, 3}
	pa := &arr
	sl := make([]int, 2, 2)
	modify(sl, arr, pa)
	fmt.Println(sl, arr[0], len(pa), cap(pa[1:]), pa[1])
	for i := range pa {
		pa[i] *= i
	}
	for i, v := range pa {
		pa[2-i] += v
	}
	fmt.Println(arr[0], arr[1], arr[2])
	for i, v := range arr {
		arr[2-i] += 10 * v
	}
	fmt.Println(arr[0], arr[1], arr[2])
	sl = arr[:]
	for i, v := range sl {
		sl = append(sl, v)
		sl[0] = i
	}
	fmt.Println(len(sl), sl[0], arr[0])
	for i := range sl {
		if i == 1 {
			sl = nil
		}
	}
	cells := []cell{{1, 2}, {3, 4}}
	for i, c := range cells {
		c.r = 100
		cells[i].c += c.r
		d := &cells[i]
		d.r--
	}
	ptrs := []*cell{{5, 6}, &cells[0], nil}
	ptrs[1].r *= 10
	cells = append(cells, *ptrs[0])
	ptrs[0].c = 0
	ptrs[1].r++
	fmt.Println(cells[0].r, cells[0].c, cells[1].r, cells[2].c, *ptrs[1] == cell{1, 102})
	rows := make([][]int, 3)
	for i := range rows {
		rows[i] = make([]int, i+1)
		rows[i][i] = i
	}
	rows[0] = rows[2]
	rows[0][0] = 7
	rows = append(rows[:1], rows[2:]...)
	fmt.Println(len(rows), rows[1][0], rows[0][2], cap(rows))
	nested := [2][3][]string{1: {2: {"x"}}}
	copyOf := nested
	copyOf[1][2][0] = "y"
	copyOf[1][2] = append(copyOf[1][2], "z")
	fmt.Println(nested[1][2], copyOf[1][2], len(nested[0][0]))

	b := []byte("héllo")
	b[1] = 'e'
	str := string(b)
	b[0] = 'J'
	fmt.Println(len(str), str[0], str == "he\xa9llo", string(b[3:]), string(append([]byte("ab"), "cd"...)))
	r := []rune("aé日\xff")
	r[0]++
	fmt.Println(len(r), string(r[:2]), string(r[2:3]), r[3], len(string(r)), string([]rune{-1, 0x10ffff + 1, 'x'}) == "\ufffd\ufffdx")
	for i, c := range "a\xe6\x97b日" {
		fmt.Print(i, ":", c, " ")
	}
	for i := range "é日" {
		fmt.Print(i, " ")
	}
	fmt.Println("a" < "b", "a" < "B", "é" > "z", "" < "a", "ab" < "abc", "\xff" > "é")
	x := "abc"
	y := x[1:]
	x += y[:1]
	fmt.Println(x, y, x[len(x)-1:], x[:0] == "", copy(b, "XYZ"), string(b))
	i, j, k := 5, 2, -1
	fmt.Println(try(func() { _ = a[i+j+1] }), try(func() { _ = s[k] }), try(func() { arr[i]++ }), try(func() { _ = x[i] }))
	fmt.Println(try(func() { _ = a[i:j] }) != "fine", try(func() { _ = s[:cap(s)] }), try(func() { _ = x[j:i] }) != "fine", try(func() { _ = s[j:i:j] }) != "fine", try(func() { _ = make([]int, k) }) != "fine")
	var np *[3]int
	fmt.Println(len(np), try(func() { np[0] = 1 }), try(func() {
		for i := range np {
			j = i
		}
	}), j, try(func() { _ = np[:] }))
	fmt.Println(string([]byte(nil)) == "", []byte("") == nil, len([]rune("")))
	m := make([]int, 3, 5)
	copy(m[1:], []int{1, 2, 3})
	copy(m, m[1:])
	fmt.Println(m, m[:5], copy(m[2:5], m))
	type matrix [2][2]int
	id := matrix{{1, 0}, {0, 1}}
	mul := func(a, b matrix) (c matrix) {
		for i := range a {
			for j := range b[0] {
				for k := range b {
					c[i][j] += a[i][k] * b[k][j]
				}
			}
		}
		return
	}
	f := matrix{{1, 1}, {1, 0}}
	g := id
	for i := 0; i < 30; i++ {
		g = mul(g, f)
	}
	fmt.Println(g[0][1], id == matrix{{1, 0}, {0, 1}}, g[1] == [2]int{832040, 514229})
}
