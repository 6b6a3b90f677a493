package main

import "fmt"

type grid struct {
	w, h  int
	cells []int
}

func (g *grid) at(x, y int) *int { return &g.cells[y*g.w+x] }

func (g *grid) row(y int) []int { return g.cells[y*g.w : (y+1)*g.w] }

func walk(g *grid, steps string) (x, y int) {
	defer func() { fmt.Println("at", x, y) }()
	for _, s := range steps {
		switch s {
		case 'r':
			x++
		case 'l':
			x--
		case 'd':
			y++
		case 'u':
			y--
		}
		*g.at(x, y)++
	}
	return
}

func try(name string, f func()) {
	defer func() {
		fmt.Println(name, "->", recover())
	}()
	f()
	fmt.Println(name, "fine")
}

func main() {
	g := &grid{w: 4, h: 3, cells: make([]int, 12)}
	walk(g, "rrdlldr")
	fmt.Println(g.cells, g.row(1))
	idx, neg := 5, -1
	arr := [3]int{1, 2, 3}
	var none *[3]int
	var nilSlice []string
	s := "abc"
	try("slice", func() { _ = g.cells[12] })
	try("negative", func() { _ = g.cells[neg] })
	try("array", func() { _ = arr[idx] })
	try("array set", func() { arr[idx-2] = 9 })
	try("string", func() { _ = s[len(s)] })
	try("nil slice", func() { _ = nilSlice[0] })
	try("nil array", func() { _ = none[1] })
	try("nil array len", func() { fmt.Println(len(none), cap(none)) })
	try("nil array range", func() {
		for i := range none {
			fmt.Print(i, " ")
		}
	})
	try("uint index", func() { var u uint8 = 200; _ = arr[u] })
	try("int64 index", func() { k := int64(3); _ = arr[k] })
	try("max index", func() { k := uint32(1 << 31); _ = arr[k%7] })
	try("empty bounds", func() { fmt.Println(len(s[3:]), len(g.cells[12:]), len(nilSlice[0:0])) })
	try("cap bounds", func() { t := g.cells[:2]; fmt.Println(len(t[:12]), len(t[1:3:4])) })
	fmt.Println(arr[0], arr[1], arr[2], arr[idx-2:], g.cells[3])

	var rows [][]int
	for y := 0; y < g.h; y++ {
		rows = append(rows, g.row(y))
	}
	rows[2][3] = 77
	fmt.Println(g.cells)
	defer fmt.Println("deferred", len(rows))
	x, y := walk(g, "ddrrrrr")
	fmt.Println("not reached", x, y)
}
