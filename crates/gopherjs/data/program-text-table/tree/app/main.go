package main

import (
	"fmt"
	"strings"
)

type align int

const (
	left align = iota
	right
	center
)

type column struct {
	title string
	align align
	width int
}

type table struct {
	cols []column
	rows [][]string
}

func runes(s string) (n int) {
	for range s {
		n++
	}
	return
}

func (t *table) add(cells ...interface{}) *table {
	row := make([]string, 0, len(t.cols))
	for i, c := range cells {
		s := fmt.Sprint(c)
		row = append(row, s)
		if w := runes(s); w > t.cols[i].width {
			t.cols[i].width = w
		}
	}
	t.rows = append(t.rows, row)
	return t
}

func pad(s string, w int, a align) string {
	n := w - runes(s)
	if n <= 0 {
		return s
	}
	switch a {
	case right:
		return strings.Repeat(" ", n) + s
	case center:
		return strings.Repeat(" ", n/2) + s + strings.Repeat(" ", n-n/2)
	}
	return s + strings.Repeat(" ", n)
}

func (t *table) String() string {
	var b strings.Builder
	line := func(l, m, r string) {
		b.WriteString(l)
		for i, c := range t.cols {
			if i > 0 {
				b.WriteString(m)
			}
			b.WriteString(strings.Repeat("-", c.width+2))
		}
		b.WriteString(r)
		b.WriteByte('\n')
	}
	row := func(cells []string, a *align) {
		b.WriteByte('|')
		for i, c := range t.cols {
			s := ""
			if i < len(cells) {
				s = cells[i]
			}
			how := c.align
			if a != nil {
				how = *a
			}
			b.WriteString(" " + pad(s, c.width, how) + " |")
		}
		b.WriteByte('\n')
	}
	head := center
	titles := []string{}
	for _, c := range t.cols {
		titles = append(titles, c.title)
	}
	line("+", "+", "+")
	row(titles, &head)
	line("+", "+", "+")
	for _, r := range t.rows {
		row(r, nil)
	}
	line("+", "+", "+")
	return b.String()
}

func newTable(cols ...column) *table {
	for i := range cols {
		cols[i].width = runes(cols[i].title)
	}
	return &table{cols: cols}
}

type money int

func (m money) String() string {
	s := ""
	if m < 0 {
		s, m = "-", -m
	}
	return fmt.Sprintf("%s%d.%02d", s, int(m)/100, int(m)%100)
}

func main() {
	t := newTable(column{title: "item"}, column{"price", right, 0}, column{"in stock", center, 0})
	t.add("bread", money(249), true).add("caf\u00e9 cr\u00e8me", money(1399), false)
	t.add("refund", money(-5), nil).add("only name")
	fmt.Print(t)
	fmt.Println(len(t.String()), runes(t.String()))

	fmt.Printf("[%5d] [%-5d] [%05d] [%05d]\n", 42, 42, 42, -42)
	fmt.Printf("[%8s] [%-8s] [%3s]\n", "go", "go", "gopher")
	fmt.Printf("[%6t] [%-6t] [%c%c] [%x] [%x]\n", true, false, 'h', 0x20ac, 255, "hi~")
	fmt.Printf("[%4x] [%04x] [%x] %d%%\n", 10, 10, -26, 50)
	fmt.Printf("[%6v] [%-6v] [%v]\n", money(5), money(12), []int{1, -2, 3})
	fmt.Println(fmt.Sprint("a", 1, 2, "b", "c", 3, true, false), fmt.Sprintln("x", 1))
}
