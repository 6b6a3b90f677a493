package main

import "fmt"

type shape interface {
	Area() int
	Perimeter() int
}

type named interface{ Name() string }

type namedShape interface {
	shape
	named
	fmt.Stringer
}

type base struct {
	name string
	id   int
}

func (b base) Name() string     { return fmt.Sprintf("%s#%d", b.name, b.id) }
func (b *base) Rename(s string) { b.name = s }
func (b base) Describe() string { return "base " + b.Name() }
func (b *base) Pointer() *base  { return b }
func (b base) With(id int) base { b.id = id; return b }

type rect struct {
	base
	w, h int
}

func (r rect) Area() int      { return r.w * r.h }
func (r rect) Perimeter() int { return 2 * (r.w + r.h) }
func (r rect) String() string { return fmt.Sprintf("%s[%dx%d]", r.Name(), r.w, r.h) }

type square struct {
	*rect
	note string
}

func (s square) Describe() string { return "square of " + s.rect.Describe() }

type scaled struct {
	shape
	by int
}

func (s scaled) Area() int { return s.shape.Area() * s.by * s.by }

type counter struct{ n int }

func (c *counter) inc() int { c.n++; return c.n }

type logger struct {
	counter
	lines []string
}

func (l *logger) log(s string) { l.lines = append(l.lines, fmt.Sprint(l.inc(), ":", s)) }

type machine struct {
	logger
	*base
	parts map[string]shape
}

type left struct{ x, shared int }
type right struct{ y, shared int }
type both struct {
	left
	right
	x string
}

func total(ss ...shape) (n int) {
	for _, s := range ss {
		n += s.Area()
	}
	return
}

func what(x interface{}) string {
	s := ""
	if _, ok := x.(shape); ok {
		s += "shape "
	}
	if n, ok := x.(named); ok {
		s += "named(" + n.Name() + ") "
	}
	if _, ok := x.(namedShape); ok {
		s += "both "
	}
	if r, ok := x.(interface{ Rename(string) }); ok {
		r.Rename("new")
		s += "renamed "
	}
	return s + "."
}

func main() {
	r := rect{base{"rect", 1}, 3, 4}
	q := square{&rect{base{"sq", 2}, 5, 5}, "n"}
	s := scaled{r, 10}
	fmt.Println(r, &r, q, total(r, &r, q, s, scaled{s, 2}))
	fmt.Println(s.Area(), s.Perimeter(), s.shape.Area())
	fmt.Println(r.Describe(), "|", q.Describe(), "|", q.rect.Describe())

	fmt.Println(what(r), what(&r), what(q), what(s), what(3), what(nil))
	fmt.Println(r.name, q.name, r.Pointer() == &r.base, q.Pointer() == &q.rect.base)

	// values are copied, pointers are shared
	r2 := r
	r2.Rename("copy")
	q2 := q
	q2.Rename("shared")
	q2.w = 9
	fmt.Println(r.name, r2.name, q.name, q.w, r.With(7).Name(), r.id)

	// method values bind their receiver when they are made
	name, rename := r.Name, r.Rename
	rename("later")
	fmt.Println(name(), r.Name())
	area := shape(&r).Area
	r.w = 100
	fmt.Println(area())

	m := machine{base: &r.base, parts: map[string]shape{"a": r, "b": q}}
	m.log("start")
	m.logger.counter.n = 41
	m.log(m.Name())
	before := m.n
	fmt.Println(m.lines, before, m.inc(), m.parts["a"].Area(), m.parts["zz"] == nil)

	b := both{left{1, 2}, right{3, 4}, "x"}
	b.left.shared, b.y = b.right.shared, b.left.x
	fmt.Println(b.x, b.left.x, b.y, b.left.shared, b.right.shared)

	var e shape = scaled{by: 2}
	defer func() {
		fmt.Println(recover() != nil, e.(scaled).by)
	}()
	e.Area()
}
