// Names in their corners: shadowed predeclared ones, blanks, fields and methods of all kinds of types.
package main

import (
	"fmt"
	str "strings"
)

type int8 = string
type error interface{ Error() string }
type list []int
type table map[string]list
type fun func(int) int
type flag bool
type blank struct {
	a int
	_ int
	_ string
	b int
}

func (l list) sum() (n int) {
	for _, v := range l {
		n += v
	}
	return
}
func (l *list) push(vs ...int) *list          { *l = append(*l, vs...); return l }
func (t table) add(k string, v int)           { l := t[k]; l.push(v); t[k] = l }
func (f fun) twice() fun                      { return func(n int) int { return f(f(n)) } }
func (f flag) not() flag                      { return !f }
func (_ flag) none(_ int, _ ...string) string { return "none" }
func (list) kind() string                     { return "list" }

var (
	_      = note("blank")
	second = note("second" + first)
	first  = note("first")
	_, two = pair()
)

var notes []string

func note(s string) string { notes = append(notes, s); return s }

func pair() (int, string) { note("pair"); return 1, "two" }

func init() { note("init 1") }
func init() { note("init 2") }

func print(s string) { fmt.Print("<", s, ">") }

func len2(x interface{ len() int }) int { return x.len() }

type sized struct{ int }

func (s sized) len() int { return s.int }

func shadows() string {
	len := func(s string) int { return 100 }
	append := str.Repeat
	string := "str"
	true, false := false, true
	nil := 5
	iota := nil + 1
	var byte, rune = "byte", 'r'
	make, new := 1, 2
	const cap = 7
	type uint struct{ x int }
	u := uint{cap}
	recover := 3
	return fmt.Sprint(len(string), append("ab", 2), true, false, nil, iota, byte, rune, make+new, u.x, recover)
}

func main() {
	var s int8 = "alias"
	var e error = fmt.Errorf("err")
	print(s)
	print(e.Error())
	fmt.Println(notes, first, second, two)
	fmt.Println(shadows())
	l := list{1, 2}
	l.push(3).push(4, 5)
	t := table{}
	t.add("a", 1)
	t.add("a", 2)
	t.add("b", l.sum())
	fmt.Println(l.sum(), t["a"].sum(), t["b"][0], t["none"].sum(), l.kind(), list(nil).kind())
	add := fun(func(n int) int { return n + 3 })
	fmt.Println(add.twice()(1), add.twice().twice()(1), flag(true).not(), flag(2 > 1).none(1), len2(sized{4}))
	x, y := blank{1, 2, "x", 3}, blank{a: 1, b: 3}
	fmt.Println(x == y, interface{}(x) == interface{}(y), map[blank]int{x: 5}[y])
	anon := struct {
		name string `json:"name"`
		tags []string
		in   struct{ x, y int }
	}{name: "n"}
	anon.in.x, anon.in.y = 1, 2
	in := anon.in
	in.x = 50
	type point struct{ x, y int }
	var pt point = in
	pt.y++
	anon.in = pt
	fmt.Println(anon.in.x, anon.in.y, in.y, in == struct{ x, y int }(pt), point(in) == point{50, 2})
	for _, f := range []func() (int, string){pair, func() (_ int, s string) { s = "named"; return }} {
		n, s := f()
		fmt.Print(n, s, " ")
	}
	_, _ = pair()
	fmt.Println(func(a, _ int, _ string) int { return a }(1, 2, "x"))
	var i, j interface{}
	i, j = l, &l
	_, isList := i.(list)
	_, isInts := i.([]int)
	p, isPtr := j.(*list)
	sum, isSum := i.(interface{ sum() int })
	_, isPush := i.(interface{ push(...int) *list })
	fmt.Println(isList, isInts, isPtr && p == &l, isSum && sum.sum() == 15, isPush)
	const (
		a = "x"
		b
		c = iota * 10
		d
	)
	fmt.Println(a, b, c, d)
	if x, y := 1, 2; x > y {
	} else if z := x + y; z == 3 {
		x := z * 10
		fmt.Println("else", x, y, z)
	}
	var err error
	if _, err := fmt.Println("shadowed"); err == nil {
		_ = err
	}
	fmt.Println(err == nil)
	func() {
		main := func() string { return "inner main" }
		fmt.Println(main())
	}()
	// a label, a variable and a type of one name
	type same int
	var same2 same = 3
same:
	for same := same2; same > 0; same-- {
		if same == 2 {
			break same
		}
		fmt.Println("same", int(same))
	}
}
