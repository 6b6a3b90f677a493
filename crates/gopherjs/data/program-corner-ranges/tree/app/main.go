package main

type F func(int) F
type S []S
type M map[string]M
type C chan C
type L = []int
type A = struct{ x int }
type Bytes []byte
type Byte byte
type Rune rune
type B bool

type T struct {
	a int
	b [2]int
}

func (t T) val() int  { return t.a }
func (t *T) ptr() int { return t.a }
func (*T) none() int  { return 7 }
func (T) non() int    { return 8 }

type I interface{ val() int }
type J interface {
	I
	ptr() int
}
type E1 struct{ T }
type E2 struct {
	*E1
	a string
}
type E3 struct{ I }

func try(name string, f func()) {
	defer func() {
		r := recover()
		if e, ok := r.(error); ok {
			println(name, "error", e.Error())
		} else if s, ok := r.(string); ok {
			println(name, "string", s)
		} else {
			println(name, r == nil)
		}
	}()
	f()
}

func two() (int, string)            { return 1, "two" }
func pass() (int, string)           { return two() }
func vari(a int, b ...string)       { println(a, len(b)) }
func variAll(b ...interface{})      { println(len(b)) }
func blank(_ int, _ string) (_ int) { return }
func say(s string, n int) int       { println(s, n); return n }

func keys() {
	parts := []string{"", "a", ","}
	var all []string
	for _, p := range parts {
		for _, q := range parts {
			all = append(all, p+q)
		}
	}
	m := map[[2]string]int{}
	type k struct {
		a string
		b int8
		c string
		d bool
	}
	n := map[k]int{}
	seen := map[string]bool{}
	for _, p := range all {
		seen[p] = true
		for _, q := range all {
			m[[2]string{p, q}]++
			n[k{p, 1, q, true}]++
			n[k{p, 11, q, false}]++
			n[k{a: p + "1", c: q}]++
		}
	}
	println(len(all), len(seen), len(m), len(n))
	w := map[[2]int64]string{{1, 23}: "a", {12, 3}: "b", {-1, 1}: "c", {1 << 40, -1 << 62}: "d", {0, 0}: "e"}
	println(len(w), w[[2]int64{12, 3}], w[[2]int64{1 << 40, -1 << 62}], w[[2]int64{}])
	u := map[uint64]int{1 << 63: 1, 1<<64 - 1: 2, 0: 3}
	u[1<<63]++
	println(u[1<<63], u[1<<64-1], len(u))
	z := map[int]int{}
	zero := 0
	z[-zero]++
	z[zero*-5]++
	z[0]++
	z[zero/-3]++
	z[-7%7]++
	println(z[0], len(z))
	b := map[bool]string{true: "t"}
	b[false] += "f"
	println(b[true], b[false], b[zero == 0])
}

func ranges() {
	var p *[4]int
	println(len(p), cap(p))
	for i := range p {
		print(i, " ")
	}
	println()
	m := map[string]int{}
	a := [3]int{5, 6, 7}
	q := new(int)
	for m["k"], a[2] = range a {
		println(m["k"], a[2])
	}
	for *q = range a {
	}
	println(*q)
	for i, c := range []byte("hé") {
		print(i, c, " ")
	}
	for i, c := range []rune("hé") {
		print(i, c, " ")
	}
	println()
	x := []int{1, 2, 3}
	for i, v := range x {
		x = append(x, v*10)
		x[i] = 0
		if i == 0 {
			x[1] = 99
		}
		println(i, v, len(x))
	}
	arr := [3]int{1, 2, 3}
	for i, v := range arr {
		arr[2] = 100
		println(i, v)
	}
	for i, v := range &arr {
		arr[2] = 200
		println(i, v)
	}
	for i, v := range arr[:] {
		arr[2] = 300 + i
		println(i, v)
	}
	mm := map[int]int{1: 1, 2: 2, 3: 3}
	n := 0
	for k := range mm {
		delete(mm, 1)
		delete(mm, 2)
		delete(mm, 3)
		n++
		_ = k
	}
	println(n, len(mm))
outer:
	for i, c := range "abcabc" {
		switch {
		case c == 'a':
			continue outer
		case i == 4:
			break outer
		default:
			if i > 1 {
				break
			}
			println("at", i)
		}
		println("after", i)
	}
	for i := 0; i < 3; i++ {
		defer func(n int) { println("deferred", i, n) }(i)
		i := i * 2
		_ = i
	}
}

func order() {
	a := []int{0, 0, 0}
	i := 0
	i, a[i] = 1, 5
	println(i, a[0], a[1])
	a[say("x", 0)], a[say("y", 1)] = say("z", 3), say("w", 4)
	m := map[int]int{}
	m[say("k", 1)] += say("v", 2)
	println(a[0], a[1], m[1])
	println(len([2]int{say("len", 1)}))
	const n = len([2]int{})
	x, y := &a[0], &a[1]
	*x, *y = *y, *x
	println(a[0], a[1], n)
	c := []chan int{make(chan int, 1), make(chan int, 1)}
	select {
	case c[say("send", 0)] <- say("value", 3):
		println("sent")
	case v := <-c[say("recv", 1)]:
		println(v)
	}
	println(<-c[0])
	vari(two())
	vari(pass())
	variAll(two())
	variAll(nil...)
	variAll([]interface{}{}, nil)
	println(blank(1, ""))
	s := []int{1, 2, 3}
	s, s[0] = nil, 9
	println(s == nil)
	var pt *T
	t2 := &T{a: 1}
	pt, t2.a = t2, 2
	println(pt.a)
	func() {
		f := func() func() { println("made"); return func() { println("called") } }
		defer f()()
		println("body")
	}()
	k := 0
	g := func() int { k++; return k }
	arr := [...]int{g(), g(), 5: g(), g()}
	println(len(arr), arr[0], arr[1], arr[5], arr[6])
	st := struct{ a, b int }{b: g(), a: g()}
	println(st.a, st.b)
	println(g()+g()*g(), g() < g(), g() == g() || g() > 0)
}

func main() {
	keys()
	ranges()
	order()
	var f F
	f = func(n int) F { println("f", n); return f }
	f(1)(2)(3)
	s := S{nil, S{}, S{S{}, nil}}
	println(len(s), len(s[2]), s[0] == nil)
	m := M{"a": M{"b": nil}}
	println(len(m["a"]), m["a"]["b"] == nil, len(m["x"]["y"]["z"]))
	c := make(C, 1)
	c <- c
	println(<-c == c)
	var l L = []int{1}
	l = append(l, 2)
	var a A = struct{ x int }{3}
	println(len(l), a.x, a == A{3})
	b := Bytes("héllo")
	b[0] = 'H'
	println(string(b), string([]Byte{72, 105}), string([]Rune{0x65e5}), string(Bytes(nil)) == "", len(append(b, "x"...)), string(append([]byte("a"), b...)))
	var flag B = 1 < 2
	if flag && !B(l == nil) {
		println(flag, !flag)
	}
	var np *T
	var ni I
	try("value by nil", func() { println(np.val()) })
	try("pointer by nil", func() { println(np.none()) })
	try("deref", func() { println(np.ptr()) })
	try("method value nil", func() { g := np.val; println("not"); g() })
	try("method value nil pointer", func() { g := np.none; println("made", g()) })
	try("method value of nil interface", func() { g := ni.val; println("not"); g() })
	try("defer nil", func() { var g func(); defer g(); println("reached") })
	try("embedded nil", func() { e := E2{}; println(e.none()) })
	try("embedded nil 2", func() { e := E2{E1: &E1{}}; println(e.none(), e.ptr(), e.a, e.T.a) })
	try("interface nil", func() { e := E3{}; println(e.val()) })
	ni = np
	println(ni == nil, ni != nil)
	try("assert", func() {
		ni = T{a: 4}
		_, ok := ni.(J)
		println(ok)
		ni = &T{a: 5}
		j, ok := ni.(J)
		println(ok, j.ptr(), j.(I).val())
	})
	try("slice cap", func() { x := make([]int, 2, 10); println(len(x[1:5]), len(x[:0:0]), cap(x[2:4:6])) })
	try("map nil", func() { var m map[string][]int; println(len(m["a"])); m["a"] = append(m["a"], 1) })
	try("closed", func() { c := make(chan int); close(c); c <- 1 })
	try("div", func() { x := 0; println(5 / x) })
	try("rem", func() { x := int64(0); println(5 % x) })
	try("min", func() { x, y := -1<<31, -1; println(x/y, x%y, x*y, -x) })
	try("min64", func() { x, y := int64(-1<<63), int64(-1); println(x/y, x%y, x*y, -x) })
	try("min8", func() { x, y := int8(-128), int8(-1); println(x/y, x%y, x*y, -x) })
	try("repanic", func() {
		defer func() { r := recover(); panic(r.(string) + "!") }()
		panic("a")
	})
	try("recover twice", func() {
		defer func() { println(recover() == nil) }()
		defer func() { println(recover() != nil, recover() == nil) }()
		panic("x")
	})
	try("nested", func() {
		defer func() { println(recover() != nil) }()
		defer func() {
			defer func() { println(recover() != nil) }()
			panic("second")
		}()
		panic("first")
	})
	var any interface{} = 3
	switch any {
	case "3":
		println("string")
	case int8(3):
		println("int8")
	case 3:
		println("int")
	}
	switch x := any.(type) {
	case nil:
		println("nil")
	case int, string:
		_, ok := x.(int)
		println("either", ok)
	}
	switch y := 5; {
	case y > 3:
		println("big")
		fallthrough
	case y > 100:
		println("fell")
	default:
		println("no")
	}
	strings := "shadow"
	println(strings)
	for i := range [3]int{} {
		switch i {
		case 1:
			continue
		}
		println("i", i)
	}
	{
	loop:
		for {
			for {
				break loop
			}
		}
		loop := 3
		println(loop)
	}
	print("a", 1, true, "b", int64(-5), '\n', "\n")
	println()
	println(`raw \n "x"`+"\101\x41\u0041\U00000041", len(`a
b`), '\'', "\"", '\\', '\377')
}
