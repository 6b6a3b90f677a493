// Deferred calls, panics within panics, and what recover answers where.
package main

import (
	"errors"
	"fmt"
	"runtime"
)

type trail struct{ steps []string }

func (t *trail) add(format string, args ...interface{}) {
	t.steps = append(t.steps, fmt.Sprintf(format, args...))
}

func (t *trail) flush(name string) {
	fmt.Print(name, ":")
	for _, s := range t.steps {
		fmt.Print(" ", s)
	}
	fmt.Println()
	t.steps = nil
}

var t trail

func named(n int) (r int, err error) {
	defer func() {
		if e := recover(); e != nil {
			err = fmt.Errorf("n=%d: %v", n, e)
			r *= 2
		}
		r++
	}()
	r = 10
	if n > 2 {
		r = 20
		panic(n)
	}
	return r + n, nil
}

func loop() {
	for i := 0; i < 3; i++ {
		defer t.add("i%d", i)
		defer func() { t.add("c%d", i) }()
	}
	t.add("end")
}

func nested() {
	defer func() { t.add("outer %v", recover()) }()
	defer func() {
		defer func() { t.add("inner %v", recover()) }()
		panic("second")
	}()
	panic("first")
}

func replaced() {
	defer func() { t.add("got %v", recover()) }()
	defer func() {
		t.add("before")
		panic(errors.New("new"))
	}()
	panic("old")
}

func helper() interface{} { return recover() }

func places() {
	defer func() {
		t.add("end %v", recover())
	}()
	defer func() {
		t.add("helper %v", helper())
		func() { t.add("literal %v", recover()) }()
	}()
	defer helper()
	panic("kept or not")
}

type guard struct{ name string }

func (g guard) release()         { t.add("release %s", g.name) }
func (g *guard) catch()          { t.add("%s caught %v", g.name, recover()) }
func (g guard) String() string   { return "guard " + g.name }
func (g *guard) Error() string   { return "error of " + g.name }
func open(name string) (g guard) { t.add("open %s", name); return guard{name} }

func methods() {
	g := open("a")
	defer g.release()
	g.name = "b"
	h := &g
	defer h.catch()
	g.name = "c"
	defer open("d").release()
	f := g.release
	g.name = "e"
	defer f()
	panic(g)
}

func deep(n int) int {
	if n == 0 {
		var p *guard
		return len(p.name)
	}
	defer func() { t.add("%d", n) }()
	return deep(n-1) + 1
}

func kinds() {
	try := func(name string, f func()) {
		defer func() {
			r := recover()
			_, isRuntime := r.(runtime.Error)
			err, isError := r.(error)
			if isError && isRuntime {
				t.add("%s %s", name, err)
			} else {
				t.add("%s %v %t", name, r, isError)
			}
		}()
		f()
	}
	var m map[string][]int
	var fn func(int) int
	var e interface{}
	var err error
	zero, list := 0, []int{1, 2, 3}
	try("div", func() { list[0] /= zero })
	try("mod", func() { zero = 5 % zero })
	try("index", func() { list[len(list)+2]++ })
	try("array", func() { var a [4]int; a[list[2]+zero+1] = 1 })
	try("string", func() { _ = "abc"[len(list)] })
	try("map", func() { m["k"] = append(m["k"], 1) })
	try("func", func() { fn(1) })
	try("nil", func() { err.Error() })
	try("value", func() { panic(fmt.Sprint("v", e)) })
}

func main() {
	fmt.Println(named(1))
	fmt.Println(named(5))
	loop()
	t.flush("loop")
	nested()
	t.flush("nested")
	replaced()
	t.flush("replaced")
	places()
	t.flush("places")
	methods()
	t.flush("methods")
	func() {
		defer func() {
			err := recover().(error)
			t.add("%s", err)
		}()
		deep(4)
	}()
	t.flush("deep")
	kinds()
	t.flush("kinds")

	var err error = &guard{"last"}
	defer fmt.Println("deferred in main")
	defer func() {
		panic(fmt.Sprint(recover(), " and more"))
	}()
	panic(err)
}
