package main

import (
	"errors"
	"fmt"
	"runtime"
)

type trace []string

func (t *trace) add(s string) { *t = append(*t, s) }

func order(t *trace) (n int) {
	for i := 0; i < 3; i++ {
		defer func(k int) {
			t.add(fmt.Sprint("d", k, ":", n))
			n = n*10 + k
		}(i)
	}
	defer t.add("early")
	n = 5
	return n + 1
}

func safe(f func()) (err error) {
	defer func() {
		switch r := recover().(type) {
		case nil:
		case runtime.Error:
			err = errors.New("runtime: " + r.Error())
		case error:
			err = r
		default:
			err = fmt.Errorf("panic: %v", r)
		}
	}()
	f()
	return
}

func again(depth int) {
	defer func() {
		if r := recover(); r != nil {
			if depth == 2 {
				panic(fmt.Sprint(r, "!"))
			}
			panic(r)
		}
	}()
	if depth == 4 {
		panic("deep")
	}
	again(depth + 1)
}

func replaced() {
	defer func() {
		defer func() {
			fmt.Println("inner", recover())
		}()
		panic("second")
	}()
	panic("first")
}

type closer struct {
	name string
	t    *trace
}

func (c closer) Close()      { c.t.add("close " + c.name) }
func (c *closer) Reset()     { c.t.add("reset " + c.name); c.name = "" }
func (c *closer) fail() bool { return c == nil }

func resources(t *trace, bad int) (err error) {
	defer func() {
		if r := recover(); r != nil {
			err = fmt.Errorf("failed at %v", r)
		}
	}()
	for i := 0; i < 3; i++ {
		c := closer{fmt.Sprint("f", i), t}
		defer c.Close()
		c.name = "changed"
		if i == bad {
			panic(i)
		}
	}
	p := &closer{"p", t}
	defer p.Close()
	defer p.Reset()
	return nil
}

func loop(t *trace) {
	for i := 0; i < 4; i++ {
		func() {
			defer func() {
				if x := recover(); x != nil {
					t.add(fmt.Sprint("it", i, "=", x))
				}
			}()
			if i%2 == 1 {
				panic(i * 100)
			}
			t.add(fmt.Sprint("it", i))
		}()
	}
}

func notHere() (r interface{}) {
	defer func() { r = recover() }()
	defer func() {
		func() { fmt.Println("nested", recover() == nil) }()
	}()
	panic("p")
}

func helper() interface{} { return recover() }

func byHelper() (r interface{}) {
	defer func() { r = recover() }()
	defer func() { helper() }()
	defer helper()
	panic("taken by helper")
}

func main() {
	t := &trace{}
	fmt.Println(order(t), []string(*t))
	var m map[string]int
	var p *closer
	var s []int
	var e interface{} = 3
	z := 0
	for _, f := range []func(){
		func() {}, func() { panic("text") }, func() { panic(errors.New("err")) }, func() { panic(42) },
		func() { _ = 1 / z }, func() { m["a"] = 1 }, func() { _ = s[3] }, func() { p.Reset() },
		func() { _ = e.(string) }, func() { close((chan int)(nil)) }, func() { var g func(); g() },
		func() { again(0) }, func() { _ = p.fail(); panic(fmt.Sprint(p.fail())) },
	} {
		fmt.Println(safe(f))
	}
	fmt.Println(safe(replaced))
	*t = nil
	fmt.Println(resources(t, 1), []string(*t))
	*t = nil
	fmt.Println(resources(t, 9), []string(*t))
	*t = nil
	loop(t)
	fmt.Println([]string(*t))
	fmt.Println(notHere())
	fmt.Println(byHelper())
	fmt.Println(recover())
}
