package main

import (
	"runtime"
	"sync"
)

type item struct {
	n int
	s []int
	a [2]int
}

var log []string

func note(s string) { log = append(log, s) }

func flush() {
	for _, s := range log {
		print(s, " ")
	}
	println()
	log = nil
}

type node struct {
	left, right *node
	v           int
}

func (n *node) walk(c chan<- int) {
	if n == nil {
		return
	}
	n.left.walk(c)
	c <- n.v
	n.right.walk(c)
}

type wait struct{ c chan int }

func (w wait) get() int   { return <-w.c }
func (w *wait) put(n int) { w.c <- n }

type getter interface{ get() int }

type emb struct {
	*wait
	getter
	x int
}

func (e emb) get() int { return e.wait.get() + e.getter.get() }

func named(c chan int) (n int, err string) {
	defer func() {
		if r := recover(); r != nil {
			err = r.(string)
			n += <-c
		}
	}()
	n = <-c
	if n > 1 {
		panic("big")
	}
	return n + <-c, "fine"
}

func feed(c chan int, xs ...int) chan int {
	go func() {
		for _, x := range xs {
			c <- x
		}
	}()
	return c
}

func copies() {
	c := make(chan item)
	x := item{1, []int{1}, [2]int{1, 2}}
	go func() {
		y := x
		c <- y
		y.n, y.s[0], y.a[0] = 2, 2, 2
		c <- y
		y.a[1] = 9
		close(c)
	}()
	p := <-c
	q, ok := <-c
	println(p.n, p.s[0], p.a[0], q.n, q.s[0], q.a[0], q.a[1], ok)
	z, ok := <-c
	println(z.n, z.s == nil, z.a[0], ok)
	arr := make(chan [2]int, 2)
	v := [2]int{1, 2}
	arr <- v
	v[0] = 5
	arr <- v
	a, b := <-arr, <-arr
	println(a[0], b[0], a == b, v == b)
	m := map[string]item{"a": x}
	w := m["a"]
	w.a[0] = 77
	println(m["a"].a[0], w.a[0])
	f := func(i item) item { runtime.Gosched(); i.a[1] = 5; return i }
	g := f(x)
	println(x.a[1], g.a[1])
	is := []item{x, g}
	for _, i := range is {
		i.a[0] = 100
		runtime.Gosched()
	}
	for i := range is {
		is[i].a[0]++
		runtime.Gosched()
	}
	println(is[0].a[0], is[1].a[0], x.a[0])
}

func selects() {
	a, b := make(chan int), make(chan string)
	done := make(chan struct{})
	go func() {
		defer close(done)
	loop:
		for n := 0; ; n++ {
			select {
			case v, ok := <-a:
				if !ok {
					note("closed")
					break loop
				}
				if v%2 == 0 {
					continue loop
				}
				note("odd")
			case s := <-b:
				switch s {
				case "skip":
					continue
				case "stop":
					break
				default:
					note(s)
				}
				note("b")
			}
		}
		note("end")
	}()
	for i := 0; i < 4; i++ {
		a <- i
	}
	b <- "x"
	b <- "skip"
	b <- "stop"
	close(a)
	<-done
	flush()
	var nilc chan int
	select {
	case <-nilc:
		println("never")
	case nilc <- 1:
		println("never")
	default:
		println("default")
	}
	full := make(chan int, 1)
	for i := 0; i < 2; i++ {
		select {
		case full <- i:
			println("put", i)
		default:
			println("full", i)
		}
	}
	var arr [3]int
	i := 0
	full2 := make(chan int, 3)
	full2 <- 8
	full2 <- 9
	select {
	case arr[func() int { i++; return i }()] = <-full2:
	}
	var ok bool
	select {
	case arr[0], ok = <-full2:
	}
	println(arr[0], arr[1], i, ok)
	close(full2)
	select {
	case arr[0], ok = <-full2:
	}
	println(arr[0], ok)
}

func waits() {
	var mu sync.Mutex
	var wg sync.WaitGroup
	n := 0
	for i := 0; i < 3; i++ {
		wg.Add(1)
		go func(i int) {
			defer wg.Done()
			mu.Lock()
			defer mu.Unlock()
			for j := range [3]int{} {
				old := n
				runtime.Gosched()
				n = old + i*j
			}
		}(i)
	}
	wg.Wait()
	println(n)
	e := emb{&wait{make(chan int, 3)}, wait{feed(make(chan int), 1, 2, 3)}, 4}
	e.put(10)
	e.put(20)
	g := e.get
	println(e.get(), g(), e.getter.get())
	println(named(feed(make(chan int), 1, 5)))
	println(named(feed(make(chan int), 2, 5)))
	c := feed(make(chan int), 1, 2, 3, 4, 5, 6, 7, 8, 9)
	x := []int{<-c, <-c, 7}
	x[<-c-1] += <-c
	y := map[int]int{<-c: <-c}
	println(x[0], x[1], x[2], y[5], <-c-<-c, len(y))
	if v := <-c; v == 9 || <-c == 0 {
		println("short")
	}
	d := feed(make(chan int), 0, 1, 2, 3)
	for v := <-d; v < 3; v = <-d {
		switch w := v * 10; <-func() chan int { return feed(make(chan int), w) }() {
		case 10:
			println("ten")
		case <-feed(make(chan int), 20):
			println("twenty")
		default:
			println("other", w)
		}
	}
	t := &node{&node{nil, nil, 1}, &node{&node{nil, nil, 3}, nil, 4}, 2}
	walk := make(chan int)
	go func() { defer close(walk); t.walk(walk) }()
	for v := range walk {
		print(v, " ")
	}
	println()
	fs := []func(){}
	for i := 0; i < 3; i++ {
		j := i
		fs = append(fs, func() { runtime.Gosched(); println("f", i, j); j++ })
	}
	for _, f := range fs {
		f()
		f()
	}
	func() {
		for i := 0; i < 2; i++ {
			defer func(v int) { runtime.Gosched(); println("late", v, i) }(<-feed(make(chan int), i))
		}
		defer func() {
			println(recover().(string), <-feed(make(chan int), 6))
		}()
		defer func() {
			defer runtime.Gosched()
			panic("second" + string(rune(48+<-feed(make(chan int), 6))))
		}()
		panic("first")
	}()
	var once sync.Once
	r := make(chan int)
	for i := 0; i < 2; i++ {
		go func(i int) {
			once.Do(func() { runtime.Gosched(); note("once") })
			note("after")
			r <- i
		}(i)
	}
	println(<-r + <-r)
	flush()
	ch := make(chan func() (int, error), 1)
	ch <- func() (int, error) { return <-feed(make(chan int), 3), nil }
	n, err := (<-ch)()
	println(n, err == nil)
	p := &n
	*p += <-feed(make(chan int), 4)
	*p, x[0] = x[0]+<-feed(make(chan int), 1), *p
	println(n, x[0])
	var arr [2][2]int
	arr[<-feed(make(chan int), 1)][0]++
	arr[0], arr[1] = arr[1], arr[0]
	println(arr[0][0], arr[1][0])
}

func main() {
	copies()
	selects()
	waits()
	defer println("deferred in main")
	defer func() {
		r := recover()
		println(r.(error).Error())
		go panic("in goroutine")
		runtime.Gosched()
		println("not reached")
	}()
	var m map[string]int
	m[string(rune(65+<-feed(make(chan int), 1)))]++
}
