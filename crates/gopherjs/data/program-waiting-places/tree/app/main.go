// Calls that wait, in every place where an expression stands.
package main

import (
	"fmt"
	"runtime"
	"sync"
)

var trace []string

func note(s string) { trace = append(trace, s) }

func show(what string, args ...interface{}) {
	fmt.Print(what, " ", fmt.Sprintln(args...))
	if len(trace) > 0 {
		fmt.Println("  ", trace)
		trace = nil
	}
}

// slow gives n after others have run.
func slow(n int) int {
	runtime.Gosched()
	note(fmt.Sprint(n))
	return n
}

// wait gives n too, and tells nobody.
func wait(n int) int {
	runtime.Gosched()
	return n
}

func slowPair(n int) (int, error) { return slow(n), nil }

func yes(n int) bool { return slow(n) > 0 }

func list(n int) []int { return make([]int, slow(n)) }

type thing struct {
	n    int
	list []int
	next *thing
}

func (t *thing) get(k int) *thing { k = slow(k); t.n += k; return t }
func (t thing) sum(k int) int     { return t.n + slow(k) }

type getter interface {
	get(k int) *thing
	sum(k int) int
}

var early = slow(1) + slow(2)

var table = map[string]int{"a": slow(3), "b": early}

func init() {
	c := make(chan int)
	go func() { c <- slow(4) }()
	early += <-c
}

func results(n int) (a, b int, s string) {
	defer func() { a += slow(1); runtime.Gosched(); b *= 2 }()
	return slow(n), slow(n + 1), fmt.Sprint(slow(n + 2))
}

func loops() (n int) {
	for i := slow(1); i < slow(4); i += slow(1) {
		if i == slow(2) {
			continue
		}
		n += i
	}
	for i, v := range append(list(2), slow(7)) {
		n += i * slow(v)
	}
outer:
	for {
		switch x := slow(3); {
		case yes(-1), x == slow(4):
			n = -1
		case yes(5):
			n += 1000
			for range list(3) {
				n++
				if n > slow(1017) {
					break outer
				}
				break
			}
			fallthrough
		case yes(6):
			n += slow(2)
			continue outer
		}
	}
	return
}

func assign() {
	a := []int{1, 2, 3}
	m := map[int]int{}
	a[slow(1)], m[slow(5)] = slow(10), slow(20)
	a[slow(0)] += slow(100)
	m[slow(5)]++
	m[slow(6)] -= a[slow(2)]
	t := &thing{n: slow(8), list: []int{slow(1), slow(2)}, next: &thing{slow(9), nil, nil}}
	t.next.n <<= uint(slow(2))
	t.list[slow(1)-1], t.n = slow(40), t.list[slow(0)]
	x, y := slowPair(3)
	var z, w = slow(1), yes(0)
	show("assign", a, m[5], m[6], t.n, t.list, t.next.n, x, y, z, w)
}

func calls() {
	t := &thing{n: 1}
	v := t.get(2).get(slow(3)).sum(4)
	var g getter = t
	f, h := g.get, t.sum
	u := f(1).n + h(10) + g.sum(0)
	k := func(xs ...int) int { return len(xs) + slow(1) }(slow(1), slow(2), slow(3))
	fs := []func(int) int{slow, t.sum, func(n int) int { return -n }}
	for _, f := range fs {
		k += f(5)
	}
	show("calls", v, u, k, t.n)
	ok := yes(0) && yes(1) || yes(2) && !yes(3)
	either := yes(1) || yes(9)
	s := []int{5, 6, 7, 8}[slow(1):slow(3)]
	str := "abcdef"[slow(2):] + string(rune(slow(65)))
	e := interface{}(slow(7)).(int)
	c := make(chan int, slow(2))
	c <- slow(6)
	show("exprs", ok, either, s, str, e, <-c+slow(1), cap(c), len(list(3)), -slow(4), ^slow(0))
}

func talk() {
	in, out := make(chan int), make(chan string)
	var wg sync.WaitGroup
	wg.Add(1)
	go func() {
		defer wg.Done()
		defer close(out)
		for v := range in {
			switch {
			case v%2 == wait(0):
				continue
			case v > 6:
				return
			}
			out <- fmt.Sprint(v, <-in)
		}
	}()
	feed := func() chan int { note("feed"); runtime.Gosched(); return in }
	n := 0
	for i := 1; ; {
		select {
		case feed() <- slow(i):
			i++
		case s, ok := <-out:
			if !ok {
				wg.Wait()
				note("closed")
				show("talk", i, n)
				return
			}
			n += len(s)
		}
	}
}

func recovered(n int) (r int) {
	defer func() {
		runtime.Gosched()
		if e := recover(); e != nil {
			r = slow(-1)
		}
	}()
	defer func(k int) { r += slow(k) }(slow(3))
	if n == 0 {
		var t *thing
		return t.get(slow(2)).n
	}
	return 100 / slow(n-1)
}

func main() {
	show("early", early, table["a"], table["b"])
	a, b, s := results(5)
	show("results", a, b, s)
	show("loops", loops())
	assign()
	calls()
	talk()
	show("recovered", recovered(0), recovered(1), recovered(2))
	var mu sync.Mutex
	total := 0
	done := make(chan bool)
	for i := 0; i < 3; i++ {
		i := i
		go func() {
			defer func() { done <- true }()
			for k := 0; k < 3; k++ {
				mu.Lock()
				old := total
				runtime.Gosched()
				total = old + i*k
				mu.Unlock()
			}
		}()
	}
	for i := 0; i < 3; i++ {
		<-done
	}
	show("total", total)
}
