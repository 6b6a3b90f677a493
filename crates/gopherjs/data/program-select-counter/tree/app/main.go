package main

import (
	"fmt"
	"runtime"
)

// ticker sends its count at each n-th turn of step.
type ticker struct {
	every, n int
	c        chan int
}

func (t *ticker) step() {
	t.n++
	if t.n%t.every != 0 {
		return
	}
	select {
	case t.c <- t.n / t.every:
	default: // nobody took the last one
	}
}

type stats struct{ got, idle, late int }

func poll(limit int, ts ...*ticker) map[int]*stats {
	m := map[int]*stats{}
	for i := range ts {
		m[i] = &stats{}
	}
	for turn := 0; turn < limit; turn++ {
		for i, t := range ts {
			t.step()
			select {
			case v := <-t.c:
				m[i].got++
				if v%3 == 0 {
					m[i].late++
				}
			default:
				m[i].idle++
			}
		}
	}
	return m
}

func trySend(c chan<- int, v int) bool {
	select {
	case c <- v:
		return true
	default:
		return false
	}
}

func tryRecv(c <-chan int) (v int, ok, open bool) {
	select {
	case v, open = <-c:
		return v, true, open
	default:
	}
	return
}

// giveUp waits for c, but at most n turns of the scheduler.
func giveUp(c <-chan string, n int) string {
	timeout := make(chan struct{})
	go func() {
		for i := 0; i < n; i++ {
			runtime.Gosched()
		}
		close(timeout)
	}()
	select {
	case s := <-c:
		return s
	case <-timeout:
		return "timeout"
	}
}

func main() {
	m := poll(24, &ticker{2, 0, make(chan int, 1)}, &ticker{5, 0, make(chan int, 1)}, &ticker{every: 3, c: make(chan int)})
	for i := 0; i < len(m); i++ {
		fmt.Println(i, m[i].got, m[i].idle, m[i].late)
	}

	c := make(chan int, 2)
	fmt.Println(trySend(c, 1), trySend(c, 2), trySend(c, 3))
	fmt.Println(tryRecv(c))
	close(c)
	fmt.Println(tryRecv(c))
	fmt.Println(tryRecv(c))
	fmt.Println(tryRecv(nil))
	fmt.Println(trySend(nil, 1))

	// nil channels take cases out
	a, b := make(chan int), make(chan int)
	go func() {
		for i := 0; i < 3; i++ {
			a <- i
		}
		close(a)
	}()
	go func() {
		for i := 10; i < 14; i++ {
			b <- i
		}
		close(b)
	}()
	sa, sb := 0, 0
	for x, y := a, b; x != nil || y != nil; {
		select {
		case v, ok := <-x:
			if !ok {
				x = nil
				break
			}
			sa += v
		case v, ok := <-y:
			if !ok {
				y = nil
				continue
			}
			sb += v
		}
	}
	fmt.Println(sa, sb)

	never := make(chan string)
	fmt.Println(giveUp(never, 10))
	ready := make(chan string, 1)
	ready <- "ready"
	fmt.Println(giveUp(ready, 1<<20))

	// values are computed in order, also of cases that are not taken
	tell := func(s string, c chan int) chan int { fmt.Print(s, " "); return c }
	val := func(v int) int { fmt.Print("v", v, " "); return v }
	full := make(chan int)
	one := make(chan int, 1)
	select {
	case tell("a", full) <- val(1):
	case tell("b", one) <- val(2):
		fmt.Println("sent", <-one)
	case x := <-tell("c", nil):
		fmt.Println("got", x)
	}
loop:
	for i := 0; ; i++ {
		select {
		case one <- i:
			if i > 2 {
				fmt.Println("leave", i)
				break loop
			}
		case v := <-one:
			fmt.Println("back", v, i)
		}
	}
}
