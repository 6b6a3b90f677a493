package main

import "fmt"

type message struct {
	hops  int
	token string
	path  []int
}

type node struct {
	id   int
	in   chan message
	next *node
}

type ring struct {
	nodes []*node
	ended chan int
}

func newRing(n int) *ring {
	r := &ring{ended: make(chan int)}
	for i := 0; i < n; i++ {
		r.nodes = append(r.nodes, &node{id: i, in: make(chan message)})
	}
	for i, x := range r.nodes {
		x.next = r.nodes[(i+1)%n]
	}
	return r
}

func (r *ring) run(x *node) {
	for m := range x.in {
		m.hops--
		m.path = append(m.path, x.id)
		if m.hops == 0 {
			fmt.Println(m.token, "ends at", x.id, "path", m.path)
			r.ended <- x.id
			continue
		}
		x.next.in <- m
	}
	fmt.Println("node", x.id, "closed")
	r.ended <- -1
}

type lock struct{ c chan struct{} }

func newLock() lock {
	l := lock{make(chan struct{}, 1)}
	l.c <- struct{}{}
	return l
}

func (l lock) acquire() { <-l.c }
func (l lock) release() { l.c <- struct{}{} }

func main() {
	r := newRing(5)
	for _, x := range r.nodes {
		go r.run(x)
	}
	for _, hops := range []int{1, 7, 12} {
		r.nodes[0].in <- message{hops: hops, token: fmt.Sprint("token", hops)}
		fmt.Println("got", <-r.ended)
	}
	for _, x := range r.nodes {
		close(x.in)
		fmt.Println("end", <-r.ended)
	}
	// two locks that are taken in different order
	a, b := newLock(), newLock()
	b.acquire()
	step := make(chan int)
	go func() {
		a.acquire()
		step <- 1
		b.acquire()
		fmt.Println("never both")
	}()
	fmt.Println("step", <-step)
	fmt.Println("main waits")
	defer fmt.Println("not run")
	a.acquire()
	fmt.Println("unreached")
	a.release()
}
