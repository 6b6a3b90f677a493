package main

import (
	"fmt"
	"runtime"
	"sync"
)

type call struct {
	done chan struct{}
	val  int
	err  error
}

// memo computes each value once, also when many ask at the same time.
type memo struct {
	mu    sync.Mutex
	calls map[string]*call
	f     func(string) (int, error)
	runs  int
}

func (m *memo) get(k string) (int, error) {
	m.mu.Lock()
	c := m.calls[k]
	if c != nil {
		m.mu.Unlock()
		<-c.done
		return c.val, c.err
	}
	c = &call{done: make(chan struct{})}
	m.calls[k] = c
	m.runs++
	m.mu.Unlock()
	c.val, c.err = m.f(k)
	close(c.done)
	return c.val, c.err
}

type queue struct {
	items chan int
	quit  chan struct{}
	wg    sync.WaitGroup
}

func (q *queue) produce(from, n int) {
	defer q.wg.Done()
	for i := 0; i < n; i++ {
		select {
		case q.items <- from + i:
		case <-q.quit:
			return
		}
	}
}

type tally struct {
	mu    sync.Mutex
	count int
	xor   int
	sum   int
}

func (t *tally) eat(c <-chan int, done chan<- int) {
	n := 0
	for x := range c {
		t.mu.Lock()
		t.count++
		t.xor ^= x
		t.sum += x
		t.mu.Unlock()
		n++
	}
	done <- n
}

type request struct {
	key   string
	delta int
	reply chan int
}

// server owns its map, all others ask by messages.
func server(reqs <-chan request, stop <-chan bool, stopped chan<- map[string]int) {
	m := map[string]int{}
	for {
		select {
		case r := <-reqs:
			m[r.key] += r.delta
			r.reply <- m[r.key]
		case <-stop:
			stopped <- m
			return
		}
	}
}

func main() {
	m := &memo{calls: map[string]*call{}, f: func(k string) (int, error) {
		n := 0
		for i := 0; i < len(k)*3; i++ {
			runtime.Gosched()
			n = n*7 + int(k[i%len(k)])
		}
		if k == "bad" {
			return 0, fmt.Errorf("no %s", k)
		}
		return n, nil
	}}
	keys := []string{"x", "yy", "bad", "zzz"}
	results := make([][2]string, 24)
	var wg sync.WaitGroup
	for i := range results {
		wg.Add(1)
		go func(i int) {
			defer wg.Done()
			v, err := m.get(keys[i%len(keys)])
			results[i] = [2]string{fmt.Sprint(v), fmt.Sprint(err)}
		}(i)
	}
	wg.Wait()
	same := true
	for i, r := range results {
		same = same && r == results[i%len(keys)]
	}
	fmt.Println("runs", m.runs, "same", same)
	for i := range keys {
		fmt.Println(keys[i], results[i][0], results[i][1])
	}

	q := &queue{items: make(chan int, 4), quit: make(chan struct{})}
	done := make(chan int)
	t := new(tally)
	for p := 0; p < 3; p++ {
		q.wg.Add(1)
		go q.produce(p*1000, 50)
	}
	for c := 0; c < 4; c++ {
		go t.eat(q.items, done)
	}
	q.wg.Wait()
	close(q.items)
	n := 0
	for c := 0; c < 4; c++ {
		n += <-done
	}
	fmt.Println(n, t.count, t.xor, t.sum)

	// producers without a consumer leave when they are told
	r := &queue{items: make(chan int), quit: make(chan struct{})}
	for p := 0; p < 5; p++ {
		r.wg.Add(1)
		go r.produce(0, 1000)
	}
	for i := 0; i < 10; i++ {
		<-r.items
	}
	close(r.quit)
	r.wg.Wait()
	fmt.Println("all left")

	reqs, stop, stopped := make(chan request), make(chan bool), make(chan map[string]int)
	go server(reqs, stop, stopped)
	for w := 0; w < 4; w++ {
		wg.Add(1)
		go func(w int) {
			defer wg.Done()
			reply := make(chan int)
			for i := 1; i <= 10; i++ {
				reqs <- request{keys[(w+i)%3], i, reply}
				if <-reply <= 0 {
					panic("lost")
				}
			}
		}(w)
	}
	wg.Wait()
	stop <- true
	final := <-stopped
	fmt.Println(final["x"], final["yy"], final["bad"], len(final))
}
