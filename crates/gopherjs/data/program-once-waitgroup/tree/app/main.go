package main

import (
	"fmt"
	"runtime"
	"sync"
)

type config struct {
	once  sync.Once
	loads int
	vals  map[string]int
}

func (c *config) get(k string) int {
	c.once.Do(func() {
		c.loads++
		runtime.Gosched()
		c.vals = map[string]int{"a": 1, "b": 2}
	})
	return c.vals[k]
}

type barrier struct {
	mu      sync.Mutex
	n, in   int
	release chan struct{}
}

func newBarrier(n int) *barrier { return &barrier{n: n, release: make(chan struct{})} }

func (b *barrier) wait() bool {
	b.mu.Lock()
	b.in++
	last := b.in == b.n
	ch := b.release
	if last {
		b.in = 0
		b.release = make(chan struct{})
		close(ch)
	}
	b.mu.Unlock()
	<-ch
	return last
}

type safeMap struct {
	sync.Mutex
	m map[int]int
}

func (s *safeMap) add(k, v int) {
	s.Lock()
	defer s.Unlock()
	s.m[k] += v
}

func main() {
	c := new(config)
	var wg sync.WaitGroup
	sum := 0
	var mu sync.Mutex
	for i := 0; i < 10; i++ {
		wg.Add(1)
		go func(i int) {
			defer wg.Done()
			v := c.get([]string{"a", "b", "c"}[i%3])
			mu.Lock()
			sum += v
			mu.Unlock()
		}(i)
	}
	wg.Wait()
	fmt.Println("loads", c.loads, "sum", sum)

	// phases: nobody enters the next one before all have left
	const workers, phases = 5, 4
	b := newBarrier(workers)
	var done [phases]int
	wrong, lasts := 0, 0
	wg.Add(workers)
	for w := 0; w < workers; w++ {
		go func(w int) {
			defer wg.Done()
			for p := 0; p < phases; p++ {
				for k := 0; k < w; k++ {
					runtime.Gosched()
				}
				mu.Lock()
				if p > 0 && done[p-1] != workers {
					wrong++
				}
				done[p]++
				mu.Unlock()
				if b.wait() {
					mu.Lock()
					lasts++
					mu.Unlock()
				}
			}
		}(w)
	}
	wg.Wait()
	fmt.Println("phases", done[0], done[phases-1], "wrong", wrong, "lasts", lasts)

	// a chain of goroutines, each waits for the one before
	sm := &safeMap{m: map[int]int{}}
	prev := make(chan int, 1)
	prev <- 1
	for i := 1; i <= 20; i++ {
		next := make(chan int, 1)
		wg.Add(1)
		go func(in <-chan int, out chan<- int, i int) {
			defer wg.Done()
			v := <-in
			sm.add(i%4, v)
			out <- v + i
		}(prev, next, i)
		prev = next
	}
	wg.Wait()
	fmt.Println("chain", <-prev, sm.m[0], sm.m[1], sm.m[2], sm.m[3], len(sm.m))

	var once sync.Once
	func() {
		defer func() { fmt.Println("recovered", recover()) }()
		once.Do(func() { panic("first") })
	}()
	once.Do(func() { fmt.Println("never") })

	var wg2 sync.WaitGroup
	wg2.Wait()
	wg2.Add(3)
	wg2.Add(-1)
	go wg2.Done()
	go wg2.Done()
	wg2.Wait()
	func() {
		defer func() { fmt.Println(recover()) }()
		wg2.Done()
	}()
	turn := 0
	stop := false
	go func() { turn++; stop = true }()
	for !stop {
		runtime.Gosched()
	}
	fmt.Println("turn", turn)
}
