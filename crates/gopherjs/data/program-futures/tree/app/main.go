package main

import "fmt"

type task struct {
	name  string
	needs []string
	cost  int
	run   func(log chan<- string)
}

type semaphore chan struct{}

func (s semaphore) acquire() { s <- struct{}{} }
func (s semaphore) release() { <-s }

type future struct {
	done  chan struct{}
	value int
	err   error
}

func async(f func() (int, error)) *future {
	p := &future{done: make(chan struct{})}
	go func() {
		defer close(p.done)
		defer func() {
			if r := recover(); r != nil {
				p.err = fmt.Errorf("panicked: %v", r)
			}
		}()
		p.value, p.err = f()
	}()
	return p
}

func (p *future) wait() (int, error) {
	<-p.done
	return p.value, p.err
}

func all(ps ...*future) (sum int, err error) {
	for _, p := range ps {
		v, e := p.wait()
		if e != nil && err == nil {
			err = e
		}
		sum += v
	}
	return
}

type clock struct {
	now     int
	waiting map[int][]chan int
}

func (c *clock) after(d int) <-chan int {
	ch := make(chan int, 1)
	c.waiting[c.now+d] = append(c.waiting[c.now+d], ch)
	return ch
}

func (c *clock) tick() {
	c.now++
	for _, ch := range c.waiting[c.now] {
		ch <- c.now
	}
	delete(c.waiting, c.now)
}

func race(a, b <-chan int) (who string, at int) {
	for a != nil || b != nil {
		select {
		case n, ok := <-a:
			if !ok {
				a = nil
				continue
			}
			return "a", n
		case n, ok := <-b:
			if !ok {
				b = nil
				break
			}
			return "b", n
		}
	}
	return "nobody", -1
}

func mergesort(xs []int) []int {
	if len(xs) < 2 {
		return xs
	}
	left, right := make(chan []int), make(chan []int)
	go func() { left <- mergesort(append([]int(nil), xs[:len(xs)/2]...)) }()
	go func() { right <- mergesort(append([]int(nil), xs[len(xs)/2:]...)) }()
	a, b := <-left, <-right
	out := xs[:0]
	for len(a) > 0 && len(b) > 0 {
		if a[0] <= b[0] {
			out, a = append(out, a[0]), a[1:]
		} else {
			out, b = append(out, b[0]), b[1:]
		}
	}
	return append(append(out, a...), b...)
}

func graph(tasks []task) []string {
	done := map[string]chan struct{}{}
	for _, t := range tasks {
		done[t.name] = make(chan struct{})
	}
	log := make(chan string)
	sem := make(semaphore, 2)
	for _, t := range tasks {
		go func(t task) {
			for _, n := range t.needs {
				<-done[n]
			}
			sem.acquire()
			defer func() {
				sem.release()
				close(done[t.name])
			}()
			if t.run != nil {
				t.run(log)
			}
			log <- t.name
		}(t)
	}
	var out []string
	for range tasks {
		out = append(out, <-log)
	}
	return out
}

func main() {
	log := graph([]task{
		{name: "test", needs: []string{"build", "lint"}},
		{name: "build", needs: []string{"fetch"}},
		{"lint", []string{"build"}, 3, nil},
		{name: "fetch"},
		{name: "ship", needs: []string{"test"}},
	})
	fmt.Println(log)
	fmt.Println(mergesort([]int{5, -3, 9, 0, 5, 2, 1 << 30, -1 << 31, 7}))
	var zero int
	sum, err := all(async(func() (int, error) { return 1, nil }), async(func() (int, error) { return 10 / zero, nil }), async(func() (int, error) { return 100, fmt.Errorf("late") }))
	fmt.Println(sum, err)
	c := &clock{waiting: map[int][]chan int{}}
	x, y := c.after(3), c.after(2)
	go func() {
		for i := 0; i < 5; i++ {
			c.tick()
		}
	}()
	who, at := race(x, y)
	fmt.Println(at == 2 || at == 3, who != "", len(c.waiting))
	a, b := make(chan int), make(chan int)
	close(a)
	go close(b)
	fmt.Println(race(a, b))
	f := async(func() (int, error) { <-make(chan int); return 0, nil })
	fmt.Println("waiting")
	fmt.Println(f.wait())
}
