// Goroutines that wait in turn: semaphores, barriers, timeouts by ticks, first answers, round trips.
package main

import (
	"errors"
	"fmt"
	"runtime"
	"sync"
)

type semaphore chan struct{}

func (s semaphore) take() { s <- struct{}{} }
func (s semaphore) give() { <-s }

func crowd(many, room int) (most, served int) {
	s := make(semaphore, room)
	var mu sync.Mutex
	var wg sync.WaitGroup
	inside := 0
	for i := 0; i < many; i++ {
		wg.Add(1)
		go func() {
			defer wg.Done()
			s.take()
			defer s.give()
			mu.Lock()
			inside++
			if inside > most {
				most = inside
			}
			mu.Unlock()
			runtime.Gosched()
			mu.Lock()
			inside--
			served++
			mu.Unlock()
		}()
	}
	wg.Wait()
	return
}

type barrier struct {
	mu      sync.Mutex
	waiting int
	many    int
	open    chan bool
}

func (b *barrier) wait() {
	b.mu.Lock()
	b.waiting++
	open := b.open
	if b.waiting == b.many {
		b.waiting = 0
		b.open = make(chan bool)
		close(open)
	}
	b.mu.Unlock()
	<-open
}

func rounds(many, turns int) []int {
	b := &barrier{many: many, open: make(chan bool)}
	sums := make([]int, turns)
	ahead := make([]int, many)
	var wg sync.WaitGroup
	for i := 0; i < many; i++ {
		wg.Add(1)
		go func(i int) {
			defer wg.Done()
			for t := 0; t < turns; t++ {
				ahead[i] = t
				b.wait()
				for _, a := range ahead {
					if a != t {
						panic("out of step")
					}
				}
				b.wait()
				if i == 0 {
					sums[t] = t * many
				}
			}
		}(i)
	}
	wg.Wait()
	return sums
}

var errLate = errors.New("too late")

type result struct {
	value int
	err   error
}

// within asks f, and gives up after so many ticks.
func within(ticks int, f func(step func()) int) (int, error) {
	tick := make(chan int)
	quit := make(chan struct{})
	answer := make(chan result, 1)
	go func() {
		defer func() {
			if r := recover(); r != nil {
				answer <- result{err: fmt.Errorf("failed: %v", r)}
			}
		}()
		n := f(func() {
			select {
			case tick <- 1:
			case <-quit:
			}
		})
		answer <- result{value: n}
	}()
	for left := ticks; ; {
		select {
		case r := <-answer:
			return r.value, r.err
		case n := <-tick:
			if left -= n; left < 0 {
				close(quit)
				return 0, errLate
			}
		}
	}
}

func steps(n int) func(func()) int {
	return func(step func()) int {
		for i := 0; i < n; i++ {
			step()
		}
		if n == 3 {
			panic("three")
		}
		return n * n
	}
}

func ping(n int) (log string) {
	there, back := make(chan int), make(chan int)
	go func() {
		for v := range there {
			back <- v + 1
		}
		close(back)
	}()
	for v := 0; v < n; {
		there <- v
		v = <-back
		log += fmt.Sprint(v)
	}
	close(there)
	_, ok := <-back
	return log + fmt.Sprint(ok)
}

func ring(n, laps int) int {
	first := make(chan int)
	in := first
	for i := 0; i < n; i++ {
		out := make(chan int)
		go func(in <-chan int, out chan<- int) {
			for v := range in {
				out <- v + 1
			}
			close(out)
		}(in, out)
		in = out
	}
	total := 0
	for i := 0; i < laps; i++ {
		first <- total
		total = <-in
	}
	close(first)
	if _, ok := <-in; ok {
		return -1
	}
	return total
}

func choices() (n, nils, defaults int) {
	var never chan int
	c := make(chan int, 3)
	full := make(chan int)
	for i := 0; i < 10; i++ {
		select {
		case v := <-never:
			nils += v
		case never <- 1:
			nils++
		case c <- i:
			n += i
		case full <- 1:
			nils++
		default:
			defaults++
			if i == 5 {
				n += 100 * <-c
			}
		}
	}
	close(c)
	for v := range c {
		n += 1000 * v
	}
	v, ok := <-c
	if !ok && v == 0 {
		n += 100000
	}
	return
}

func main() {
	most, served := crowd(12, 3)
	fmt.Println(most <= 3, most > 0, served)
	fmt.Println(rounds(4, 5))
	for n := 1; n < 6; n++ {
		v, err := within(4, steps(n))
		fmt.Println(n, v, err, err == errLate)
	}
	fmt.Println(ping(5))
	fmt.Println(ring(10, 7))
	fmt.Println(choices())

	var once sync.Once
	winners := make(chan string, 4)
	var wg sync.WaitGroup
	for _, name := range []string{"a", "b", "c", "d"} {
		wg.Add(1)
		go func(name string) {
			defer wg.Done()
			once.Do(func() { winners <- name })
		}(name)
	}
	wg.Wait()
	fmt.Println(len(winners), cap(winners))
	done := make(chan bool)
	data := make(chan []int)
	go func() {
		defer close(done)
		for l := range data {
			l[0]++
			runtime.Gosched()
		}
	}()
	l := []int{0, 5}
	for i := 0; i < 3; i++ {
		data <- l[:1+i%2]
	}
	close(data)
	<-done
	fmt.Println(l)
}
