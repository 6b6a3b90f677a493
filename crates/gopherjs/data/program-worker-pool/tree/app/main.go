package main

import (
	"fmt"
	"sync"
)

type job struct {
	id   int
	data []int
}

type result struct {
	id   int
	sum  int
	max  int
	err  error
	work int
}

type badJob int

func (b badJob) Error() string { return fmt.Sprintf("job %d is empty", int(b)) }

func process(j job) (r result) {
	r.id = j.id
	defer func() {
		if e := recover(); e != nil {
			r.err = e.(error)
		}
	}()
	if len(j.data) == 0 {
		panic(badJob(j.id))
	}
	r.max = j.data[0]
	for _, x := range j.data {
		r.sum += x
		if x > r.max {
			r.max = x
		}
		r.work++
	}
	if r.sum == 13 {
		_ = j.data[len(j.data)]
	}
	return
}

func pool(n int, jobs []job) []result {
	in := make(chan job)
	out := make(chan result, n)
	var wg sync.WaitGroup
	for i := 0; i < n; i++ {
		wg.Add(1)
		go func() {
			defer wg.Done()
			for j := range in {
				out <- process(j)
			}
		}()
	}
	go func() {
		for _, j := range jobs {
			in <- j
		}
		close(in)
	}()
	go func() {
		wg.Wait()
		close(out)
	}()
	rs := make([]result, len(jobs))
	for r := range out {
		rs[r.id] = r
	}
	return rs
}

// limited runs all functions with at most n at a time.
func limited(n int, fs []func()) (most int) {
	sem := make(chan struct{}, n)
	var mu sync.Mutex
	running := 0
	done := make(chan bool)
	for _, f := range fs {
		f := f
		go func() {
			sem <- struct{}{}
			mu.Lock()
			running++
			if running > most {
				most = running
			}
			mu.Unlock()
			f()
			mu.Lock()
			running--
			mu.Unlock()
			<-sem
			done <- true
		}()
	}
	for range fs {
		<-done
	}
	return
}

func main() {
	var jobs []job
	for i := 0; i < 12; i++ {
		j := job{id: i}
		for k := 0; k < i%5; k++ {
			j.data = append(j.data, (i*7+k*3)%10-k)
		}
		jobs = append(jobs, j)
	}
	jobs[11].data = []int{6, 7}
	var first []result
	for _, n := range []int{1, 3, 20} {
		rs := pool(n, jobs)
		if first == nil {
			first = rs
			for _, r := range rs {
				fmt.Println(r.id, r.sum, r.max, r.work, r.err)
			}
			continue
		}
		same := true
		for i, r := range rs {
			f := first[i]
			same = same && r.sum == f.sum && r.max == f.max && (r.err == nil) == (f.err == nil)
		}
		fmt.Println("workers", n, "same", same)
	}
	slots := make([]int, 30)
	var fs []func()
	for i := range slots {
		i := i
		fs = append(fs, func() { slots[i] = i * i })
	}
	most := limited(4, fs)
	sum := 0
	for _, s := range slots {
		sum += s
	}
	fmt.Println("at most four", most >= 1 && most <= 4, "sum", sum)
}
