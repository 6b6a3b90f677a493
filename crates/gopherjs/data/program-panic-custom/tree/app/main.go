package main

import (
	"fmt"
	"strconv"
)

type invariant struct {
	what string
	got  int
}

func (v invariant) Error() string {
	return "invariant " + v.what + " broken: " + strconv.Itoa(v.got)
}

type stack struct {
	data []int
	low  int
}

func (s *stack) check() {
	if len(s.data) < s.low {
		panic(invariant{"low", len(s.data)})
	}
}

func (s *stack) push(x int) { s.data = append(s.data, x) }

func (s *stack) pop() int {
	defer s.check()
	x := s.data[len(s.data)-1]
	s.data = s.data[:len(s.data)-1]
	return x
}

func cleanup(name string) {
	fmt.Println("cleanup", name, recover() != nil)
}

func work(s *stack) {
	defer fmt.Println("work ends")
	for i := 0; ; i++ {
		fmt.Println("pop", s.pop())
	}
}

func guarded(s *stack) {
	defer func() {
		r := recover()
		if v, ok := r.(invariant); ok && v.got > 1 {
			fmt.Println("handled:", v)
			return
		}
		fmt.Println("passing on:", r)
		panic(r)
	}()
	work(s)
}

func main() {
	s := &stack{low: 3}
	for i := 0; i < 5; i++ {
		s.push(i * i)
	}
	guarded(s)
	defer fmt.Println("last", s.low)
	func() {
		defer cleanup("inner")
		var e error = invariant{"inner", 9}
		panic(e)
	}()
	done := make(chan bool)
	go func() {
		defer close(done)
		defer func() { fmt.Println("goroutine:", recover()) }()
		_ = s.data[7]
	}()
	<-done
	s.low = 1
	func() {
		defer func() {
			recover()
			fmt.Println("left", len(s.data))
		}()
		work(s)
	}()
	s.data = nil
	s.low = -1
	defer func() { panic(invariant{"final", len(s.data)}) }()
	defer fmt.Println("before the end")
	guarded(s)
}
