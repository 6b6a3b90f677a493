package main

import "fmt"

type stage func(<-chan int) <-chan int

func source(xs ...int) <-chan int {
	c := make(chan int)
	go func() {
		defer close(c)
		for _, x := range xs {
			c <- x
		}
	}()
	return c
}

func count(from, to int) <-chan int {
	c := make(chan int, 2)
	go func() {
		for i := from; i < to; i++ {
			c <- i
		}
		close(c)
	}()
	return c
}

func apply(f func(int) int) stage {
	return func(in <-chan int) <-chan int {
		out := make(chan int)
		go func() {
			for x := range in {
				out <- f(x)
			}
			close(out)
		}()
		return out
	}
}

func keep(f func(int) bool) stage {
	return func(in <-chan int) <-chan int {
		out := make(chan int, 1)
		go func() {
			defer close(out)
			for x := range in {
				if f(x) {
					out <- x
				}
			}
		}()
		return out
	}
}

func chunk(n int, in <-chan int) <-chan []int {
	out := make(chan []int)
	go func() {
		defer close(out)
		var cur []int
		for x := range in {
			cur = append(cur, x)
			if len(cur) == n {
				out <- cur
				cur = nil
			}
		}
		if cur != nil {
			out <- cur
		}
	}()
	return out
}

func chain(in <-chan int, ss ...stage) <-chan int {
	for _, s := range ss {
		in = s(in)
	}
	return in
}

// zip takes one from each until one is closed.
func zip(a, b <-chan int) <-chan [2]int {
	out := make(chan [2]int)
	go func() {
		defer close(out)
		for {
			x, ok := <-a
			if !ok {
				return
			}
			y, ok := <-b
			if !ok {
				return
			}
			out <- [2]int{x, y}
		}
	}()
	return out
}

func merge(a, b <-chan int) <-chan int {
	out := make(chan int)
	go func() {
		defer close(out)
		x, okx := <-a
		y, oky := <-b
		for okx || oky {
			if !oky || okx && x <= y {
				out <- x
				x, okx = <-a
			} else {
				out <- y
				y, oky = <-b
			}
		}
	}()
	return out
}

// takeFirst reads n values and tells the source to stop.
func takeFirst(n int, f func(i int) int) []int {
	c := make(chan int)
	stop := make(chan struct{})
	ended := make(chan int)
	go func() {
		i := 0
		for {
			select {
			case c <- f(i):
				i++
			case <-stop:
				ended <- i
				return
			}
		}
	}()
	var r []int
	for len(r) < n {
		r = append(r, <-c)
	}
	close(stop)
	return append(r, <-ended)
}

func main() {
	sq := apply(func(x int) int { return x * x })
	odd := keep(func(x int) bool { return x%2 != 0 })
	for x := range chain(count(0, 10), sq, odd, apply(func(x int) int { return x + 100 })) {
		fmt.Print(x, " ")
	}
	fmt.Println()
	for c := range chunk(4, chain(count(1, 11), sq)) {
		fmt.Println(c, len(c))
	}
	for p := range zip(source(1, 2, 3), count(7, 100)) {
		fmt.Print(p[0], "-", p[1], ";")
	}
	fmt.Println()
	for x := range merge(source(1, 4, 6, 9), chain(source(2, 3, 9, 12, 13))) {
		fmt.Print(" ", x)
	}
	fmt.Println()
	fmt.Println(takeFirst(5, func(i int) int { return i*i - i }))
	deep := count(0, 50)
	for i := 0; i < 60; i++ {
		i := i
		deep = apply(func(x int) int { return x ^ i })(deep)
	}
	sum := 0
	for x := range deep {
		sum = sum*3 + x
	}
	fmt.Println(sum)
}
