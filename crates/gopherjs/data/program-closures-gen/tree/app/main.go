package main

import "fmt"

func counter(from, step int) (next func() int, reset func()) {
	n := from
	next = func() int {
		defer func() { n += step }()
		return n
	}
	reset = func() { n = from }
	return
}

func memo(f func(int) int) (func(int) int, *int) {
	seen := map[int]int{}
	calls := 0
	return func(n int) int {
		if v, ok := seen[n]; ok {
			return v
		}
		calls++
		v := f(n)
		seen[n] = v
		return v
	}, &calls
}

func compose(fs ...func(int) int) func(int) int {
	return func(x int) int {
		for i := len(fs) - 1; i >= 0; i-- {
			x = fs[i](x)
		}
		return x
	}
}

func curry(f func(a, b, c int) int) func(int) func(int) func(int) int {
	return func(a int) func(int) func(int) int {
		return func(b int) func(int) int {
			return func(c int) int { return f(a, b, c) }
		}
	}
}

type iter func() (int, bool)

func slice(xs ...int) iter {
	i := -1
	return func() (int, bool) {
		if i++; i < len(xs) {
			return xs[i], true
		}
		return 0, false
	}
}

func (it iter) filter(f func(int) bool) iter {
	return func() (int, bool) {
		for x, ok := it(); ok; x, ok = it() {
			if f(x) {
				return x, true
			}
		}
		return 0, false
	}
}

func (it iter) mapped(f func(int) int) iter {
	return func() (int, bool) {
		x, ok := it()
		if ok {
			x = f(x)
		}
		return x, ok
	}
}

func (it iter) collect() (r []int) {
	for x, ok := it(); ok; x, ok = it() {
		r = append(r, x)
	}
	return
}

func perms(xs []int, f func([]int) bool) {
	var rec func(k int) bool
	rec = func(k int) bool {
		if k == len(xs) {
			return f(xs)
		}
		for i := k; i < len(xs); i++ {
			xs[k], xs[i] = xs[i], xs[k]
			more := rec(k + 1)
			xs[k], xs[i] = xs[i], xs[k]
			if !more {
				return false
			}
		}
		return true
	}
	rec(0)
}

func main() {
	next, reset := counter(10, -3)
	fmt.Print(next(), " ", next(), " ", next())
	reset()
	fmt.Println("", next())

	var fib func(int) int
	fib, calls := memo(func(n int) int {
		if n < 2 {
			return n
		}
		return fib(n-1) + fib(n-2)
	})
	fmt.Println(fib(40), *calls, fib(40), *calls)

	inc := func(x int) int { return x + 1 }
	dbl := func(x int) int { return x * 2 }
	fmt.Println(compose(inc, dbl)(5), compose(dbl, inc)(5), compose()(5), curry(func(a, b, c int) int { return a*100 + b*10 + c })(1)(2)(3))

	it := slice(1, 2, 3, 4, 5, 6, 7, 8).filter(func(x int) bool { return x%2 == 0 }).mapped(func(x int) int { return x * x })
	fmt.Println(it.collect(), it.collect() == nil)

	// one variable for the whole loop, and one for each turn
	var shared, own []func() int
	for i := 0; i < 4; i++ {
		shared = append(shared, func() int { i *= 2; return i })
		j := i
		own = append(own, func() int { j += 10; return j })
	}
	for k := range shared {
		fmt.Print(shared[k](), "/", own[k](), " ")
	}
	fmt.Println(own[0](), own[3]())

	n := 0
	perms([]int{1, 2, 3, 4}, func(p []int) bool {
		n++
		if p[0] == 2 && p[1] == 1 {
			fmt.Println(p, n)
			return false
		}
		return true
	})
	// functions that share a captured variable with an address
	x := 1
	p := &x
	add := func(d int) { x += d }
	add(4)
	*p *= 3
	add(-1)
	fmt.Println(x, *p, p == &x)
	table := map[string]func(...int) int{
		"sum": func(a ...int) (s int) {
			for _, v := range a {
				s += v
			}
			return
		},
		"len": func(a ...int) int { return len(a) },
	}
	args := []int{4, 5, 6}
	fmt.Println(table["sum"](args...), table["len"](), table["len"](1, 2), table["none"] == nil)
	fmt.Println(func(a, b int) int { return a - b }(7, 9), func() (s string) { s = "named"; return }())
}
