// Closures: functions that keep the variables around them.
package main

import "fmt"

// counter gives a function that counts on each call.
func counter() func() int {
	n := 0
	return func() int {
		n++
		return n
	}
}

// compose gives the function that applies f, then g, and so on.
func compose(fs ...func(int) int) func(int) int {
	return func(x int) int {
		for _, f := range fs {
			x = f(x)
		}
		return x
	}
}

// remember gives f with its answers kept.
func remember(f func(int) int) (kept func(int) int, calls func() int) {
	answers := map[int]int{}
	n := 0
	kept = func(x int) int {
		if y, ok := answers[x]; ok {
			return y
		}
		n++
		y := f(x)
		answers[x] = y
		return y
	}
	return kept, func() int { return n }
}

func main() {
	a, b := counter(), counter()
	fmt.Println(a(), a(), b(), a())

	double := func(x int) int { return 2 * x }
	add := func(n int) func(int) int { return func(x int) int { return x + n } }
	fmt.Println(compose(double, add(3), double)(5), compose()(5))

	var climb func(int) int
	var calls func() int
	climb, calls = remember(func(steps int) int {
		if steps < 2 {
			return 1
		}
		return climb(steps-1) + climb(steps-2)
	})
	fmt.Println(climb(40), "ways in", calls(), "calls")

	var later []func()
	for _, word := range []string{"one", "two", "three"} {
		word := word
		later = append(later, func() { fmt.Print(word, " ") })
	}
	for i := len(later) - 1; i >= 0; i-- {
		later[i]()
	}
	fmt.Println()
}
