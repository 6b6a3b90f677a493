// Pipeline: goroutines that talk over channels, with select.
package main

import "fmt"

// generate sends numbers until nobody wants more.
func generate(quit <-chan bool) <-chan int {
	numbers := make(chan int)
	go func() {
		defer close(numbers)
		for n := 1; ; n++ {
			select {
			case numbers <- n:
			case <-quit:
				return
			}
		}
	}()
	return numbers
}

// squares sends the square of each number.
func squares(numbers <-chan int) <-chan int {
	results := make(chan int)
	go func() {
		defer close(results)
		for n := range numbers {
			results <- n * n
		}
	}()
	return results
}

// merge sends what either channel sends.
func merge(a, b <-chan int) <-chan int {
	all := make(chan int)
	go func() {
		defer close(all)
		for a != nil || b != nil {
			select {
			case n, ok := <-a:
				if !ok {
					a = nil
					continue
				}
				all <- n
			case n, ok := <-b:
				if !ok {
					b = nil
					continue
				}
				all <- n
			}
		}
	}()
	return all
}

func count(from, to int) <-chan int {
	c := make(chan int, 2)
	go func() {
		for n := from; n < to; n++ {
			c <- n
		}
		close(c)
	}()
	return c
}

func main() {
	quit := make(chan bool)
	results := squares(generate(quit))
	for i := 0; i < 5; i++ {
		fmt.Println(<-results)
	}
	close(quit)

	sum, many := 0, 0
	for n := range merge(count(0, 50), count(1000, 1050)) {
		sum += n
		many++
	}
	fmt.Println(many, "numbers, sum", sum)

	full := make(chan string, 1)
	for _, word := range []string{"first", "second"} {
		select {
		case full <- word:
			fmt.Println("sent", word)
		default:
			fmt.Println("no room for", word)
		}
	}
}
