// Errors: values that say what went wrong, panics that are caught, and one that isn't.
package main

import (
	"errors"
	"fmt"
	"strconv"
)

var errEmpty = errors.New("empty")

// A lineError says in which line something went wrong.
type lineError struct {
	line int
	err  error
}

func (e *lineError) Error() string { return "line " + strconv.Itoa(e.line) + ": " + e.err.Error() }

func (e *lineError) Unwrap() error { return e.err }

func parse(lines []string) (sum int, err error) {
	for i, line := range lines {
		n, err := number(line)
		if err != nil {
			return 0, &lineError{i + 1, err}
		}
		sum += n
	}
	return sum, nil
}

func number(line string) (int, error) {
	if line == "" {
		return 0, errEmpty
	}
	return strconv.Atoi(line)
}

// safely runs a function and makes an error of its panic.
func safely(f func()) (err error) {
	defer func() {
		if cause := recover(); cause != nil {
			err = fmt.Errorf("caught: %v", cause)
		}
	}()
	f()
	return nil
}

func main() {
	fmt.Println(parse([]string{"12", "-5", "300"}))
	_, err := parse([]string{"12", "", "7"})
	fmt.Println(err, errors.Is(err, errEmpty))
	_, err = parse([]string{"12", "7", "seven"})
	fmt.Println(err, errors.Is(err, errEmpty))

	list := []int{1, 2, 3}
	fmt.Println(safely(func() { fmt.Println(list[len(list)]) }))
	fmt.Println(safely(func() { fmt.Println(list[0] / (list[1] - 2)) }))
	fmt.Println(safely(func() { panic(err) }))
	fmt.Println(safely(func() {}))

	defer fmt.Println("deferred calls run first")
	var none map[string]int
	none["x"] = 1
}
