package main

import (
	"coll/queue"
	"coll/stack"
	"fmt"
	"strconv"
)

type operator func(a, b int) int

var operators = map[string]operator{
	"+": func(a, b int) int { return a + b },
	"-": func(a, b int) int { return a - b },
	"*": func(a, b int) int { return a * b },
	"/": func(a, b int) int { return a / b },
}

func split(s string) (words []string) {
	word := ""
	for i := 0; i <= len(s); i++ {
		if i == len(s) || s[i] == ' ' {
			if word != "" {
				words = append(words, word)
			}
			word = ""
			continue
		}
		word += s[i : i+1]
	}
	return
}

func rpn(s string) (n int, err error) {
	defer func() {
		if r := recover(); r != nil {
			err = fmt.Errorf("rpn: %v", r)
		}
	}()
	st := stack.Of()
	for _, w := range split(s) {
		if f, ok := operators[w]; ok {
			b := st.Pop().(int)
			a := st.Pop().(int)
			st.Push(f(a, b))
			continue
		}
		v, err := strconv.Atoi(w)
		if err != nil {
			return 0, err
		}
		st.Push(v)
	}
	n = st.Pop().(int)
	if st.Len() > 0 {
		return n, fmt.Errorf("rpn: %d left", st.Len())
	}
	return
}

func length(ls ...queue.Lener) (n int) {
	for _, l := range ls {
		n += l.Len()
	}
	return
}

func main() {
	for _, s := range []string{"1 2 +", "3 4 5 * -", "10 2 8 * + 3 -", "1 +", "2 3", "8 0 /", "1 x +", "", "2147483647 1 +"} {
		n, err := rpn(s)
		fmt.Printf("%-16s %d %v\n", s, n, err)
	}
	var q queue.Queue
	q.Put(1).Put("two").Put('3').Put(nil).Put([]int{5})
	s := stack.Of("a", true, &q)
	fmt.Println(length(&q, s), s.Max)
	for i := 0; i < 3; i++ {
		fmt.Println(q.Take())
	}
	q.Put(6)
	for q.Len() > 0 {
		x, _ := q.Take()
		switch v := x.(type) {
		case nil:
			fmt.Println("nil")
		case []int:
			fmt.Println("slice", v, len(v))
		default:
			fmt.Println("other", v)
		}
	}
	_, err := q.Take()
	e, ok := err.(stack.Empty)
	fmt.Println(err, ok, e.Op, e == stack.Empty{Op: "take"}, q.Moves)
	s.Each(func(i int, x interface{}) bool {
		_, isBool := x.(bool)
		fmt.Println(i, isBool, x == "a")
		return !isBool
	})
	s = stack.Of()
	s.Pop()
}
