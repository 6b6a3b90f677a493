// Package stack has a stack of any values.
package stack

type Empty struct{ Op string }

func (e Empty) Error() string { return "stack: " + e.Op + " of an empty stack" }

type Stack struct {
	items []interface{}
	Max   int
}

func Of(xs ...interface{}) *Stack {
	s := new(Stack)
	for _, x := range xs {
		s.Push(x)
	}
	return s
}

func (s *Stack) Push(x interface{}) {
	s.items = append(s.items, x)
	if len(s.items) > s.Max {
		s.Max = len(s.items)
	}
}

func (s *Stack) Pop() interface{} {
	n := len(s.items) - 1
	if n < 0 {
		panic(Empty{"pop"})
	}
	x := s.items[n]
	s.items = s.items[:n]
	return x
}

func (s *Stack) Len() int { return len(s.items) }

func (s *Stack) Each(f func(i int, x interface{}) bool) {
	for i := len(s.items) - 1; i >= 0; i-- {
		if !f(i, s.items[i]) {
			return
		}
	}
}
