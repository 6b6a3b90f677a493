package queue

import "coll/stack"

// Queue is made of two stacks.
type Queue struct {
	in, out stack.Stack
	Moves   int
}

type Lener interface{ Len() int }

var _ Lener = (*Queue)(nil)

func (q *Queue) Put(x interface{}) *Queue {
	q.in.Push(x)
	return q
}

func (q *Queue) Take() (x interface{}, err error) {
	defer func() {
		if e, ok := recover().(stack.Empty); ok {
			e.Op = "take"
			err = e
		}
	}()
	if q.out.Len() == 0 {
		for q.in.Len() > 0 {
			q.out.Push(q.in.Pop())
			q.Moves++
		}
	}
	return q.out.Pop(), nil
}

func (q *Queue) Len() int { return q.in.Len() + q.out.Len() }
