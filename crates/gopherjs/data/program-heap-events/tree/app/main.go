package main

import "fmt"

type event struct {
	at, seq int
	what    string
	run     func(*sim)
}

type sim struct {
	now, seq int
	queue    []event
	log      []string
}

func less(a, b event) bool {
	if a.at != b.at {
		return a.at < b.at
	}
	return a.seq < b.seq
}

func (s *sim) push(e event) {
	s.queue = append(s.queue, e)
	q := s.queue
	i := len(q) - 1
	for i > 0 {
		up := (i - 1) / 2
		if !less(q[i], q[up]) {
			break
		}
		q[i], q[up] = q[up], q[i]
		i = up
	}
}

func (s *sim) pop() event {
	q := s.queue
	top := q[0]
	n := len(q) - 1
	q[0] = q[n]
	q[n] = event{}
	s.queue = q[:n]
	q = s.queue
	for i := 0; ; {
		c := 2*i + 1
		if c >= n {
			break
		}
		if c+1 < n && less(q[c+1], q[c]) {
			c++
		}
		if !less(q[c], q[i]) {
			break
		}
		q[i], q[c] = q[c], q[i]
		i = c
	}
	return top
}

func (s *sim) after(d int, what string, f func(*sim)) {
	s.seq++
	s.push(event{s.now + d, s.seq, what, f})
}

func (s *sim) loop(limit int) int {
	n := 0
	for len(s.queue) > 0 && n < limit {
		e := s.pop()
		if e.at < s.now {
			panic("time went back")
		}
		s.now = e.at
		n++
		fmt.Printf("%4d #%02d %s\n", e.at, e.seq, e.what)
		if e.run != nil {
			e.run(s)
		}
	}
	return n
}

type server struct {
	busy  bool
	wait  []int
	done  int
	total int
}

func (v *server) arrive(s *sim, id int) {
	if v.busy {
		v.wait = append(v.wait, id)
		return
	}
	v.start(s, id)
}

func (v *server) start(s *sim, id int) {
	v.busy = true
	cost := 3 + id*7%5
	v.total += cost
	s.after(cost, fmt.Sprintf("job %d done", id), func(s *sim) {
		v.busy = false
		v.done++
		if len(v.wait) > 0 {
			next := v.wait[0]
			v.wait = v.wait[1:]
			v.start(s, next)
		}
	})
}

func main() {
	s := &sim{}
	v := new(server)
	for i := 0; i < 6; i++ {
		i := i
		s.after(i*2, fmt.Sprint("job ", i, " arrives"), func(s *sim) { v.arrive(s, i) })
	}
	var tick func(*sim)
	left := 4
	tick = func(s *sim) {
		if left--; left > 0 {
			s.after(5, "tick", tick)
		}
	}
	s.after(5, "tick", tick)
	n := s.loop(100)
	fmt.Println("events", n, "now", s.now, "done", v.done, "busy time", v.total)

	// the heap alone: take all in order
	h := &sim{}
	x := uint32(7)
	for i := 0; i < 200; i++ {
		x ^= x << 13
		x ^= x >> 17
		x ^= x << 5
		h.push(event{at: int(x % 50), seq: i})
	}
	last := event{at: -1}
	ok, sum := true, 0
	for len(h.queue) > 0 {
		e := h.pop()
		ok = ok && less(last, e)
		sum = sum*31 + e.at + e.seq
		last = e
	}
	fmt.Println(ok, sum)
}
