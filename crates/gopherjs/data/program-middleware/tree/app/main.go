package main

import (
	"fmt"
	"sync"
)

type animal interface {
	name() string
	sound() string
}

type base struct {
	label string
	legs  uint8
}

func (b base) name() string     { return b.label }
func (b *base) rename(s string) { b.label = s }
func (b base) describe(a animal) string {
	return fmt.Sprintf("%s (%d legs) says %s", a.name(), b.legs, a.sound())
}

type dog struct {
	base
	tricks []string
}

type puppy struct {
	*dog
	age int
}

type robot struct {
	animal
	serial uint64
}

func (d dog) sound() string   { return "woof" }
func (p puppy) sound() string { return "yip, not " + p.dog.sound() }
func (r robot) name() string  { return fmt.Sprintf("%s#%x", r.animal.name(), r.serial) }

type middleware func(next handler) handler
type handler func(req *request) response
type request struct {
	path   string
	user   string
	values map[string]int
}
type response struct {
	status int
	body   string
}

func (h handler) serve(path string, opts ...func(*request)) (r response) {
	req := &request{path: path}
	for _, o := range opts {
		o(req)
	}
	return h(req)
}

func as(user string) func(*request) { return func(r *request) { r.user = user } }
func with(k string, v int) func(*request) {
	return func(r *request) {
		if r.values == nil {
			r.values = map[string]int{}
		}
		r.values[k] += v
	}
}

func chain(h handler, ms ...middleware) handler {
	for i := range ms {
		h = ms[len(ms)-1-i](h)
	}
	return h
}

func logged(log *[]string) middleware {
	return func(next handler) handler {
		return func(r *request) (resp response) {
			defer func() { *log = append(*log, fmt.Sprintf("%s %s %d", r.path, r.user, resp.status)) }()
			return next(r)
		}
	}
}

func safe(next handler) handler {
	return func(r *request) (resp response) {
		defer func() {
			if e := recover(); e != nil {
				resp = response{500, fmt.Sprint("oops: ", e)}
			}
		}()
		return next(r)
	}
}

func limited(n int) middleware {
	var mu sync.Mutex
	seen := map[string]int{}
	return func(next handler) handler {
		return func(r *request) response {
			mu.Lock()
			seen[r.user]++
			over := seen[r.user] > n
			mu.Unlock()
			if over {
				return response{status: 429}
			}
			return next(r)
		}
	}
}

type router map[string]handler

func (m router) handle(r *request) response {
	if h, ok := m[r.path]; ok {
		return h(r)
	}
	return response{404, r.path}
}

type visitor interface {
	number(n int) interface{}
	pair(op string, a, b expr) interface{}
}
type expr interface{ accept(v visitor) interface{} }
type num int
type pair struct {
	op   string
	a, b expr
}

func (n num) accept(v visitor) interface{}   { return v.number(int(n)) }
func (p *pair) accept(v visitor) interface{} { return v.pair(p.op, p.a, p.b) }

type evaluator struct{ depth *int }
type printer struct{ evaluator }

func (e evaluator) number(n int) interface{} { *e.depth++; return n }
func (e evaluator) pair(op string, a, b expr) interface{} {
	x, y := a.accept(e).(int), b.accept(e).(int)
	return map[string]func() int{"+": func() int { return x + y }, "*": func() int { return x * y }, "-": func() int { return x - y }}[op]()
}
func (p printer) pair(op string, a, b expr) interface{} {
	return fmt.Sprint("(", a.accept(p), op, b.accept(p), ")")
}

func main() {
	d := &dog{base{"Rex", 4}, nil}
	p := puppy{dog: d, age: 1}
	p.rename("Max")
	p.tricks = append(p.tricks, "sit")
	r := robot{p, 0xdeadbeefcafe}
	for _, a := range []animal{d, *d, p, &p, r, &r, robot{r, 1}} {
		fmt.Println(a.name(), a.sound())
	}
	fmt.Println(p.describe(r), d.describe(d), len(d.tricks), d.label, p.legs)
	var log []string
	routes := router{
		"/add":   func(r *request) response { return response{200, fmt.Sprint(r.values["a"] + r.values["b"])} },
		"/panic": func(r *request) response { var m map[string]int; m["x"] = 1; return response{} },
		"/nil":   nil,
	}
	h := chain(routes.handle, logged(&log), safe, limited(2))
	for _, path := range []string{"/add", "/panic", "/nil", "/none"} {
		for i, u := range []string{"ann", "bob"} {
			resp := h.serve(path, as(u), with("a", i), with("b", 40), with("a", 1))
			fmt.Println(resp.status, resp.body, resp == response{200, "42"})
		}
	}
	fmt.Println(len(log), log[0], log[7])
	depth := 0
	e := &pair{"+", num(1), &pair{"*", &pair{"-", num(7), num(10)}, num(4)}}
	ev := evaluator{&depth}
	fmt.Println(e.accept(ev), e.accept(printer{ev}), depth)
	defer func() {
		fmt.Println(recover())
		fmt.Println(expr(num(1)) == expr(num(1)), expr(e) == expr(&pair{}), visitor(ev) == visitor(printer{ev}))
	}()
	(&pair{"/", num(1), num(2)}).accept(ev)
}
