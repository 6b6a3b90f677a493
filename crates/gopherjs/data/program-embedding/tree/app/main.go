// Embedded structs, pointers and interfaces: promotion, shadowing, wrappers and assertions.
package main

import (
	"errors"
	"fmt"
)

type animal interface {
	Name() string
	Sound() string
}

type walker interface{ Walk(n int) int }

type legged interface {
	animal
	walker
}

type base struct {
	name  string
	steps int
}

func (b base) Name() string     { return b.name }
func (b *base) Walk(n int) int  { b.steps += n; return b.steps }
func (b base) Describe() string { return "a " + b.Name() }
func (b *base) Rename(s string) { b.name = s }

type dog struct {
	base
	tricks []string
}

func (d dog) Sound() string    { return "woof" }
func (d dog) Describe() string { return d.base.Describe() + " that says " + d.Sound() }

type puppy struct {
	*dog
	base2
	age int
}

type base2 struct{ age, weight int }

func (b base2) Weight() int { return b.weight }
func (base2) Sound() string { return "deep" }

func (p puppy) Sound() string { return "yip" }

type robot struct {
	animal
	walker
	id int
}

func (r robot) Name() string { return fmt.Sprint("robot ", r.id, " as ", r.animal.Name()) }

type logged struct {
	legged
	log *[]string
}

func (l logged) Walk(n int) int {
	*l.log = append(*l.log, fmt.Sprint("walk ", n))
	return l.legged.Walk(n)
}

type fault struct{ error }

func (f fault) Unwrap() error { return f.error }

type counter int

func (c *counter) Add(n int) counter { *c += counter(n); return *c }
func (c counter) Twice() counter     { return 2 * c }

type stats struct {
	counter
	inner struct{ counter }
}

func total(ws ...walker) (n int) {
	for i, w := range ws {
		n += w.Walk(i + 1)
	}
	return
}

func try(f func()) (err error) {
	defer func() { err, _ = recover().(error) }()
	f()
	return
}

func main() {
	d := &dog{base: base{name: "Rex"}}
	var l legged = d
	fmt.Println(l.Name(), l.Sound(), l.Walk(3), l.Walk(4), d.steps, d.Describe())
	d.Rename("Max")
	fmt.Println(l.Name(), d.base.Describe(), d.name)

	p := puppy{d, base2{2, 5}, 1}
	fmt.Println(p.Name(), p.Sound(), p.dog.Sound(), p.Weight(), p.age, p.base2.age, p.Describe())
	p.Walk(10)
	p.Rename("Bo")
	fmt.Println(d.steps, d.name, p.steps)
	q := p
	q.Rename("Same")
	q.base2.weight = 9
	fmt.Println(p.name, q.name, p.Weight(), q.Weight())
	var a animal = q
	w, isWalker := a.(walker)
	_, isLegged := a.(legged)
	fmt.Println(isWalker, isLegged, w.Walk(0))

	r := robot{animal: p, walker: d, id: 7}
	fmt.Println(r.Name(), r.Sound(), r.Walk(1), r.animal == animal(p))
	walk, name := r.Walk, r.Name
	r.id = 8
	r.walker = &base{steps: 100}
	fmt.Println(walk(1), r.Walk(1), name(), r.Name())

	var log []string
	g := logged{d, &log}
	fmt.Println(total(g, &p, g, r) > 0, log, g.Name())
	var deep struct {
		logged
		legged int
	}
	deep.logged = g
	deep.legged = 5
	fmt.Println(deep.Walk(2), deep.legged, len(log), deep.Sound())

	err := error(fault{fault{errors.New("root")}})
	fmt.Println(err, errors.Unwrap(err), errors.Unwrap(errors.Unwrap(errors.Unwrap(err))))
	fmt.Println(errors.Is(err, fault{errors.New("root")}), err.(fault).error != nil)

	var s stats
	s.Add(3)
	s.inner.Add(10)
	add := s.inner.counter.Add
	twice := s.Twice
	s.Add(1)
	fmt.Println(s.counter, s.inner.counter)
	fmt.Println(add(5), twice(), s.inner.Twice(), s.Twice())
	m := map[string]*stats{"x": {}}
	m["x"].Add(2)
	m["x"].inner.counter++
	fmt.Println(m["x"].counter, m["x"].inner.counter)

	var none puppy
	fmt.Println(try(func() { none.Walk(1) }) != nil, try(func() { _ = none.name }) != nil, none.Weight(), none.Sound())
	fmt.Println(try(func() { robot{}.Walk(1) }) != nil, try(func() { _ = none.Describe }) != nil)
	var empty logged
	fmt.Println(try(func() { empty.Name() }), empty.legged == nil)
	pairs := []struct {
		animal
		times int
	}{{d, 1}, {p, 2}, {r, 3}}
	for _, x := range pairs {
		fmt.Print(x.Sound(), x.times, " ")
	}
	fmt.Println()
}
