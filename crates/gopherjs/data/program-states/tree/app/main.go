// A vending machine and a door as tables of states, with method values and maps of functions.
package main

import (
	"errors"
	"fmt"
)

type state int

const (
	idle state = iota + 1
	paid
	serving
	broken
)

var names = map[state]string{idle: "idle", paid: "paid", serving: "serving", broken: "broken"}

func (s state) String() string { return names[s] }

type event struct {
	name  string
	value int
}

type machine struct {
	state
	coins, stock int
	log          []string
	on           map[state]map[string]func(event) (state, error)
}

var errEmpty = errors.New("sold out")

type misfit struct {
	s state
	e event
}

func (m *misfit) Error() string { return fmt.Sprint(m.e.name, " while ", m.s) }

func newMachine(stock int) *machine {
	m := &machine{state: idle, stock: stock}
	m.on = map[state]map[string]func(event) (state, error){
		idle:    {"coin": m.insert, "kick": m.kick},
		paid:    {"coin": m.insert, "button": m.choose, "cancel": m.cancel, "kick": m.kick},
		serving: {"take": func(event) (state, error) { return idle, nil }},
		broken:  {"repair": m.repair},
	}
	return m
}

func (m *machine) insert(e event) (state, error) {
	m.coins += e.value
	if m.coins >= 3 {
		return paid, nil
	}
	return m.state, nil
}

func (m *machine) choose(event) (state, error) {
	if m.stock == 0 {
		return paid, errEmpty
	}
	m.stock--
	m.coins -= 3
	return serving, nil
}

func (m *machine) cancel(event) (next state, err error) {
	defer func() { m.coins = 0 }()
	m.note("returned %d", m.coins)
	return idle, nil
}

func (m *machine) kick(e event) (state, error) {
	if e.value > 8 {
		return broken, nil
	}
	return m.state, nil
}

func (m *machine) repair(event) (state, error) {
	*m = *newMachine(m.stock + 1)
	return idle, nil
}

func (m *machine) note(format string, args ...interface{}) {
	m.log = append(m.log, fmt.Sprintf(format, args...))
}

func (m *machine) send(e event) error {
	f, ok := m.on[m.state][e.name]
	if !ok {
		return &misfit{m.state, e}
	}
	next, err := f(e)
	if err != nil {
		return err
	}
	if next != m.state {
		m.note("%v -> %v", m.state, next)
		m.state = next
	}
	return nil
}

func main() {
	m := newMachine(1)
	for _, e := range []event{
		{"coin", 1}, {"button", 0}, {"coin", 2}, {"button", 0}, {"coin", 1}, {"take", 0},
		{"coin", 5}, {"button", 0}, {"kick", 3}, {"cancel", 0}, {"kick", 9}, {"coin", 1}, {"repair", 0},
		{name: "coin", value: 3}, {name: "button"},
	} {
		if err := m.send(e); err != nil {
			_, isMisfit := err.(*misfit)
			fmt.Println(err, isMisfit, errors.Is(err, errEmpty))
		}
	}
	fmt.Println(m.state, m.coins, m.stock, len(m.log))
	for i, line := range m.log {
		fmt.Println(i, line)
	}

	// a method value keeps the receiver that it had
	kick := m.kick
	m.state = idle
	fmt.Println(kick(event{"kick", 1}))
	old := *m
	name := old.state.String
	old.state = broken
	fmt.Println(name(), old.state, m.state)

	type step func() step
	count := 0
	var even, odd step
	even = func() step {
		count++
		if count > 9 {
			return nil
		}
		return odd
	}
	odd = func() step { count *= 2; return even }
	for s := even; s != nil; s = s() {
	}
	fmt.Println(count)
}
