package main

import (
	"fmt"
	"strconv"
	"strings"
)

type opcode byte

const (
	push opcode = iota
	add
	sub
	mul
	div
	dup
	swap
	load
	store
	jump
	jumpZero
	call
	ret
	print_
	halt
)

var names = map[string]opcode{
	"push": push, "add": add, "sub": sub, "mul": mul, "div": div, "dup": dup, "swap": swap, "load": load,
	"store": store, "jmp": jump, "jz": jumpZero, "call": call, "ret": ret, "print": print_, "halt": halt,
}

func (o opcode) hasArg() bool {
	switch o {
	case push, load, store, jump, jumpZero, call:
		return true
	}
	return false
}

type instr struct {
	op  opcode
	arg int
}

type asmError struct {
	line int
	what string
}

func (e *asmError) Error() string { return "line " + strconv.Itoa(e.line) + ": " + e.what }

func assemble(src string) (code []instr, err error) {
	labels := map[string]int{}
	type fix struct {
		at, line int
		name     string
	}
	var fixes []fix
	for n, line := range strings.Split(src, "\n") {
		if i := strings.Index(line, ";"); i >= 0 {
			line = line[:i]
		}
		f := strings.Fields(line)
		for len(f) > 0 && strings.HasSuffix(f[0], ":") {
			labels[f[0][:len(f[0])-1]] = len(code)
			f = f[1:]
		}
		if len(f) == 0 {
			continue
		}
		op, ok := names[f[0]]
		switch {
		case !ok:
			return nil, &asmError{n + 1, "unknown " + f[0]}
		case op.hasArg() != (len(f) == 2):
			return nil, &asmError{n + 1, "wrong operands of " + f[0]}
		}
		in := instr{op: op}
		if len(f) == 2 {
			if v, err := strconv.Atoi(f[1]); err == nil {
				in.arg = v
			} else {
				fixes = append(fixes, fix{len(code), n + 1, f[1]})
			}
		}
		code = append(code, in)
	}
	for _, x := range fixes {
		at, ok := labels[x.name]
		if !ok {
			return nil, &asmError{x.line, "no label " + x.name}
		}
		code[x.at].arg = at
	}
	return
}

type machine struct {
	stack, calls []int
	vars         [8]int
	steps        int
	out          []string
}

func (m *machine) pop() int {
	n := len(m.stack) - 1
	v := m.stack[n]
	m.stack = m.stack[:n]
	return v
}

func (m *machine) push(v int) { m.stack = append(m.stack, v) }

func (m *machine) run(code []instr, limit int) (err error) {
	pc := 0
	defer func() {
		if r := recover(); r != nil {
			err = fmt.Errorf("at %d: %v", pc, r)
		}
	}()
loop:
	for ; m.steps < limit; m.steps++ {
		in := code[pc]
		switch in.op {
		case push:
			m.push(in.arg)
		case add, sub, mul, div:
			b, a := m.pop(), m.pop()
			switch in.op {
			case sub:
				b = -b
				fallthrough
			case add:
				a += b
			case mul:
				a *= b
			case div:
				a /= b
			}
			m.push(a)
		case dup:
			v := m.pop()
			m.push(v)
			m.push(v)
		case swap:
			n := len(m.stack)
			m.stack[n-1], m.stack[n-2] = m.stack[n-2], m.stack[n-1]
		case load:
			m.push(m.vars[in.arg])
		case store:
			m.vars[in.arg] = m.pop()
		case jumpZero:
			if m.pop() != 0 {
				break
			}
			fallthrough
		case jump:
			pc = in.arg
			continue loop
		case call:
			m.calls = append(m.calls, pc+1)
			pc = in.arg
			continue
		case ret:
			n := len(m.calls) - 1
			pc = m.calls[n]
			m.calls = m.calls[:n]
			continue loop
		case print_:
			m.out = append(m.out, strconv.Itoa(m.pop()))
		case halt:
			break loop
		}
		pc++
	}
	if m.steps >= limit {
		return fmt.Errorf("limit of %d steps", limit)
	}
	return nil
}

const factorial = `
	push 1
	store 0        ; result
	push 12
	store 1
again:	load 1
	jz end
	load 0
	load 1
	mul
	store 0
	load 1
	push 1
	sub
	store 1
	jmp again
end:	load 0
	print
	halt`

const calls = `
	push 7
	call square
	dup
	print
	call square
	print
	push 3
	push 10
	swap
	sub
	print
	halt
square: dup
	mul
	ret`

func main() {
	for _, src := range []string{factorial, calls, "l: jmp l", "push 1\npush 0\ndiv", "push 1\n\nfrob", "push", "jz nowhere", "add", "push 5\nload 9\nhalt", "push 1", "ret"} {
		code, err := assemble(src)
		if err != nil {
			fmt.Println("asm:", err)
			continue
		}
		m := &machine{}
		err = m.run(code, 1000)
		fmt.Println(len(code), m.steps, m.out, m.stack, err)
	}
}
