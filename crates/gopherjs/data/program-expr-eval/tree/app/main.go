package main

import (
	"errors"
	"fmt"
	"strconv"
)

type kind int

const (
	num kind = iota
	name
	op
	end
)

func (k kind) String() string {
	switch k {
	case num:
		return "num"
	case name:
		return "name"
	case op:
		return "op"
	}
	return "end"
}

type token struct {
	kind kind
	text string
	at   int
}

type syntaxError struct {
	at   int
	what string
}

func (e *syntaxError) Error() string {
	return "at " + strconv.Itoa(e.at) + ": " + e.what
}

var errDivide = errors.New("division by zero")

func lex(s string) ([]token, error) {
	var ts []token
	for i := 0; i < len(s); {
		c := s[i]
		switch {
		case c == ' ':
			i++
		case '0' <= c && c <= '9':
			j := i
			for j < len(s) && '0' <= s[j] && s[j] <= '9' {
				j++
			}
			ts = append(ts, token{num, s[i:j], i})
			i = j
		case 'a' <= c && c <= 'z':
			j := i + 1
			for j < len(s) && 'a' <= s[j] && s[j] <= 'z' {
				j++
			}
			ts = append(ts, token{name, s[i:j], i})
			i = j
		default:
			switch c {
			case '+', '-', '*', '/', '%', '(', ')', '=', '^':
				ts = append(ts, token{op, string(rune(c)), i})
				i++
				continue
			}
			return nil, &syntaxError{i, "bad character " + strconv.Itoa(int(c))}
		}
	}
	return append(ts, token{end, "", len(s)}), nil
}

type parser struct {
	toks []token
	pos  int
	vars map[string]int
}

func (p *parser) peek() token { return p.toks[p.pos] }

func (p *parser) next() token {
	t := p.toks[p.pos]
	if t.kind != end {
		p.pos++
	}
	return t
}

var prec = map[string]int{"+": 1, "-": 1, "*": 2, "/": 2, "%": 2, "^": 3}

func (p *parser) expr(min int) int {
	x := p.unary()
	for {
		t := p.peek()
		q, ok := prec[t.text]
		if t.kind != op || !ok || q < min {
			return x
		}
		p.next()
		if t.text == "^" {
			y := p.expr(q)
			r := 1
			for ; y > 0; y-- {
				r *= x
			}
			x = r
			continue
		}
		y := p.expr(q + 1)
		switch t.text {
		case "+":
			x += y
		case "-":
			x -= y
		case "*":
			x *= y
		case "/", "%":
			if y == 0 {
				panic(errDivide)
			}
			if t.text == "/" {
				x /= y
			} else {
				x %= y
			}
		}
	}
}

func (p *parser) unary() int {
	t := p.next()
	switch {
	case t.kind == num:
		n, err := strconv.Atoi(t.text)
		if err != nil {
			panic(err)
		}
		return n
	case t.kind == name:
		v, ok := p.vars[t.text]
		if !ok {
			panic(&syntaxError{t.at, "unknown " + t.text})
		}
		return v
	case t.text == "-":
		return -p.expr(3)
	case t.text == "(":
		v := p.expr(1)
		if p.next().text != ")" {
			panic(&syntaxError{t.at, "unclosed"})
		}
		return v
	}
	panic(&syntaxError{t.at, "unexpected " + t.kind.String()})
}

func (p *parser) run(s string) (v int, err error) {
	defer func() {
		if r := recover(); r != nil {
			e, ok := r.(error)
			if !ok {
				panic(r)
			}
			err = e
		}
	}()
	if p.toks, err = lex(s); err != nil {
		return
	}
	p.pos = 0
	target := ""
	if len(p.toks) > 2 && p.toks[0].kind == name && p.toks[1].text == "=" {
		target = p.toks[0].text
		p.pos = 2
	}
	v = p.expr(1)
	if t := p.peek(); t.kind != end {
		return 0, &syntaxError{t.at, "left over"}
	}
	if target != "" {
		p.vars[target] = v
	}
	return v, nil
}

func main() {
	p := &parser{vars: map[string]int{}}
	for _, s := range []string{
		"1 + 2 * 3", "(1 + 2) * 3", "-2 ^ 2", "2 ^ 3 ^ 2", "x = 7 * 6", "x / 5 - x % 5",
		"y = x = 3", "10 / (x - 42)", "2 +", "(1", "3 $ 4", "zz + 1", "99999999999", "--x", "2147483647 + 1",
	} {
		v, err := p.run(s)
		switch e := err.(type) {
		case nil:
			fmt.Printf("%-16s = %d\n", s, v)
		case *syntaxError:
			fmt.Printf("%-16s ! syntax %d (%v)\n", s, e.at, e)
		default:
			fmt.Printf("%-16s ! %v %t\n", s, e, err == errDivide)
		}
	}
}
