// A small Lisp: numbers, symbols, lists, closures, and errors by panics that the top catches.
package main

import (
	"errors"
	"fmt"
	"strconv"
	"strings"
)

type value interface{}
type symbol string
type list []value
type builtin func(args list) value

type closure struct {
	params []symbol
	body   value
	scope  *scope
}

type scope struct {
	names map[symbol]value
	outer *scope
}

func (s *scope) find(name symbol) (*scope, bool) {
	for ; s != nil; s = s.outer {
		if _, ok := s.names[name]; ok {
			return s, true
		}
	}
	return nil, false
}

type syntaxError struct {
	at   int
	what string
}

func (e syntaxError) Error() string { return fmt.Sprintf("%d: %s", e.at, e.what) }

var errUnbound = errors.New("unbound")

type unbound struct{ name symbol }

func (u unbound) Error() string        { return "unbound " + string(u.name) }
func (u unbound) Is(target error) bool { return target == errUnbound }

func tokens(text string) (all []string) {
	start := -1
	flush := func(end int) {
		if start >= 0 {
			all = append(all, text[start:end])
			start = -1
		}
	}
	for i, c := range text {
		switch {
		case c == '(' || c == ')' || c == '\'':
			flush(i)
			all = append(all, string(c))
		case c == ' ' || c == '\n' || c == '\t':
			flush(i)
		case start < 0:
			start = i
		}
	}
	flush(len(text))
	return
}

type reader struct {
	words []string
	at    int
}

func (r *reader) read() value {
	if r.at == len(r.words) {
		panic(syntaxError{r.at, "unexpected end"})
	}
	word := r.words[r.at]
	r.at++
	switch word {
	case "(":
		l := list{}
		for {
			if r.at < len(r.words) && r.words[r.at] == ")" {
				r.at++
				return l
			}
			l = append(l, r.read())
		}
	case ")":
		panic(syntaxError{r.at - 1, "unexpected )"})
	case "'":
		return list{symbol("quote"), r.read()}
	}
	if n, err := strconv.Atoi(word); err == nil {
		return n
	}
	return symbol(word)
}

func truth(v value) bool {
	switch v := v.(type) {
	case bool:
		return v
	case list:
		return len(v) > 0
	case nil:
		return false
	}
	return true
}

func eval(v value, s *scope) value {
	for {
		switch x := v.(type) {
		case symbol:
			at, ok := s.find(x)
			if !ok {
				panic(unbound{x})
			}
			return at.names[x]
		case list:
			if len(x) == 0 {
				return x
			}
			if name, ok := x[0].(symbol); ok {
				switch name {
				case "quote":
					return x[1]
				case "if":
					if truth(eval(x[1], s)) {
						v = x[2]
					} else if len(x) > 3 {
						v = x[3]
					} else {
						return nil
					}
					continue
				case "define":
					s.names[x[1].(symbol)] = eval(x[2], s)
					return x[1]
				case "set!":
					at, ok := s.find(x[1].(symbol))
					if !ok {
						panic(unbound{x[1].(symbol)})
					}
					at.names[x[1].(symbol)] = eval(x[2], s)
					return nil
				case "lambda":
					c := &closure{body: x[2], scope: s}
					for _, p := range x[1].(list) {
						c.params = append(c.params, p.(symbol))
					}
					return c
				case "begin":
					for _, part := range x[1 : len(x)-1] {
						eval(part, s)
					}
					v = x[len(x)-1]
					continue
				}
			}
			f := eval(x[0], s)
			args := make(list, 0, len(x)-1)
			for _, part := range x[1:] {
				args = append(args, eval(part, s))
			}
			switch f := f.(type) {
			case builtin:
				return f(args)
			case *closure:
				if len(args) != len(f.params) {
					panic(fmt.Errorf("want %d arguments, have %d", len(f.params), len(args)))
				}
				s = &scope{map[symbol]value{}, f.scope}
				for i, p := range f.params {
					s.names[p] = args[i]
				}
				v = f.body
				continue
			}
			panic(fmt.Errorf("%s is no function", show(f)))
		default:
			return v
		}
	}
}

func show(v value) string {
	switch v := v.(type) {
	case nil:
		return "nil"
	case list:
		parts := make([]string, len(v))
		for i := range v {
			parts[i] = show(v[i])
		}
		return "(" + strings.Join(parts, " ") + ")"
	case *closure:
		return fmt.Sprintf("<lambda of %d>", len(v.params))
	case builtin:
		return "<builtin>"
	case symbol:
		return string(v)
	}
	return fmt.Sprint(v)
}

func fold(f func(a, b int) int) builtin {
	return func(args list) value {
		n := args[0].(int)
		for _, a := range args[1:] {
			n = f(n, a.(int))
		}
		return n
	}
}

func globals() *scope {
	return &scope{map[symbol]value{
		"+":    fold(func(a, b int) int { return a + b }),
		"-":    fold(func(a, b int) int { return a - b }),
		"*":    fold(func(a, b int) int { return a * b }),
		"/":    fold(func(a, b int) int { return a / b }),
		"<":    builtin(func(a list) value { return a[0].(int) < a[1].(int) }),
		"=":    builtin(func(a list) value { return a[0] == a[1] }),
		"car":  builtin(func(a list) value { return a[0].(list)[0] }),
		"cdr":  builtin(func(a list) value { return a[0].(list)[1:] }),
		"cons": builtin(func(a list) value { return append(list{a[0]}, a[1].(list)...) }),
		"list": builtin(func(a list) value { return a }),
		"true": true,
	}, nil}
}

func run(text string, s *scope) (out string, err error) {
	defer func() {
		switch r := recover().(type) {
		case nil:
		case error:
			err = r
		default:
			panic(r)
		}
	}()
	r := &reader{words: tokens(text)}
	for r.at < len(r.words) {
		out = show(eval(r.read(), s))
	}
	return
}

func main() {
	s := globals()
	for _, text := range []string{
		"(+ 1 2 (* 3 4))",
		"'(a (b 3) ())",
		"(define fact (lambda (n) (if (< n 2) 1 (* n (fact (- n 1)))))) (fact 10)",
		"(define map (lambda (f l) (if l (cons (f (car l)) (map f (cdr l))) l)))",
		"(map (lambda (x) (* x x)) '(1 2 3 4))",
		"(define counter (lambda (n) (lambda () (begin (set! n (+ n 1)) n)))) (define c (counter 10)) (c) (c)",
		"(define loop (lambda (n sum) (if (= n 0) sum (loop (- n 1) (+ sum n))))) (loop 300 0)",
		"(if (= 'a 'a) 'same 'other)",
		"(list c map + true)",
		"(fact)",
		"(nobody 1)",
		"(1 2)",
		"(/ 1 0)",
		"(car '())",
		"(car 5)",
		"(+ 1 'x)",
		"(a (b",
		")",
		"(set! new 1)",
	} {
		out, err := run(text, s)
		if err != nil {
			fmt.Println("error:", clean(err), errors.Is(err, errUnbound))
			continue
		}
		fmt.Println(out)
	}
}

// clean leaves away what compilers word in their own way.
func clean(err error) string {
	text := err.Error()
	if i := strings.Index(text, "interface conversion"); i >= 0 {
		return text[:i+len("interface conversion")]
	}
	return text
}
