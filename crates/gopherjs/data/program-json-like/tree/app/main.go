package main

import (
	"fmt"
	"strconv"
	"strings"
)

type value interface{}

type pair struct {
	key string
	val value
}

type object []pair
type list []value

type reader struct {
	s string
	i int
}

type failure struct {
	at  int
	msg string
}

func (f failure) Error() string { return fmt.Sprintf("%s at %d", f.msg, f.at) }

func (r *reader) fail(msg string) { panic(failure{r.i, msg}) }

func (r *reader) skip() {
	for r.i < len(r.s) && (r.s[r.i] == ' ' || r.s[r.i] == '\n' || r.s[r.i] == '\t') {
		r.i++
	}
}

func (r *reader) want(c byte) {
	r.skip()
	if r.i >= len(r.s) || r.s[r.i] != c {
		r.fail("expected " + string(rune(c)))
	}
	r.i++
}

func (r *reader) try(c byte) bool {
	r.skip()
	if r.i < len(r.s) && r.s[r.i] == c {
		r.i++
		return true
	}
	return false
}

func (r *reader) text() string {
	r.want('"')
	var b strings.Builder
	for {
		if r.i >= len(r.s) {
			r.fail("open string")
		}
		c := r.s[r.i]
		r.i++
		switch c {
		case '"':
			return b.String()
		case '\\':
			if r.i >= len(r.s) {
				r.fail("open escape")
			}
			e := r.s[r.i]
			r.i++
			switch e {
			case 'n':
				b.WriteByte('\n')
			case 't':
				b.WriteByte('\t')
			case 'u':
				if r.i+4 > len(r.s) {
					r.fail("short escape")
				}
				n, err := strconv.ParseInt(r.s[r.i:r.i+4], 16, 32)
				if err != nil {
					r.fail("bad escape")
				}
				b.WriteString(string(rune(n)))
				r.i += 4
			default:
				b.WriteByte(e)
			}
		default:
			b.WriteByte(c)
		}
	}
}

func (r *reader) value() value {
	r.skip()
	if r.i == len(r.s) {
		r.fail("end of text")
	}
	switch c := r.s[r.i]; {
	case c == '{':
		r.i++
		o := object{}
		if r.try('}') {
			return o
		}
		for {
			r.skip()
			k := r.text()
			r.want(':')
			o = append(o, pair{k, r.value()})
			if r.try('}') {
				return o
			}
			r.want(',')
		}
	case c == '[':
		r.i++
		l := list{}
		if r.try(']') {
			return l
		}
		for {
			l = append(l, r.value())
			if r.try(']') {
				return l
			}
			r.want(',')
		}
	case c == '"':
		return r.text()
	case c == '-' || '0' <= c && c <= '9':
		j := r.i + 1
		for j < len(r.s) && '0' <= r.s[j] && r.s[j] <= '9' {
			j++
		}
		n, err := strconv.ParseInt(r.s[r.i:j], 10, 64)
		if err != nil {
			r.fail("bad number")
		}
		r.i = j
		return n
	}
	for _, w := range []string{"true", "false", "null"} {
		if strings.HasPrefix(r.s[r.i:], w) {
			r.i += len(w)
			if w == "null" {
				return nil
			}
			return w == "true"
		}
	}
	r.fail("bad value")
	return nil
}

func show(v value, depth int) string {
	pad := strings.Repeat("  ", depth)
	switch x := v.(type) {
	case nil:
		return "null"
	case bool:
		return strconv.FormatBool(x)
	case int64:
		return strconv.FormatInt(x, 10)
	case string:
		return "<" + x + ">"
	case list:
		parts := make([]string, len(x))
		for i, e := range x {
			parts[i] = show(e, depth+1)
		}
		return "[" + strings.Join(parts, ", ") + "]"
	case object:
		s := "{\n"
		for _, p := range x {
			s += pad + "  " + p.key + ": " + show(p.val, depth+1) + "\n"
		}
		return s + pad + "}"
	}
	return "?"
}

func parse(s string) (v value, err error) {
	defer func() {
		if f, ok := recover().(failure); ok {
			err = f
		}
	}()
	r := &reader{s: s}
	v = r.value()
	r.skip()
	if r.i != len(s) {
		r.fail("left over")
	}
	return
}

func main() {
	for _, s := range []string{
		`{"a": [1, -2, 9007199254740993], "b": {"c": null, "d": true}, "e": "x\n\"y\u00e9"}`,
		`[]`, `{}`, ` [ {"k" : [ [ ] ] } ] `, `[1, 2`, `{"a" 1}`, `"abc`, `tru`, `[1] 2`, `99999999999999999999`,
	} {
		v, err := parse(s)
		if err != nil {
			fmt.Println("error:", err)
			continue
		}
		fmt.Println(show(v, 0))
	}
}
