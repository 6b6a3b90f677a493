package main

import (
	"fmt"
	"strings"
)

type command interface {
	do(*buffer) error
	undo(*buffer)
}

type buffer struct {
	text   []rune
	done   []command
	undone []command
	marks  map[rune]int
	watch  []func(event string, b *buffer)
}

type insert struct {
	at   int
	text string
}

type remove struct {
	at, n int
	was   []rune
}

type group []command

type replaceAll struct {
	old, new string
	group
}

func (i *insert) do(b *buffer) error {
	if i.at < 0 || i.at > len(b.text) {
		return fmt.Errorf("insert at %d of %d", i.at, len(b.text))
	}
	b.text = append(b.text[:i.at], append([]rune(i.text), b.text[i.at:]...)...)
	return nil
}

func (i *insert) undo(b *buffer) {
	b.text = append(b.text[:i.at], b.text[i.at+len([]rune(i.text)):]...)
}

func (r *remove) do(b *buffer) (err error) {
	defer func() {
		if e, ok := recover().(error); ok {
			err = fmt.Errorf("remove: %v", e == nil)
		}
	}()
	r.was = append([]rune(nil), b.text[r.at:r.at+r.n]...)
	b.text = append(b.text[:r.at], b.text[r.at+r.n:]...)
	return
}

func (r *remove) undo(b *buffer) { (&insert{r.at, string(r.was)}).do(b) }

func (g group) do(b *buffer) error {
	for i, c := range g {
		if err := c.do(b); err != nil {
			g[:i].undo(b)
			return err
		}
	}
	return nil
}

func (g group) undo(b *buffer) {
	for i := len(g) - 1; i >= 0; i-- {
		g[i].undo(b)
	}
}

func (r *replaceAll) do(b *buffer) error {
	r.group = nil
	s, at := b.String(), 0
	for {
		i := strings.Index(s, r.old)
		if i < 0 || r.old == "" {
			break
		}
		at += len([]rune(s[:i]))
		r.group = append(r.group, &remove{at: at, n: len([]rune(r.old))}, &insert{at, r.new})
		s = s[i+len(r.old):]
		at += len([]rune(r.new))
	}
	return r.group.do(b)
}

func (b *buffer) String() string { return string(b.text) }

func (b *buffer) tell(event string) {
	for _, w := range b.watch {
		w(event, b)
	}
}

func (b *buffer) apply(c command) error {
	if err := c.do(b); err != nil {
		b.tell("failed")
		return err
	}
	b.done, b.undone = append(b.done, c), b.undone[:0]
	b.tell("done")
	return nil
}

func (b *buffer) undo() bool {
	n := len(b.done)
	if n == 0 {
		return false
	}
	c := b.done[n-1]
	b.done, b.undone = b.done[:n-1], append(b.undone, c)
	c.undo(b)
	b.tell("undone")
	return true
}

func (b *buffer) redo() (ok bool) {
	if n := len(b.undone); n > 0 {
		c := b.undone[n-1]
		b.undone = b.undone[:n-1]
		if ok = c.do(b) == nil; ok {
			b.done = append(b.done, c)
		}
	}
	return
}

func hexdump(s string) (out string) {
	for i := 0; i < len(s); i += 8 {
		line := s[i:]
		if len(line) > 8 {
			line = line[:8]
		}
		out += fmt.Sprintf("%04x ", i)
		for j := 0; j < 8; j++ {
			if j < len(line) {
				out += fmt.Sprintf(" %02x", line[j])
			} else {
				out += "   "
			}
		}
		out += "  |"
		for _, c := range []byte(line) {
			if c < ' ' || c > '~' {
				c = '.'
			}
			out += string(rune(c))
		}
		out += "|\n"
	}
	return
}

func main() {
	b := new(buffer)
	counts := make(map[string]int)
	b.watch = append(b.watch, func(e string, b *buffer) { counts[e]++ }, func(e string, _ *buffer) {
		if e == "failed" {
			defer fmt.Println("told", e)
		}
	})
	for _, c := range []command{
		&insert{0, "hello world"}, &insert{5, ", ünï"}, &remove{at: 0, n: 1}, &insert{0, "H"},
		&replaceAll{old: "l", new: "LL"}, &remove{at: 10, n: 100}, &insert{99, "x"},
		group{&insert{0, ">"}, &remove{at: 500, n: 1}, &insert{0, "<"}},
		group{&insert{0, "["}, group{}, &replaceAll{"o", "", nil}, &insert{1, "]"}},
	} {
		if err := b.apply(c); err != nil {
			fmt.Printf("%s (%d)\n", err, len(b.done))
			continue
		}
		fmt.Println(b, len(b.text))
	}
	for b.undo() {
		fmt.Println("<", b)
	}
	for b.redo() {
	}
	fmt.Println(b, len(b.done), len(b.undone), counts["done"], counts["failed"], counts["undone"])
	b.undo()
	b.apply(&insert{0, "!"})
	fmt.Println(b, b.redo())
	fmt.Print(hexdump(b.String() + "\x00\xff~"))
}
