// Huffman codes with a heap by hand, and a coder of runs.
package main

import (
	"fmt"
	"strings"
)

type tree struct {
	symbol      byte
	weight      int
	left, right *tree
}

func (t *tree) leaf() bool { return t.left == nil }

type heap struct{ items []*tree }

func (h *heap) less(i, j int) bool {
	a, b := h.items[i], h.items[j]
	return a.weight < b.weight || a.weight == b.weight && a.symbol < b.symbol
}

func (h *heap) push(t *tree) {
	h.items = append(h.items, t)
	for i := len(h.items) - 1; i > 0; {
		up := (i - 1) / 2
		if !h.less(i, up) {
			return
		}
		h.items[i], h.items[up] = h.items[up], h.items[i]
		i = up
	}
}

func (h *heap) pop() *tree {
	top := h.items[0]
	last := len(h.items) - 1
	h.items[0] = h.items[last]
	h.items[last] = nil
	h.items = h.items[:last]
	for i := 0; ; {
		least := i
		for _, down := range [...]int{2*i + 1, 2*i + 2} {
			if down < last && h.less(down, least) {
				least = down
			}
		}
		if least == i {
			return top
		}
		h.items[i], h.items[least] = h.items[least], h.items[i]
		i = least
	}
}

func build(text string) *tree {
	var counts [256]int
	for i := 0; i < len(text); i++ {
		counts[text[i]]++
	}
	h := &heap{}
	for c, n := range counts {
		if n > 0 {
			h.push(&tree{symbol: byte(c), weight: n})
		}
	}
	for len(h.items) > 1 {
		a, b := h.pop(), h.pop()
		symbol := a.symbol
		if b.symbol < symbol {
			symbol = b.symbol
		}
		h.push(&tree{symbol, a.weight + b.weight, a, b})
	}
	return h.pop()
}

type code struct {
	bits  uint32
	count uint
}

func (c code) String() string {
	s := ""
	for i := c.count; i > 0; i-- {
		s += fmt.Sprint(c.bits >> (i - 1) & 1)
	}
	return s
}

func codes(t *tree) map[byte]code {
	all := make(map[byte]code)
	var walk func(t *tree, c code)
	walk = func(t *tree, c code) {
		if t.leaf() {
			all[t.symbol] = c
			return
		}
		walk(t.left, code{c.bits << 1, c.count + 1})
		walk(t.right, code{c.bits<<1 | 1, c.count + 1})
	}
	walk(t, code{})
	return all
}

type writer struct {
	bytes []byte
	free  uint
}

func (w *writer) write(c code) {
	for i := c.count; i > 0; i-- {
		if w.free == 0 {
			w.bytes = append(w.bytes, 0)
			w.free = 8
		}
		w.free--
		if c.bits>>(i-1)&1 == 1 {
			w.bytes[len(w.bytes)-1] |= 1 << w.free
		}
	}
}

func decode(t *tree, bytes []byte, count int) string {
	var out []byte
	at := t
	for _, b := range bytes {
		for bit := 7; bit >= 0 && len(out) < count; bit-- {
			if b&(1<<uint(bit)) != 0 {
				at = at.right
			} else {
				at = at.left
			}
			if at.leaf() {
				out = append(out, at.symbol)
				at = t
			}
		}
	}
	return string(out)
}

func runs(s string) (out []byte) {
	for i := 0; i < len(s); {
		j := i
		for j < len(s) && s[j] == s[i] && j-i < 255 {
			j++
		}
		out = append(out, byte(j-i), s[i])
		i = j
	}
	return
}

func unruns(b []byte) string {
	var s strings.Builder
	for ; len(b) > 0; b = b[2:] {
		for k := byte(0); k < b[0]; k++ {
			s.WriteByte(b[1])
		}
	}
	return s.String()
}

func main() {
	text := "the sea was still, and the ship lay still on the still sea; so they sat and told tales till the tide turned."
	t := build(text)
	all := codes(t)
	var w writer
	bits := uint(0)
	for i := 0; i < len(text); i++ {
		w.write(all[text[i]])
		bits += all[text[i]].count
	}
	fmt.Println(len(text), "bytes,", len(all), "symbols,", bits, "bits,", len(w.bytes), "bytes")
	for c := 0; c < 256; c++ {
		if k, ok := all[byte(c)]; ok {
			fmt.Printf("%c %-8v|", c, k)
		}
	}
	fmt.Println()
	fmt.Printf("%x\n", string(w.bytes[:16]))
	fmt.Println(decode(t, w.bytes, len(text)) == text)

	picture := strings.Repeat(".", 30) + strings.Repeat("#", 300) + "." + "xyz" + strings.Repeat("-", 256)
	r := runs(picture)
	fmt.Println(len(picture), len(r), unruns(r) == picture)
	fmt.Println(fmt.Sprintf("%x", string(r)), unruns(nil) == "")
}
