package main

type shape interface {
	area() int
	name() string
}

type square struct{ side int }

func (s square) area() int    { return s.side * s.side }
func (s square) name() string { return "square" }

type box struct {
	w, h int
	tags []string
}

func (b *box) area() int    { return b.w * b.h }
func (b *box) name() string { return "box" }

func (b *box) tag(t string) {
	b.tags = append(b.tags, t)
}

func counter() func() int {
	n := 0
	return func() int {
		n++
		return n
	}
}

func words(text string) []string {
	var out []string
	from := 0
	for i, c := range text {
		if c == ' ' {
			if i > from {
				out = append(out, text[from:i])
			}
			from = i + 1
		}
	}
	if from < len(text) {
		out = append(out, text[from:])
	}
	return out
}

func count(list []string) map[string]int {
	m := make(map[string]int)
	for _, w := range list {
		m[w]++
	}
	return m
}

func sorted(m map[string]int) []string {
	var keys []string
	for k := range m {
		keys = append(keys, k)
	}
	for i := 1; i < len(keys); i++ {
		for j := i; j > 0 && keys[j] < keys[j-1]; j-- {
			keys[j], keys[j-1] = keys[j-1], keys[j]
		}
	}
	return keys
}

func largest(list []shape) (best shape, at int) {
	at = -1
	for i, s := range list {
		if best == nil || s.area() > best.area() {
			best, at = s, i
		}
	}
	return
}

func main() {
	next := counter()
	m := count(words("the cat and the dog and the bird"))
	for _, k := range sorted(m) {
		println(next(), k, m[k])
	}
	b := &box{w: 3, h: 5}
	b.tag("wide")
	b.tag("red")
	list := []shape{square{2}, b, square{3}}
	best, at := largest(list)
	println(best.name(), best.area(), at, len(b.tags), b.tags[1])
	total := 0
	apply := func(f func(int) int) {
		for i := range list {
			total += f(list[i].area())
		}
	}
	apply(func(x int) int { return x * 2 })
	println(total)
}
