"""usage: sources.py KIND FOLDER LINES

Writes one Go file into a folder: so many lines. `scalar`: functions of scalars, of which each calls the one before. `mixed`:
structs that embed those before, interfaces, methods, closures, maps, slices, channels and type switches.
"""
import os
import sys

SCALAR = """
func f{i}(a int, b string, ok bool) (int, string) {{
	const step = {i} + iota
	type number int
	n, s := a+step, b
	for k := 0; k < 10; k++ {{
		if k%4 == 0 && !ok {{
			continue
		}}
		n += int(uint8(k)) << 1
		s += "{i}"
	}}
	switch {{
	case n > 100:
		var m number = number(n)
		n = int(m &^ 6)
	case s == "a{i}", len(s) > 8:
		n, s = {callee}
	default:
		n--
	}}
	return n, s[:len(s)/4]
}}
"""
SCALAR_MAIN = """
func main() {{
	n, s := f{last}(4, "a", true)
	println(n, s)
}}
"""
MIXED = """
type kind{i} uint8

type shape{i} interface {{
	area(scale int) int
	name() string
}}

type box{i} struct {{
	{embedded}
	width, height int
	tags          []string
	seen          map[string]kind{i}
	next          *box{i}
}}

func (b *box{i}) area(scale int) int {{
	total := b.width * b.height * scale
	for p := b.next; p != nil; p = p.next {{
		total += p.width
	}}
	return total
}}

func (b box{i}) name() string {{ return "box{i}" + b.tags[0] }}

func (k kind{i}) String() string {{
	if k < 4 {{
		return "small"
	}}
	return "large"
}}

func sum{i}(shapes []shape{i}, by func(int) int) (total int, names []string) {{
	defer func() {{
		if r := recover(); r != nil {{
			total = -1
		}}
	}}()
	for i, s := range shapes {{
		switch s := s.(type) {{
		case nil:
			continue
		case *box{i}:
			total += by(s.area(i)) + len(s.seen)
		default:
			total++
		}}
		names = append(names, s.name())
	}}
	return total, names
}}

func use{i}(n int) int {{
	c := make(chan int, 4)
	b := &box{i}{{width: n, height: {i}, tags: []string{{"a", "b"}}, seen: map[string]kind{i}{{"x": 1}}}}
	b.seen["y"], b.next = kind{i}(n), &box{i}{{tags: b.tags[1:]}}
	go func() {{ c <- b.area(n) }}()
	total, names := sum{i}([]shape{i}{{b, nil, b.next}}, func(x int) int {{ return x + n }})
	select {{
	case v, ok := <-c:
		if ok {{
			total += v
		}}
	default:
	}}
	var a [4][2]int
	a[n&3][1] = {callee}
	return total + len(names) + a[1][1] + len(b.seen["x"].String())
}}
"""
MIXED_MAIN = """
func main() {{
	println(use{last}(1))
}}
"""


def scalar(i):
    return SCALAR.format(i=i, callee=f"f{i - 1}(n, s, !ok)" if i else "a, b")


def mixed(i):
    # embedding goes up to ten deep
    embedded = f"*box{i - 1}" if i % 10 else "id int"
    return MIXED.format(i=i, embedded=embedded, callee=f"use{i - 1}(n)" if i % 100 else "n")


def main():
    kind, folder, lines = sys.argv[1], sys.argv[2], int(sys.argv[3])
    form, end = (scalar, SCALAR_MAIN) if kind == "scalar" else (mixed, MIXED_MAIN)
    count = lines // form(1).count("\n")
    texts = ["package main\n"] + [form(i) for i in range(count)] + [end.format(last=count - 1)]
    with open(os.path.join(folder, "main.go"), "w") as out:
        out.write("".join(texts))


main()
