#!/usr/bin/env python3
"""usage: programs.py FOLDER SEED COUNT

Writes COUNT programs of each kind, each in a folder of its own below FOLDER: `expressions` (one statement over variables and
constants of all types), `bodies` (a function whose statements are nested at random) and `changes` (a program that is right,
with one to three changes).  All names that occur are declared or of the language, so most programs are right or almost right.
"""

import os
import random
import re
import sys
from typing import NamedTuple

TYPES = ["bool", "string", "int", "int8", "int16", "int32", "int64", "uint", "uint8", "uint16", "uint32", "uint64",
         "uintptr", "byte", "rune", "B", "S", "I", "I8", "U8", "I64"]
TRUTH = ["bool", "B"]
TEXT = ["string", "S"]
WHOLE = [t for t in TYPES if t not in TRUTH + TEXT]
COUNTS = ["0", "1", "4", "8", "16", "40", "100"]

HEAD = """package main

type B bool
type S string
type I int
type I8 int8
type U8 = uint8
type I64 int64

const cb = true
const cs = "hello"
const ci = 6
const cr = 'a'
const cz = 0
const cm = -1
const c40 = 1 << 40
const cbig = 1 << 100
const tbool bool = false
const tB B = true
const tstring string = "abc"
const tS S = "xyz"
const tint int = 8
const tint8 int8 = -128
const tuint8 uint8 = 255
const tI8 I8 = 100
const tuint uint = 4294967295
const tint64 int64 = 1 << 62
const trune rune = 'b'

func none() {}
func one() int { return 1 }
func two() (int, string) { return 1, "" }
func text(a string) S { return S(a) }
func take(a int8, b string) bool { return a == 0 && b == "" }
func add(a, b int) int { return a + b }
func pair() (int, int) { return 1, 4 }

"""

SMALL = ["0", "1", "4", "6", "100", "126", "'a'", "cz", "ci", "cr"]
LARGE = ["128", "200", "255", "256", "-1", "-128", "-129", "65535", "65536", "2147483648", "4294967295", "c40", "cbig",
         "1<<62", "1<<64 - 1", "cm"]
TYPED = {t for t in re.findall(r"const t(\w+) ", HEAD)}


class Expressions:
    """Expressions that are of a type, or almost."""

    def __init__(self, choose):
        self.choose = choose

    def chance(self, part):
        return self.choose.random() < part

    def any_of(self, items):
        return self.choose.choice(items)

    def leaf(self, kind):
        if self.chance(0.4):
            return "v_" + kind
        if kind in TYPED and self.chance(0.3):
            return "t" + kind
        if kind in TRUTH:
            return self.any_of(["true", "false", "cb"])
        if kind in TEXT:
            return self.any_of(["cs", '""', '"abc"'])
        return self.any_of(SMALL if self.chance(0.8) else LARGE)

    def stray(self, depth):
        return self.any_of(["none()", "two()", "nil", "int", "len", "_", "add", "iota", self.of(self.any_of(TYPES), depth)])

    def of(self, kind, depth):
        if self.chance(0.04):
            return self.stray(max(depth - 1, 0))
        if depth <= 0 or self.chance(0.2):
            return self.leaf(kind)
        if kind in TRUTH:
            return self.truth(kind, depth - 1)
        if kind in TEXT:
            return self.text(kind, depth - 1)
        return self.whole(kind, depth - 1)

    def wrapped(self, text):
        return "(%s)" % text if self.chance(0.75) else text

    def truth(self, kind, depth):
        form = self.any_of(["compare", "compare", "both", "not", "convert", "call"])
        if form == "compare":
            other = self.any_of(TYPES)
            signs = ["==", "!="] if other in TRUTH else ["==", "!=", "<", "<=", ">", ">="]
            return self.wrapped("%s %s %s" % (self.of(other, depth), self.any_of(signs), self.of(other, depth)))
        if form == "both":
            return self.wrapped("%s %s %s" % (self.of(kind, depth), self.any_of(["&&", "||"]), self.of(kind, depth)))
        if form == "not":
            return "!(%s)" % self.of(kind, depth)
        if form == "call" and kind == "bool":
            return "take(%s, %s)" % (self.of("int8", depth), self.of("string", depth))
        return "%s(%s)" % (kind, self.of(self.any_of(TRUTH), depth))

    def text(self, kind, depth):
        form = self.any_of(["add", "add", "convert", "whole", "cut", "cut", "call"])
        if form == "add":
            return "(%s + %s)" % (self.of(kind, depth), self.of(kind, depth))
        if form == "convert":
            return "%s(%s)" % (kind, self.of(self.any_of(TEXT), depth))
        if form == "whole":
            return "%s(%s)" % (kind, self.of(self.any_of(WHOLE), depth))
        if form == "call" and kind == "S":
            return "text(%s)" % self.of("string", depth)
        bounds = [self.of("int", depth) if self.chance(0.6) else "" for _ in range(2)]
        return "%s[%s:%s]" % (self.leaf(kind), *bounds)

    def whole(self, kind, depth):
        form = self.any_of(["binary"] * 5 + ["shift"] * 3 + ["sign", "convert", "convert", "call"])
        if form == "binary":
            sign = self.any_of(["+", "-", "*", "/", "%", "&", "|", "^", "&^"])
            return self.wrapped("%s %s %s" % (self.of(kind, depth), sign, self.of(kind, depth)))
        if form == "shift":
            count = self.any_of(COUNTS) if self.chance(0.4) else "v_" + self.any_of(WHOLE)
            return self.wrapped("%s %s %s" % (self.of(kind, depth), self.any_of(["<<", ">>"]), count))
        if form == "sign":
            return self.any_of("+-^") + self.of(kind, depth)
        if form == "call" and kind == "int":
            return self.any_of(["len(%s)" % self.of(self.any_of(TEXT), depth), "one()", "add(pair())",
                                "add(%s, %s)" % (self.of("int", depth), self.of("int", depth))])
        if form == "call" and kind in ("byte", "uint8", "U8"):
            return "%s[%s]" % (self.leaf(self.any_of(TEXT)), self.of(self.any_of(WHOLE), depth))
        return "%s(%s)" % (kind, self.of(self.any_of(WHOLE), depth))

    def statement(self):
        kind, depth = self.any_of(TYPES), self.any_of([1, 2, 2, 3])
        of = lambda k, d=depth: self.of(k, d)
        return self.any_of([
            lambda: "var x %s = %s\n\t_ = x" % (kind, of(kind)),
            lambda: "var x = %s\n\t_ = x" % of(kind),
            lambda: "const x %s = %s\n\t_ = x == x" % (kind, of(kind)),
            lambda: "const x = %s\n\t_ = x == x" % of(kind),
            lambda: "println(%s, %s)" % (of(kind), of(self.any_of(TYPES), 1)),
            lambda: "v_%s %s %s" % (kind, self.any_of(["=", "+=", "-=", "*=", "/=", "%=", "&=", "|=", "^=", "&^="]), of(kind)),
            lambda: "v_%s %s v_%s" % (kind, self.any_of(["<<=", ">>="]), self.any_of(WHOLE)),
            lambda: "if %s {\n\t}" % of(self.any_of(TRUTH)),
            lambda: "for %s {\n\t}" % of("bool"),
            lambda: self.switch(depth),
            lambda: "x, y := %s, %s\n\t_, _ = x, y" % (of(kind), of(self.any_of(TYPES), 1)),
            lambda: "v_%s, v_int = %s, %s" % (kind, of(kind), of("int", 1)),
        ])()

    def switch(self, depth):
        # one truth value may stand in several cases for Go, so constants of these types are no cases here
        kind = self.any_of(WHOLE + TEXT)
        return "switch %s {\n\tcase %s, %s:\n\tcase %s:\n\t}" % (self.of(kind, depth), *(self.of(kind, 1) for _ in range(3)))

    def program(self):
        variables = "".join("\tvar v_%s %s\n\t_ = v_%s\n" % (t, t, t) for t in TYPES)
        return HEAD + "func main() {\n" + variables + "\t" + self.statement() + "\n}\n"


class Around(NamedTuple):
    """What a statement stands in."""

    labels: list
    loop: bool = False
    leaves: bool = False


class Bodies:
    """The body of `func f(x bool, n int) int`."""

    DONE = ["n++", "println(n)", "n = n + 1", "_ = n", "x = !x", "f(x, n)", "y := n\n_ = y", "y := n\ny++", "var y int\ny++",
            "n := n\nn++", "var y, z = n, x\n_, _ = y, z", "x, y := x, n\nprintln(x, y)"]
    EMPTY = [";", ";;", "{}", "{ ; }", "const c = 1", "type t int", "var ()", "const ()", "type ()"]
    ODD = ["fallthrough", "break", "continue", "return", "y := n\ny = 4", "break A", "continue A"]

    def __init__(self, choose):
        self.choose = choose
        self.any_of = choose.choice

    def chance(self, part):
        return self.choose.random() < part

    def block(self, depth, around):
        return "{\n" + self.statements(depth, around) + "}"

    def statements(self, depth, around):
        return "".join(self.statement(depth, around) + "\n" for _ in range(self.any_of([0, 1, 1, 2, 2, 4])))

    def statement(self, depth, around):
        if self.chance(0.02):
            return self.any_of(self.ODD)
        if depth <= 0 or self.chance(0.45):
            return self.any_of(["return 1", "return n", self.branch(around), self.any_of(self.EMPTY), self.any_of(self.DONE)])
        form = self.any_of([self.nested, self.choice, self.choice, self.loop, self.loop, self.switch])
        if form not in (self.loop, self.switch) or self.chance(0.6):
            return form(depth - 1, around)
        label = self.any_of("ACDE")
        return label + ":\n" + form(depth - 1, around._replace(labels=around.labels + [label]))

    def branch(self, around):
        kinds = ["break"] * around.leaves + ["continue"] * around.loop
        if not kinds:
            return self.any_of(self.DONE)
        return " ".join([self.any_of(kinds)] + [self.any_of(around.labels) for _ in range(bool(around.labels) and self.chance(0.7))])

    def nested(self, depth, around):
        return self.block(depth, around)

    def choice(self, depth, around):
        head = self.any_of(["x", "n > 1", "true", "y := n; y > 1", "n := 4; n > 1"])
        text = "if %s %s" % (head, self.block(depth, around))
        for _ in range(self.any_of([0, 0, 1])):
            text += " else if x " + self.block(depth, around)
        return text + (" else " + self.block(depth, around) if self.chance(0.6) else "")

    def loop(self, depth, around):
        head = self.any_of(["", "", "", "x", "n < 4", "i := 0; i < n; i++", ";;", "; x;", "; ; n++", "i := 0; ; i++", "true"])
        return "for %s %s" % (head, self.block(depth, around._replace(loop=True, leaves=True)))

    def switch(self, depth, around):
        tag = self.any_of(["", "n", "y := n; y", "n := n;", "n + 1"])
        of_truth = tag == "" or tag.endswith(";")
        case = lambda i: self.any_of(["x", "!x", "n > 1", "n == 4, x"]) if of_truth else str(4 * i)
        heads = ["case " + case(i) for i in range(self.any_of([0, 1, 2]))]
        if self.chance(0.6):
            heads.insert(self.choose.randrange(len(heads) + 1), "default")
        clauses = [head + ":\n" + self.statements(depth, around._replace(leaves=True)) for head in heads]
        onward = [self.any_of(["fallthrough\n", "fallthrough; ;\n"]) if self.chance(0.2) else "" for _ in clauses[1:]] + [""]
        return "switch %s {\n%s}" % (tag, "".join(clause + last for clause, last in zip(clauses, onward)))

    def program(self):
        results = self.any_of(["int", "(r int)"])
        body = self.statements(self.any_of([2, 4]), Around([])) + self.any_of(["return 4\n", "", self.statement(2, Around([])) + "\n"])
        return "package main\n\nfunc f(x bool, n int) %s {\n%s}\n\nfunc main() {\n\tprintln(f(true, 1))\n}\n" % (results, body)


class Changes:
    """Programs that are right, changed."""

    RIGHT = ["""package main

const (
	a = iota
	b
	c, d = iota, iota * 4
	e, f
	_, _
	g, h
)

type T int
type U = T
type V U

const k T = 4

func first(x int, y, z string) (r int) {
	r = x
	if y == z {
		return
	}
	return len(y) + r
}

func both() (int, string) { return first(1, "", "a"), "b" }

func main() {
	n, s := both()
	println(n, s, a+b+c+d, e, f, g, h)
	var v V = V(k)
	v++
	if w := v; w > 4 {
		println(w)
	} else if w < 1 {
		println(int(w))
	} else {
		w--
	}
}
""", """package main

type A B
type B C
type C int32
type D = string

const x = y + 1
const y = z * 4
const z = len("abc")

func sum(a A, b B) C {
	type L int
	const m L = 6
	var q, r L = m, m + 1
	q, r = r, q
	q += r
	{
		q := 8
		q = 6
		_ = q
	}
	return C(a) + C(b) + C(q)
}

func longer(d D) (e D, ok bool) {
	more := d
	e, ok = more+"x", d != ""
	return e, ok
}

func name(n int) string {
	switch y := n + 1; y {
	case 0, 1:
		return "a"
	case 4:
		fallthrough
	case 6:
		return "b"
	default:
		return "c"
	}
}

func main() {
	var p, _ = longer("a")
	q, ok := longer(p)
	if _, t := longer(q); t && ok {
		println(q, sum(1, 4), x, y, z, name(4))
	}
outer:
	for i, j := 0, 10; i < j; i, j = i+1, j-1 {
		for {
			if i == 4 {
				continue outer
			}
			break outer
		}
	}
	var u uint8 = 1<<8 - 1
	var s = uint(4)
	u = u << s
	u >>= s
	println(u&^1, -u, ^u, string(q[0])+q[1:])
}
"""]
    WORD = re.compile(r"\n|[ \t]+|\"[^\"\n]*\"|'[^'\n]*'|[A-Za-z_]\w*|\d\w*|&\^=?|<<=?|>>=?|&&|\|\||[-+*/%&|^=!<>:]=|\+\+|--|.")
    NAMES = ["int", "string", "bool", "uint8", "int64", "rune", "true", "nil", "iota", "len", "println", "_", "x", "0", "1", "-1",
             "300", '"a"', "'b'", "main", "init", "1<<70", "1/0"]
    SIGNS = ["+", "-", "*", "/", "%", "&", "|", "^", "&^", "<<", ">>", "==", "!=", "<", "<=", "&&", "||", "=", ":=", "+=", "!", ","]
    LINES = ["x := 1", "var x int", "x = 4", "x++", "return", "return 1", 'return 1, "a"', "break", "continue", "fallthrough",
             "break outer", "_ = 1", "println(1)", "const x = 1", "const x = x", "type x int", "type x x", "var _ = 4", 'len("a")', "1",
             "main()", "{\n}", "for {\n}", "if true {\n}", "switch {\n}", "L: for {\nbreak L\n}", "var x, y = 1", "x, y := 1, 4",
             "_ := 1", "_ = nil", "int8(300)", "x, y = y, x", "var ()"]
    DECLARATIONS = ["const x = 1", "const x, y = 1", "const y = x", "type y x", "func x() {\n}", "func t() int {\n}", "func main() {\n}",
                    "func _() {\n}", "const _ = 1", "const init = 1", "func t(int, x string) {\n}", "func t(x, x int) {\n}",
                    "func t(_, _ int) (_ int) {\nreturn 1\n}", "const t int8 = 200", "func t(a int) {\na := 1\n_ = a\n}", "type t = t",
                    "func init(x int) {\n}", "type int int", "const true = false", "const x = 1 << -1", "const x uint = 1 << 32"]

    def __init__(self, choose):
        self.choose = choose
        self.any_of = choose.choice

    def program(self):
        text = self.any_of(self.RIGHT)
        for _ in range(self.any_of([1, 1, 1, 2, 2, 4])):
            text = self.any_of([self.word, self.sign, self.line, self.line, self.moved, self.declaration])(text)
        return text

    def replaced(self, text, which, others):
        words = self.WORD.findall(text)
        places = [i for i, word in enumerate(words) if which(word)]
        words[self.any_of(places)] = self.any_of(others + [words[self.any_of(places)]])
        return "".join(words)

    def word(self, text):
        return self.replaced(text, lambda w: re.match(r"[\w\"']", w) and w != "package", self.NAMES)

    def sign(self, text):
        return self.replaced(text, lambda w: w in self.SIGNS, self.SIGNS)

    def line(self, text):
        lines = text.split("\n")
        lines.insert(self.any_of([i for i, line in enumerate(lines) if line.startswith("\t")]), self.any_of(self.LINES))
        return "\n".join(lines)

    def moved(self, text):
        lines = text.split("\n")
        line = lines.pop(self.choose.randrange(1, len(lines)))
        if self.choose.random() < 0.6:
            lines.insert(self.choose.randrange(1, len(lines)), line)
        return "\n".join(lines)

    def declaration(self, text):
        return text + self.any_of(self.DECLARATIONS) + "\n"


def main():
    folder, seed, count = sys.argv[1], int(sys.argv[2]), int(sys.argv[3])
    choose = random.Random(seed)
    for kind, source in [("expressions", Expressions(choose)), ("bodies", Bodies(choose)), ("changes", Changes(choose))]:
        for number in range(count):
            place = os.path.join(folder, "%s-%d" % (kind, number))
            os.makedirs(place)
            with open(os.path.join(place, "main.go"), "w") as file:
                file.write(source.program())


main()
