"""Further statements of one special form each, for whole.py, over types of the package that KIT declares: what the
embedded packages answer for odd values, methods of all kinds of types, comparisons of what interfaces hold, panics
and recovers at depth, names that a script has a use for, and ends of programs."""

KIT = '''type Count int16

func (n Count) String() string { return "<" + strconv.Itoa(int(n)) + ">" }

type Fault struct {
	code int
	why  string
}

func (f *Fault) Error() string { return f.why + strconv.Itoa(f.code) }

type Layer struct {
	inner error
	n     int
}

func (l Layer) Error() string { return "layer " + l.inner.Error() }
func (l Layer) Unwrap() error { return l.inner }

type Alike int

func (a Alike) Error() string      { return "alike" }
func (a Alike) Is(other error) bool { b, ok := other.(Alike); return ok && a&3 == b&3 }

type Fn func(int) int

func (f Fn) twice(x int) int { return f(f(x)) }

type Bag map[string]int

func (b Bag) add(s string) Bag { b[s]++; return b }

type List []int

func (l *List) push(x int) *List { *l = append(*l, x); return l }
func (l List) sum() (s int) {
	for i, x := range l {
		s += x * (i + 1)
	}
	return
}

type Twicer interface{ twice(x int) int }

type Deep struct{ Pair }

type Pair struct {
	Twicer
	*List
	n int
	_ int
}

type Flag bool

func (f Flag) not() Flag { return !f }

type Text string

func (t Text) at(i int) byte { return t[uint(i)%uint(len(t))] }

type Grid [2][3]int8

func (g *Grid) put(i, j int, x int8) { g[uint(i)%2][uint(j)%3] = x }
func (g Grid) sum() (s int) {
	g[0][0]++
	for _, row := range g {
		for _, x := range row {
			s = s*3 + int(x)
		}
	}
	return
}

type Blank struct {
	a int8
	_ int
	b string
	_ string
}

type Chain struct {
	next *Chain
	any  interface{}
}

func risky(what func()) (told string) {
	defer func() {
		switch r := recover().(type) {
		case nil:
			told = "none"
		case runtime.Error:
			told = "runtime"
		case error:
			told = "error " + r.Error()
		case string:
			told = "string " + r
		case fmt.Stringer:
			told = "stringer " + r.String()
		case int:
			told = "int " + strconv.Itoa(r)
		default:
			told = "other"
		}
	}()
	what()
	return "whole"
}

func even(n int) bool {
	if n == 0 {
		return true
	}
	return odd(n - 1)
}

func odd(n int) bool { return n != 0 && even(n-1) }
'''
KIT_NAMES = ['Count', 'Fault', 'Layer', 'Alike', 'Fn', 'Bag', 'List', 'Twicer', 'Deep', 'Pair', 'Flag', 'Text', 'Grid', 'Blank', 'Chain', 'risky', 'even', 'odd']

TEXTS = ['', ' ', '\\t a\\u00a0b\\u2003c\\u0085 ', '\\xed\\xa0\\x80x', '\\xc0\\x80', '\\xf4\\x90\\x80\\x80', '\\U0001F600!', '\\xe6\\x97', '__proto__', 'constructor',
         'toString', '\\u2028', '\\x00', '\\r\\n', 'aXbXc', 'aaaa', 'a', 'aa', '\\u3000\\ufeff', '%d', '\\\\', "'", '\\"', '\\xff', '\\ufffd', '0', '-1']
NUMBERS = ['', '+5', '-', '0x1f', '1_000', '-9223372036854775808', '9223372036854775808', '128', '-129', 'zz', '0b101', '0o17', '08', '_1', '1__0', 'ZZ', '12345678901234567890123',
           '-0', ' 1', '2147483648', '0x_1', '0X7F', '4294967296', '1e3', '+', '0', '00', '-2147483649', '0x', '0_7', '127', '-128', '7f', '-8000000000000000', 'true', 'T', 'f', 'False', '1']
RESERVED = ['function', 'this', 'class', 'let', 'typeof', 'void', 'with', 'yield', 'await', 'arguments', 'eval', 'constructor', 'prototype', '__proto__', 'hasOwnProperty', 'toString', 'valueOf',
            'undefined', 'NaN', 'Infinity', 'delete', 'new', 'in', 'instanceof', 'try', 'throw', 'null', 'process', 'require', 'module', 'Math', 'String', 'Object', 'super', 'enum', 'while', 'do', 'export',
            'cap', 'false', 'byte', 'append', 'error', 'iota', 'make', 'copy', 'panic', 'recover', 'print', 'new1', 'x', 'main', 'init', 'é', '世界', '_a', 'ſ']


class More:
    def more_forms(self):
        kinds = [self.formats, self.formats, self.parsed, self.odd_texts, self.faults, self.methods_of, self.promoted, self.mixed, self.risked, self.constants, self.named_oddly, self.builtins_deferred, self.blanks,
                 self.map_parts, self.to_text, self.divided, self.deep, self.told, self.shifted, self.string_parts, self.kept_places, self.literals]
        if self.marked:
            kinds += [self.collected, self.once, self.served, self.thrown, self.yielded, self.closed] * 2
        return kinds

    def use_kit(self):
        self.kit = True
        self.imports |= {'strings', 'strconv', 'fmt', 'runtime', 'errors'}

    def within(self, lines):
        return ['func() {'] + ['\t' + line for line in lines] + ['}()']

    def odd_text(self):
        return '"' + ''.join(self.r.choice(TEXTS) for _ in range(self.r.choice([1, 1, 2, 3]))) + '"'

    # fmt: each verb, flag and width, with values that it takes
    def formats(self, env):
        self.use_kit()
        verbs, values = '', []
        for _ in range(self.r.randint(1, 5)):
            flags = self.r.choice(['', '', '-', '0', '-0', '0-'])
            width = self.r.choice(['', '1', '3', '8', '12', '25'])
            verb = self.r.choice('vdsxctvdsx')
            i = self.expr(self.r.choice(self.ints()), env, 2)
            s = self.r.choice([self.odd_text(), self.expr('string', env, 1)])
            n = f'Count({i})'
            ints = f'[]int{{{", ".join(self.expr("int", env, 1) for _ in range(self.r.randint(0, 3)))}}}'
            texts = f'[]string{{{", ".join(self.odd_text() for _ in range(self.r.randint(0, 3)))}}}'
            fault = f'&Fault{{{self.expr("int", env, 1)}, {s}}}'
            b = self.condition(env, 1)
            fits = {'v': [i, s, n, ints, texts, fault, b, f'Layer{{{fault}, 1}}', 'error(nil)', f'errors.New({s})', f'interface{{}}({i})', 'interface{}(nil)', f'Text({s})', f'Flag({b})', "'x'"],
                    'd': [i, i, n, ints, f'interface{{}}({i})'], 's': [s, s, n, texts, fault, f'errors.New({s})', f'Text({s})'], 'x': [i, i, s, s, n, ints, texts, fault],
                    'c': [i, i, n, "'\\u00e9'", '0x10ffff', '-1', '0xd800', '0x110000', 'uint64(1)<<40'], 't': [b, b, f'Flag({b})']}
            verbs += self.r.choice(['', ' ', '|', '%%', 'é']) + '%' + flags + width + verb
            values.append(self.r.choice(fits[verb]))
        out = [f'println(fmt.Sprintf("{verbs}|", {", ".join(values)}))']
        if self.r.random() < .3:
            out.append(f'println(fmt.{self.r.choice(["Sprint", "Sprintln"])}({", ".join(values)}))')
        if self.r.random() < .2:
            out.append(f'println(fmt.Errorf("{verbs}|", {", ".join(values)}).Error())')
        return out

    # strconv, both ways
    def parsed(self, env):
        self.use_kit()
        x = self.fresh()
        s = f'"{self.r.choice(NUMBERS)}"'
        way = self.r.randrange(5)
        told = f'if {x}e != nil {{ println({x}e.Error()) }}'
        if way == 0:
            return [f'{x}, {x}e := strconv.Atoi({s})', f'println({x}, {x}e == nil)', told]
        if way == 1:
            return [f'{x}, {x}e := strconv.ParseBool({s})', f'println({x}, {x}e == nil)', told]
        if way == 2:
            i = self.expr(self.r.choice(['int64', 'int64', 'int']), env, 2)
            base = self.r.randint(2, 36)
            return [f'{x} := strconv.FormatInt(int64({i}), {base})', f'{x}i, {x}e := strconv.ParseInt({x}, {base}, {self.r.choice([0, 8, 16, 32, 64, 64])})', f'println({x}, {x}i, {x}e == nil)', told]
        return [f'{x}, {x}e := strconv.ParseInt({s}, {self.r.choice([0, 0, 2, 8, 10, 10, 16, 36, 7])}, {self.r.choice([0, 8, 16, 32, 64, 64, 1, 40])})', f'println({x}, {x}e == nil)', told]

    def odd_texts(self, env):
        self.use_kit()
        s, t = self.r.choice([self.odd_text(), self.expr('string', env, 1)]), self.odd_text()
        x = self.fresh()
        return self.r.choice([
            [f'println(strings.Contains({s}, {t}), strings.HasPrefix({s}, {t}), strings.HasSuffix({s}, {t}), strings.Index({s}, {t}), strings.Index({s}+{t}+{s}, {t}))'],
            [f'for _, {x} := range strings.Split({s}, {t}) {{ println({x}, len({x})) }}', f'println(len(strings.Split({s}+{t}, "")), strings.Join(strings.Split({s}, {t}), {t}) == {s})'],
            [f'println(len(strings.Fields({s}+{t})), strings.Join(strings.Fields({t}+" "+{s}), "/"), strings.TrimSpace({t}), len(strings.TrimSpace({s})))'],
            [f'println(risky(func() {{ println(strings.Repeat({t}, {self.expr("int", env, 1)}%5)) }}))'],
            [f'var {x} strings.Builder', f'for {x}i, {x}r := range {s}+{t} {{ {x}.WriteString(string({x}r)); {x}.WriteByte(byte({x}i)) }}', f'{x}n, {x}e := {x}.WriteString({t})',
             f'println({x}.Len(), {x}.String(), {x}n, {x}e == nil, {x}.WriteByte(7) == nil, (&{x}).Len())'],
        ])

    # errors: layers, equality, and the methods that decide it
    def faults(self, env):
        self.use_kit()
        e, f = self.fresh(), self.fresh()
        i = lambda: self.expr('int', env, 1)
        base = self.r.choice([f'errors.New("a")', f'&Fault{{{i()}, "f"}}', f'Alike({i()})', f'fmt.Errorf("%d", {i()})'])
        return [f'var {e} error = {base}', f'var {f} error = Layer{{{e}, {i()}}}', f'if {self.flat(env, 1)} {{ {f} = Layer{{{f}, 2}} }}',
                f'println({f}.Error(), errors.Is({f}, {e}), errors.Is({e}, {f}), errors.Is(nil, {e}), errors.Is({f}, nil), errors.Is({f}, Alike({i()})), errors.Unwrap({f}) == {e}, errors.Unwrap({e}) == nil, errors.Unwrap(nil) == nil)',
                f'_, {e}k := {f}.(Layer)', f'{e}l, {e}m := {e}.(*Fault)', f'println({e}k, {e}m, {e}l == nil, {e} == {f}, {f} == {f}, fmt.Sprint({e}, {f}), errors.New("a") == errors.New("a"))']

    # methods of types that are no structs, and their values
    def methods_of(self, env):
        self.use_kit()
        x, y = self.fresh('k'), self.fresh('k')
        i = lambda: self.expr('int', env, 1)
        s = self.expr('string', env, 1)
        way = self.r.randrange(5)
        if way == 0:
            return [f'{x} := Fn(func(a int) int {{ return a*{self.r.randint(2, 9)} + {i()} }})', f'{y} := {x}.twice', f'{x} = Fn({x}.twice).twice', f'println({x}(1), {y}({i()}), {x}.twice(2), Twicer({x}).twice(3), Fn(Twicer({x}).twice)(4))']
        if way == 1:
            return [f'{x} := Bag{{}}', f'{y} := {x}.add', f'println(len({x}.add({s}).add("a").add({s})))', f'println({x}[{s}], len({x}))', f'println(len({y}("b")))', f'println({x}["b"])', f'{x} = nil', f'println(len({x}), {x}["a"], risky(func() {{ {x}.add("c") }}), len({y}("d")))']
        if way == 2:
            return [f'var {x} List', f'{y} := {x}.push', f'{y}({i()}).push({i()})', f'{x}.push(3)', f'{y}s := {x}.sum', f'{x}[0] = 7', f'println({x}.sum(), len({x}), {y}s())', f'println({y}({i()}).sum(), List([]int{{1, 2}}).sum())', f'println((*{y}(1))[0])', f'println(len({x}))']
        if way == 3:
            return [f'{x} := Text({s} + "q")', f'println({x}.at({i()}), {x} + Text("z"), {x} < "m", string({x}[1:]), len([]byte({x})), Flag({self.condition(env, 1)}).not(), Flag(true).not().not() == ({x} != ""))', f'for {y}, {y}r := range {x} {{ println({y}, {y}r) }}',
                    f'switch {x} {{', 'case "q":', '\tprintln("q")', 'case "aq", "abq":', '\tprintln("aq")', '}']
        return [f'var {x} Grid', f'{x}.put({i()}, {i()}, {self.expr("int8", env, 1)})', f'{y} := {x}', f'{y}s := {y}.sum', f'({x}).put(1, {i()}, {self.expr("int8", env, 1)})', f'(&{y}).put(0, 1, 5)', f'{y}p := {y}.put', f'{y}p(1, 2, -3)',
                f'println({x}.sum(), {y}.sum(), {y}s(), {x} == {y}, len({x}[0]), {x}[1] == {y}[1], (&{x}).sum())']

    # promotion over two levels, through an interface and a pointer
    def promoted(self, env):
        self.use_kit()
        x, y = self.fresh('k'), self.fresh('k')
        i = lambda: self.expr('int', env, 1)
        return [f'{x} := Deep{{Pair{{Twicer: Fn(func(a int) int {{ return a + {i()} }}), List: &List{{{i()}, 2}}, n: {i()}}}}}', f'{y} := {x}', f'{y}.push({i()}).push(9)', f'{y}.n++', f'{y}.Twicer = {x}', f'{x}.Pair.List = &List{{}}',
                f'println({x}.sum(), {y}.sum(), {x}.n, {y}.n, {x}.twice(1), {y}.twice(2), {y}.Pair.Twicer.twice(3), len(*{y}.List), (*{y}.Pair.List)[0])', f'{x}f, {y}f := {x}.push, {y}.twice', f'{x}.List, {y}.Twicer = nil, nil', f'println({x}f(4).sum(), {y}f(5))',
                f'println(risky(func() {{ println({x}.sum()) }}), risky(func() {{ println({y}.twice(1)) }}))']

    # what interfaces hold is compared
    def mixed(self, env):
        self.use_kit()
        i = lambda: self.expr('int', env, 1)
        x, y = self.fresh(), self.fresh('i')
        held = [i(), self.expr('int8', env, 1), self.expr('int64', env, 1), f'uint64({i()})', self.expr('string', env, 1), self.condition(env, 1), f'Count({i()}&3)', f'Alike({i()}&3)', f'Text("a")', 'nil', '&struct{ a int }{1}', f'[2]int{{{i()}, 1}}',
                f'[1]interface{{}}{{{i()}&1}}', f'Blank{{a: {self.expr("int8", env, 1)}&1, b: "b"}}', f'Chain{{nil, {i()}&1}}', 'Chain{}', f'struct{{ a int }}{{{i()}&1}}', '[]int{1}', 'Fn(nil)', 'Bag(nil)', 'Chain{nil, []int{}}', '[0]int{}', 'struct{}{}',
                'error(nil)', 'errors.New("x")', '(*Fault)(nil)', '(*int)(nil)', '1<<3', "'a'", 'byte(97)', 'S0{}', '&S0{}']
        some = self.r.sample(held, 6)
        return [f'{x} := []interface{{}}{{{", ".join(some)}, {self.r.choice(some)}}}', f'{x} = append({x}, {x}[{self.r.randint(0, 5)}])', f'for {y}, {y}a := range {x} {{', f'\tfor {y}n, {y}b := range {x} {{', f'\t\tprintln({y}, {y}n, risky(func() {{ println({y}a == {y}b, {y}a != {y}b) }}))', '\t}',
                f'\tswitch {y}a.(type) {{', '\tcase int, int8, byte:', '\t\tprintln("small")', '\tcase error:', '\t\tprintln("error")', '\tcase fmt.Stringer, nil:', '\t\tprintln("stringer")', '\tcase rune, *Fault, Chain:', '\t\tprintln("rune")', '\tdefault:', f'\t\tprintln({y}a != nil)', '\t}', '}']

    # panics, recovers and deferred calls at depth
    def risked(self, env):
        self.use_kit()
        i = lambda: self.expr('int', env, 1)
        x = self.fresh()
        value = lambda: self.r.choice(['"one"', i(), f'Count({i()})', f'&Fault{{{i()}, "f"}}', 'errors.New("e")', 'struct{}{}', f'Layer{{errors.New("in"), 1}}'])
        depth = self.r.randint(0, 4)
        def act(d):
            k = self.r.randrange(9)
            if d == 0 or k == 0:
                return self.r.choice([f'panic({value()})', 'println("calm")', f'var q []int; println(q[c_int({self.r.randint(0, 3)})])', f'println({i()} / c_int(0))', 'var q *Fault; println(q.code)'])
            if k == 1:
                return f'defer func() {{ println("late"); {act(d - 1)} }}(); {act(d - 1)}'
            if k == 2:
                return f'defer func() {{ println("held", recover() != nil); {act(d - 1)} }}(); {act(d - 1)}'
            if k == 3:
                return f'defer func() {{ func() {{ println("too deep", recover() == nil) }}() }}(); {act(d - 1)}'
            if k == 4:
                return f'println(risky(func() {{ {act(d - 1)} }})); {act(d - 1)}'
            if k == 5:
                return f'for i := 0; i < 3; i++ {{ defer func(n int) {{ println(n, i); if n == 1 {{ {act(d - 1)} }} }}(i) }}; {act(d - 1)}'
            if k == 6:
                return f'defer func() {{ if r := recover(); r != nil {{ defer func() {{ println("again") }}(); panic(r) }} }}(); {act(d - 1)}'
            if k == 7:
                return f'func() {{ defer println("inner"); {act(d - 1)} }}(); {act(d - 1)}'
            return f'if {self.flat(env, 1)} {{ defer func() {{ {act(d - 1)} }}(); return }}; {act(d - 1)}'
        return [f'{x} := func() (a int, b string) {{', f'\tdefer func() {{ b += "!"; a++ }}()', f'\tb = risky(func() {{ {act(depth)} }})', f'\treturn {i()}, b + risky(func() {{ {act(depth)} }})', '}', f'{x}a, {x}b := {x}()', f'println({x}a, {x}b)']

    # panics of the runtime whose texts are Go's
    def told(self, env):
        self.use_kit()
        n = self.r.choice(['c_int(0)', 'c_int(7)', f'-1-({self.expr("int", env, 1)}&7)'])
        act = self.r.choice(['println(1 / c_int(0))', 'println(1 % c_int64(0))', 'println(uint8(1) / c_uint8(0))', 'println(1 % c_uint64(0))', f'q := make([]int, c_int(2)); println(q[1+{n}])', f'println("abc"[2+{n}])', f'q := [3]int{{}}; q[3+{n}]++', 'var q map[string]int; q["a"]++',
                             'var q map[int]Blank; q[1] = Blank{}', 'q := make(chan int); close(q); close(q)', 'var q chan int; close(q)', 'q := make(chan int, 1); close(q); q <- 1', 'var q *Chain; println(q.next.next == nil)', 'var q *Grid; q[0][0] = 1', 'var q func(); q()', 'var q error; println(q.Error())', 'var q *List; println(q.sum())'])
        return ['func() {', '\tdefer func() {', '\t\tr := recover()', '\t\te, ok := r.(error)', '\t\tprintln(ok)', '\t\tif ok { println(e.Error()) }', '\t\t_, ok = r.(runtime.Error)', '\t\tprintln(ok)', '\t}()', f'\t{act}', '\tprintln("on")', '}()']

    # constants without types, up to 127 bits, and with
    def constants(self, env):
        def untyped(d):
            k = self.r.randrange(10)
            if d == 0 or k == 0:
                return str(self.r.choice([0, 1, 2, 3, 7, 10, 255, 256, 2 ** 16, 2 ** 31, 2 ** 32 - 1])) if self.r.random() < .7 else self.r.choice(["'a'", "'\\xff'", "'\\u65e5'", '0x7f', '0b11', '0o17', '1_000'])
            a, b = untyped(d - 1), untyped(d - 1)
            if k < 6:
                return f'({a} {self.r.choice(["+", "-", "*", "&", "|", "^", "&^"])} {b})'
            if k < 8:
                return f'({a} {self.r.choice(["/", "%"])} {self.r.choice([1, 2, 3, 7, 10, 255])})'
            if k < 9:
                return f'({a} {self.r.choice(["<<", ">>", ">>"])} {self.r.randint(0, 9)})'
            return f'{self.r.choice(["-", "^", "+"])}({a})'
        k = self.fresh('K')
        a, b, c = untyped(3), untyped(3), untyped(2)
        t = self.r.choice(['uint8', 'int8', 'uint16', 'int16', 'int32', 'uint32', 'int64', 'uint64'])
        bits = int(t.strip('uint') or 32)
        return self.within([f'const {k}, {k}b = {a}, {b}', f'const ({k}c {t} = ({c}) & {2 ** (bits - 1) - 1}; {k}d; {k}e = {k} > {k}b; {k}s = "x" + "y"; {k}f)',
                            f'println({k} & 0x7fffffff, {k}b >> 3 & 0xffff, ({k}*{k}b) >> 40 & 255, {k}c, {k}d, {k}e, {k}s, {k}f < "z", len({k}s), {k} == {k}b, {k} < {k}b || {k}e)', f'var {k}v {t} = {k} & 127', f'println({k}v+{k}c, {k}v << uint({k} & 3), int64(1) << uint({k} & 7), {k}v == {k}&127, -({k}v), uint64({k}&0xffffffffffff))',
                            f'const ({k}g = iota << 3; {k}h; _; {k}i, {k}j = iota, -iota; {k}k, {k}l)', f'println({k}h, {k}i, {k}j, {k}k, {k}l)'])

    # names that a script has a use for, or that Go declares itself
    def named_oddly(self, env):
        a, b, c, d = self.r.sample(RESERVED, 4)
        i = lambda: self.quietly('int', [], 1)
        return ['func() {', f'\t{a} := {i()}', f'\tvar {b} = struct{{ {a}, {c} int; {d} []int }}{{{a}: {a}, {c}: 5}}', f'\t{c} := func({d} int) int {{ {a} += {d}; return {b}.{c} + {a} }}', f'\ttype {d} struct {{ {a} int; {b} *{d} }}',
                f'\t{a}1, {a}2 := {c}(3), {b}.{a}', f'\tprintln({a}, {a}1, {a}2, {b}.{d} == nil == ({a} == {a}))',
                f'\tvar {a}3 = &{d}{{{a}: 4}}', f'\t{a}3.{b} = {a}3', f'\tprintln({a}3.{b}.{b}.{a})', f'\tmap1 := map[string]int{{"{a}": 1, "__proto__": 2, "{c}": 3}}', f'\tmap1["{b}"]++', f'\tprintln(map1["{a}"], map1["__proto__"], map1["{b}"], map1["{d}"], map1["toString"])',
                f'\t{{ {b} := {b}.{c}; {a} := &{b}; *{a} += 2; println({b}, *{a}) }}', '}()']

    # deferred calls of builtins, methods and values
    def builtins_deferred(self, env):
        self.use_kit()
        x = self.fresh('k')
        i = lambda: self.expr('int', env, 1)
        return ['func() {', f'\t{x} := map[string]int{{"a": 1, "b": {i()}}}', f'\t{x}l := List{{1}}', f'\t{x}c := make(chan int, 3)', f'\t{x}s := []int{{1, 2, 3}}', f'\tdefer func() {{ println(len({x}), {x}l.sum(), {x}s[0]); for e := range {x}c {{ println(e) }} }}()', f'\tdefer close({x}c)', f'\tdefer delete({x}, "a")',
                f'\tdefer copy({x}s, {x}s[1:])', f'\tdefer {x}l.push({i()})', f'\tdefer println({x}l.sum(), {x}["a"])', f'\tdefer Fn(func(a int) int {{ {x}c <- a; return a }}).twice({i()})', f'\t{x}l = append({x}l, 5)', f'\t{x}f := func(a ...int) {{ println(len(a), a == nil) }}', f'\tdefer {x}f({x}s...)', f'\tdefer {x}f()',
                f'\t{x}f = nil', f'\tdefer func() {{ println(recover() != nil) }}()', f'\tif {self.flat(env, 1)} {{ defer {x}f(1) }}', '\tdefer panic("told")' if self.r.random() < .3 else '\tprintln("body")', '}()']

    # blank fields, structs and arrays without parts
    def blanks(self, env):
        self.use_kit()
        x, y = self.fresh('k'), self.fresh('k')
        e = lambda: self.expr('int8', env, 1)
        return [f'{x}, {y} := Blank{{a: {e()}, b: "x"}}, Blank{{b: "x"}}', f'println({x} == {y}, interface{{}}({x}) == interface{{}}({y}))', f'{y}.a = {x}.a', f'println({x} == {y}, interface{{}}({x}) != interface{{}}({y}))',
                f'var {x}e, {y}e struct{{}}', f'var {x}z [0]int', f'{x}m := map[struct{{}}]int{{{x}e: 1}}', f'{x}m[{y}e]++', f'println({x}e == {y}e, len({x}z), {x}z == [0]int{{}}, {x}m[struct{{}}{{}}], len([2]struct{{}}{{}}), len({x}z[:]))', f'for range [3]struct{{}}{{}} {{ println("s") }}',
                f'{x}b := map[[2]struct{{ a, b int8 }}]string{{{{{{1, {e()}}}, {{}}}}: "k"}}', f'{x}b[[2]struct{{ a, b int8 }}{{}}] += "l"', f'println(len({x}b), {x}b[[2]struct{{ a, b int8 }}{{}}])', f'_, _ = {x}e, {y}e']

    # maps of maps and of slices
    def map_parts(self, env):
        x, y = self.fresh(), self.fresh('k')
        t = self.r.choice(self.ints())
        key = self.r.choice(['string', 'int64', 'uint8', 'bool'])
        k = lambda: self.expr(key, env, 2)
        e = lambda: self.expr(t, env, 2)
        out = [f'{x} := map[{key}]map[{key}]{t}{{}}', f'println({x}[{k()}][{k()}], len({x}[{k()}]))', f'{y}, {y}b := {k()}, {k()}', f'if {x}[{y}] == nil {{ {x}[{y}] = map[{key}]{t}{{{y}: {e()}}} }}', f'{x}[{y}][{y}b] += {e()}', f'{x}[{y}][{y}b]++', f'println({x}[{y}][{y}b], len({x}[{y}]), len({x}))',
               f'{y}s := map[{key}][]{t}{{}}', f'for i := 0; i < 4; i++ {{ {y}s[{y}] = append({y}s[{y}], {e()}); if i == 1 {{ {y} = {y}b }} }}', f'println(len({y}s[{y}]), len({y}s), {y}s[{y}][0], cap({y}s[{k()}]) >= 0)', f'{y}s[{y}][0]--', f'println({y}s[{y}][0])',
               f'{y}a := map[{key}][2]{t}{{{y}: {{1}}}}', f'println({y}a[{y}][0], {y}a[{y}b][1], len({y}a[{y}]))', f'{y}n, {y}o := 0, map[{key}]int(nil)', f'for range {y}o {{ {y}n++ }}', f'delete({y}o, {y})', f'for {y}c, {y}v := range {y}s {{ {y}n += len({y}v); delete({y}s, {y}c) }}', f'println({y}n, len({y}s), len({y}o), {y}o[{y}])']
        return out

    # numbers and bytes as text
    def to_text(self, env):
        self.use_kit()
        t = self.r.choice(self.ints())
        x = self.fresh()
        v = self.r.choice([self.expr(t, env, 2), f'{t}(c_uint8({self.r.randint(0, 255)}))'])
        return [f'var {x} {t} = {v}', f'println(string(rune({x})), len(string(rune({x}))), string(rune({x}>>{self.r.randint(0, 7)})), fmt.Sprintf("%c", {x}))',
                f'{x}b := []byte({self.odd_text()})', f'{x}r := []rune(string({x}b))', f'println(len({x}b), len({x}r), string({x}r) == string({x}b), string({x}r), string([]rune{{{self.expr("int32", env, 1)}, 0xd800, 0x10ffff, 65}}), string([]byte{{{self.expr("uint8", env, 1)}, 66}}), string([]byte(nil)) == "")',
                f'for {x}i, {x}c := range string({x}b) {{ println({x}i, {x}c, string({x}b)[{x}i]) }}', f'for {x}i := range {self.odd_text()} {{ println({x}i) }}', f'println({x}b == nil, string({x}b) < {self.odd_text()}, string({x}b)+"a" > string({x}r), len(append([]byte{{}}, string({x}r)...)))']

    # quotients and remainders of 64 bits near powers of two
    def divided(self, env):
        t = self.r.choice(['int64', 'uint64'])
        x, y = self.fresh(), self.fresh()
        def some():
            v = (1 << self.r.randint(0, 64)) + self.r.randint(-2, 2)
            if self.r.random() < .5:
                v += 1 << self.r.randint(0, 63)
            v = v * self.r.choice([1, 1, -1])
            lo, hi = self.bounds(t)
            v &= 2 ** 64 - 1
            return v - 2 ** 64 if v > hi else v
        a, b, c = some(), some() or 3, some() or 5
        return [f'var {x}, {y} {t} = c_{t}({a}), c_{t}({b})', f'println({x}/{y}, {x}%{y}, {x}*{y}, {x}+{y}, {x}-{y}, {x}/({c}), {x}%({c}), {x}*({c}), {x} < {y}, {x} == {a})', f'println(int32({x}), uint32({x}), uint8({y}), int16({y}), int({x}), uint({y}), int64({x}), uint64({y}))',
                f'println({x} & {y}, {x} | {y}, {x} ^ {y}, {x} &^ {y}, -{x}, ^{y}, {x}<<({y}&63), {x}>>(uint({y})&63), {x}<<1, {y}>>1, {x}<<32, {y}>>32, {x}>>33, {y}<<31)', f'{x} /= {y}', f'{y} %= {x} | 1', f'{x}++', f'{y}--', f'println({x}, {y}, {x}%10, {y}/1000000007)']

    # functions that need each other, deep
    def deep(self, env):
        self.use_kit()
        n = self.r.choice([0, 1, 10, 999, 1000])
        x = self.fresh('rec')
        return [f'println(even({n}), odd({n}))', f'var {x} func(n int, s []int) int', f'{x} = func(n int, s []int) int {{', '\tif n == 0 { return len(s) + cap(s[:0:len(s)]) }', f'\tif n == {n // 2 + 1} {{ defer func() {{ println("half", len(s)) }}() }}', f'\treturn {x}(n-1, append(s, n)) + n&1', '}', f'println({x}({n}, nil))',
                f'{x}c := (*Chain)(nil)', f'for i := 0; i < {n}; i++ {{ {x}c = &Chain{{{x}c, i}} }}', f'{x}n := 0', f'for c := {x}c; c != nil; c = c.next {{ {x}n += c.any.(int) & 3 }}', f'println({x}n)']

    # shifts by counts of each type, past the width and negative
    def shifted(self, env):
        self.use_kit()
        t, u = self.r.choice(self.ints()), self.r.choice(self.ints())
        lo, hi = self.bounds(u)
        x, y = self.fresh(), self.fresh()
        n = self.r.choice([0, 1, 7, 8, 15, 16, 31, 32, 33, 63, 64, 65, 127, hi, lo])
        return [f'var {x} {t} = {self.expr(t, env, 2)}', f'var {y} {u} = c_{u}({max(lo, min(hi, n))})', f'println(risky(func() {{ println({x}<<{y}, {x}>>{y}, {t}(1)<<{y}, ^{t}(0)>>{y}) }}))', f'println(risky(func() {{ {x} <<= {y} & 7; {x} >>= {y}; println({x}) }}))',
                f'println(risky(func() {{ var z {t} = 1 << {y}; println(z, z == 1<<{y}, {x} > 1<<{y}) }}))', f'println(risky(func() {{ println({x}<<({self.expr(u, env, 1)}), 1<<({y}&3)+{x}) }}))', f'println({x}<<8, {x}>>8, {x}<<31, {x}>>31, {x}<<64, {x}>>64, {x}<<0)']

    # slices of strings by each bound, and their ends
    def string_parts(self, env):
        self.use_kit()
        x, i, j = self.fresh(), self.fresh('i'), self.fresh('i')
        return [f'{x} := {self.odd_text()} + "abcdef"', f'{i}, {j} := {self.expr("int", env, 1)}%9, {self.expr("int8", env, 1)}%9', f'println(risky(func() {{ println({x}[{i}:{j}]) }}), risky(func() {{ println({x}[{j}:]) }}), risky(func() {{ println({x}[:{i}]) }}), risky(func() {{ println({x}[{j}]) }}))',
                f'{x}s := make([]byte, len({x}))', f'copy({x}s, {x})', f'println(risky(func() {{ println(string({x}s[{i}:{j}])) }}), risky(func() {{ println(len({x}s[{j}:]), cap({x}s[1:2:3])) }}), risky(func() {{ println(len({x}s[:{j}:{i}])) }}), risky(func() {{ println(cap({x}s[{i}:{j}:len({x}s)]) > 0) }}), risky(func() {{ {x}s[{i}] = {x}s[{j}]; println(string({x}s)) }}))',
                f'println({x}[:0] == "", {x}[len({x}):] == "", {x}[1:][0] == {x}[1], len({x}[1:len({x})-1]))']

    # places that are found before a call changes what they stood on
    def kept_places(self, env):
        self.use_kit()
        x = self.fresh()
        i = lambda: self.expr('int', env, 1)
        return ['func() {', f'\t{x} := []int{{{i()}, 2, 3}}', f'\t{x}p := &{x}[1]', f'\t{x} = append({x}, 4)', f'\t*{x}p = 9', f'\tprintln({x}[1])', f'\t{x}c := &Chain{{any: {i()}}}', f'\t{x}n := &{x}c.next', f'\t*{x}n = &Chain{{any: "s"}}', f'\t{x}c.next.next, {x}c = {x}c, {x}c.next', f'\tprintln({x}c.any.(string), {x}c.next.next == {x}c, *{x}n == {x}c)',
                f'\t{x}g := Grid{{{{1}}, {{2}}}}', f'\t{x}r := &{x}g[1]', f'\t{x}s := {x}g[0][:]', f'\t{x}g = Grid{{{{3, 4}}, {{5}}}}', f'\t{x}r[2], {x}s[2] = {x}s[1], {x}r[0]', f'\tprintln({x}g.sum(), {x}r[2], len({x}s), {x}s[2])', f'\t{x}f := struct{{ a [2]struct{{ b int }}; c *int }}{{}}', f'\t{x}f.c = &{x}f.a[1].b', f'\t{x}h := {x}f', f'\t*{x}h.c = {i()}', f'\tprintln({x}f.a[1].b, {x}h.a[1].b, {x}f.c == {x}h.c, &{x}f.a[1].b == {x}f.c, &{x}h.a[1].b == {x}h.c)',
                f'\t{x}m := map[string]*List{{"a": {{1}}}}', f'\t{x}m["a"].push({i()})', f'\t(*{x}m["a"])[0] = 5', f'\t{x}q, ok := {x}m["b"]', f'\tprintln({x}m["a"].sum(), {x}q == nil, ok, risky(func() {{ {x}m["b"].push(1) }}))', '}()']

    # composite literals of all shapes
    def literals(self, env):
        self.use_kit()
        x = self.fresh()
        i = lambda: self.expr('int', env, 1)
        return self.within([f'{x} := [...]string{{2: "c", "d", 0: {self.expr("string", env, 1)}}}', f'println(len({x}), {x}[0], {x}[1] == "", {x}[3])', f'{x}s := []*Blank{{{{a: 1}}, {{b: "x"}}, nil}}', f'println({x}s[0].a, {x}s[1].b, {x}s[2] == nil, len({x}s))', f'{x}m := map[[2]int8][]Grid{{{{1, 2}}: {{{{{{3}}}}, {{1: {{4}}}}}}, {{}}: nil}}',
                            f'println(len({x}m), {x}m[[2]int8{{1, 2}}][1][1][0], len({x}m[[2]int8{{}}]))', f'{x}p := &[]int{{{i()}, 5: {i()}, 6}}', f'println(len(*{x}p), (*{x}p)[5], (*{x}p)[4])', f'{x}k := map[string]struct{{ f func(int) int; e []interface{{}} }}{{"a": {{func(a int) int {{ return a + {i()} }}, []interface{{}}{{1, "b", nil, Chain{{}}}}}}}}',
                            f'println({x}k["a"].f(1), len({x}k["a"].e), {x}k["a"].e[1] == "b", {x}k["b"].f == nil)', f"const {x}i = 1", f"{x}a := [...]int{{{x}i + 1: 5, 'b' - 'a': {i()}}}", f'println(len({x}a), {x}a[2], {x}a[1])', f'var {x}d = [2]*[2]Chain{{{{{{nil, 1}}, {{}}}}, nil}}', f'println({x}d[0][0].any == 1, {x}d[1] == nil, len({x}d[1]))'])

    # ---- goroutines and channels

    # a select with several ready cases, whose sum is the same in any order
    def collected(self, env):
        x, n = self.fresh('c'), self.r.randint(1, 5)
        t = self.r.choice(self.ints())
        size = self.r.choice([0, 1, 2, 8])
        lab = self.fresh('L')
        return [f'{x}, {x}b, {x}d := make(chan {t}, {size}), make(chan {t}, {self.r.choice([0, 3])}), make(chan bool)', 'go func() {', f'\tfor i := {t}(0); i < {n}; i++ {{ {x} <- i*3 + {self.quietly(t, env, 1)} }}', f'\t{x}d <- true', '}()', f'go func() {{ for i := {t}(0); i < {n}; i++ {{ select {{ case {x}b <- i: case {x} <- i: }} }}; {x}d <- false }}()',
                f'var {x}s {t}', f'{x}n := 0', f'{lab}:', 'for {', '\tselect {', f'\tcase v := <-{x}:', f'\t\t{x}s += v', f'\tcase v, ok := <-{x}b:', f'\t\tif !ok {{ continue {lab} }}', f'\t\t{x}s += v', f'\tcase <-{x}d:', f'\t\t{x}n++', f'\t\tif {x}n == 2 {{ break {lab} }}', '\t\tcontinue', '\t}', '}', f'close({x})', f'for v := range {x} {{ {x}s += v }}', f'for len({x}b) > 0 {{ {x}s += <-{x}b }}', f'println({x}s, {x}n)']

    def once(self, env):
        self.use_kit()
        self.imports |= {'sync'}
        x = self.fresh('on')
        return [f'var {x} sync.Once', f'var {x}m sync.Mutex', f'{x}n := 0', f'for i := 0; i < 3; i++ {{ {x}.Do(func() {{ {x}n += 1 + i; runtime.Gosched() }}) }}', f'{x}w := &sync.WaitGroup{{}}', f'{x}w.Add(4)', f'for i := 0; i < 4; i++ {{ go func(i int) {{ defer {x}w.Done(); {x}m.Lock(); {x}a := {x}n; runtime.Gosched(); {x}n = {x}a + i; {x}m.Unlock() }}(i) }}', f'{x}w.Wait()', f'println({x}n)',
                f'var {x}o sync.Once', f'println(risky(func() {{ {x}o.Do(func() {{ panic("once") }}) }}), risky(func() {{ {x}o.Do(func() {{ panic("twice") }}) }}))', f'{x}s := struct{{ sync.Mutex; n int }}{{}}', f'{x}s.Lock()', f'go func() {{ defer {x}s.Unlock(); {x}s.n = {self.quietly("int", env, 1)} }}()', f'{x}s.Lock()', f'println({x}s.n)',
                f'println(risky(func() {{ var w sync.WaitGroup; w.Done() }}))']

    # a server that answers through channels in what it is sent
    def served(self, env):
        t = self.type(1)
        x = self.fresh('c')
        n = self.name(t)
        show = self.shows_of(env, t, ['r'])
        return self.within([f'type ask struct {{ n int; back chan {n} }}', f'{x} := make(chan ask{self.r.choice(["", ", 2"])})', f'{x}e := make(chan struct{{}})', f'go func() {{', f'\tdefer close({x}e)', f'\tvar last {n} = {self.quietly(t, env, 2)}', f'\tfor a := range {x} {{', '\t\ta.back <- last', f'\t\tif a.n > 1 {{ last = {self.quietly(t, env, 2)} }}', '\t}', '}()',
                            'for i := 0; i < 3; i++ {', f'\tq := ask{{i, make(chan {n}, i&1)}}', f'\t{x} <- q', '\tr := <-q.back'] + ['\t' + s for s in show] + ['}', f'close({x})', f'<-{x}e', f'_, ok := <-{x}e', 'println(ok)'])

    # panics in goroutines, and what their deferred calls do meanwhile
    def thrown(self, env):
        self.use_kit()
        x = self.fresh('c')
        risk = self.r.choice(['panic("in")', 'var q []int; q[0]++', f'panic({self.quietly("int", env, 1)})', 'runtime.Gosched()', 'var q chan int; close(q)', 'panic(&Fault{1, "f"})'])
        return [f'{x} := make(chan string)', f'go func() {{', f'\tdefer func() {{ {x} <- "last" }}()', f'\tdefer func() {{ {x} <- risky(func() {{ panic(Count(3)) }}) }}()', f'\t{x} <- risky(func() {{ {x} <- "first"; {risk}; {x} <- "on" }})', f'\tdefer func() {{ if r := recover(); r != nil {{ {x} <- "held" }} }}()', f'\t{risk}', '}()',
                f'for s := range {x} {{', '\tprintln(s)', '\tif s == "last" { break }', '}']

    def yielded(self, env):
        self.use_kit()
        x = self.fresh('y')
        n = self.r.randint(1, 4)
        return [f'{x}, {x}d := 0, make(chan int)', f'for i := 0; i < {n}; i++ {{', f'\tgo func(n int) {{', f'\t\tfor j := 0; j < n; j++ {{ {x}++; runtime.Gosched() }}', f'\t\t{x}d <- n', '\t}(i)', '}', f'{x}s := 0', f'for i := 0; i < {n}; i++ {{ {x}s += <-{x}d }}', f'println({x}, {x}s)']

    # channels of channels, closed and nil ones
    def closed(self, env):
        self.use_kit()
        x = self.fresh('c')
        t = self.scalar()
        n = self.name(t)
        e = lambda: self.expr(t, env, 1)
        return [f'{x} := make(chan chan {n}, 2)', f'{x}i := make(chan {n}, 3)', f'{x} <- {x}i', f'{x} <- nil', f'{x}i <- {e()}', f'{x}i <- {e()}', f'close({x}i)', f'close({x})', f'println(len({x}), len({x}i), cap({x}i))', f'for c := range {x} {{', '\tif c == nil { println("nil", len(c), cap(c)); continue }', '\tv, ok := <-c', '\tprintln(v, ok)', f'\tfor w := range c {{ println(w) }}', '\tv, ok = <-c', f'\tprintln(v, ok, c == {x}i)', '}',
                f'select {{', f'case v, ok := <-{x}i:', '\tprintln(v, ok)', f'case <-(chan {n})(nil):', '\tprintln("never")', '}', f'println(risky(func() {{ {x}i <- {e()} }}), risky(func() {{ select {{ case {x}i <- {e()}: default: }} }}), risky(func() {{ close({x}i) }}))',
                f'var {x}r <-chan {n} = {x}i', f'var {x}t chan<- chan {n} = {x}', f'println({x}r == {x}i, {x}t != nil, cap({x}t))']

    # how a program ends
    def ending(self):
        k = self.r.random()
        self.imports |= {'os', 'sync'}
        some = ['os.Exit(c_int(3))', 'defer println("not"); os.Exit(300 + c_int(1))', 'panic("end")', f'panic(c_int(4))', 'defer println("late"); panic("end")', 'defer func() { panic("two") }(); panic("one")', 'defer os.Exit(9)', 'var q []int; println(q[c_int(0)])', 'panic(nil)']
        if self.marked:
            some += ['select {}', '<-make(chan int)', 'var q chan int; q <- 1', 'var q sync.WaitGroup; q.Add(1); q.Wait()', 'var q sync.Mutex; q.Lock(); q.Lock()', 'var q sync.Mutex; q.Unlock()', 'q := make(chan int); go func() { println("other"); panic("far") }(); <-q', 'go func() { for { select {} } }(); println("main")', 'q := make(chan int); for range q {}',
                     'q := make(chan int); go func() { defer close(q); os.Exit(5) }(); <-q', 'q := make(chan int, 1); q <- 1; q <- 2']
        return self.r.choice(some) if k < (.04 if self.small else .25) else ''
