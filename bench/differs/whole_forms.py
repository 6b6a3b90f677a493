"""Statements of one special form each, for whole.py: every method answers the lines of one, and adds to `env` what it
declares. They end, and what they print is the same under any order that Go leaves open."""

WORDS = ['', 'a', 'ab', 'zoo', 'h\\x00i', '\\u00e9t\\u00e9', '\\xff\\xfe', '\\u65e5\\u672c', 'x\\ty', 'a,b,,c', ' p  q ']


class Forms:
    def form(self, env, p):
        return [p + line for line in self.r.choice(self.kinds())(env)]

    def kinds(self):
        kinds = [self.aliased, self.copied, self.pointed, self.bound, self.looped, self.swapped, self.texts, self.shadowed,
                 self.local_names, self.deferred, self.kept, self.opened, self.counted, self.sliced, self.nested, self.matched,
                 self.library, self.spread, self.indexed, self.keyed, self.limits, self.anonymous, self.equal, self.wide,
                 self.arrays, self.ranged, self.folded, self.converted, self.embedded, self.stacked, self.left, self.again]
        if self.marked:
            kinds += [self.sent, self.selected, self.piped, self.rounds, self.locked, self.waited] * 2
        return kinds + self.more_forms()

    def pick(self, env, test):
        found = [(x, t) for x, t in env if test(t)]
        return self.r.choice(found) if found else (None, None)

    # append and copy over one array, whose size is known
    def aliased(self, env):
        t = self.type(1)
        a, b, c = self.fresh(), self.fresh(), self.fresh()
        n, more = self.r.randint(1, 3), self.r.randint(0, 3)
        e = lambda: self.expr(t, env, 2)
        out = [f'var {a} {self.name(("slice", t))} = make({self.name(("slice", t))}, {n}, {n + more})']
        out += [f'{a}[{i}] = {e()}' for i in range(n)]
        many = self.r.randint(1, 3)
        out += [f'{b} := append({a}, {", ".join(e() for _ in range(many))})', f'{c} := append({a}[:{self.r.randint(0, n)}], {e()})']
        out += self.shows(env + [(a, ('slice', t)), (b, ('slice', t)), (c, ('slice', t))], [a, b, c])
        s, u = self.r.choice([(a, n), (b, n + many)])
        i, j = self.r.randint(0, u), self.r.randint(0, u)
        out += [f'println(copy({s}[{i}:], {s}[{j}:]), copy({c}, {a}))', f'{a}[0] = {e()}']
        out += [f'{c} = append({c}, {c}...)', f'println(len({c}), cap({a}), cap({a}[{self.r.randint(0, n)}:]), cap({a}[:0:{n}]))']
        out += self.shows(env + [(a, ('slice', t)), (b, ('slice', t)), (c, ('slice', t))], [a, b, c])
        env += [(a, ('slice', t)), (b, ('slice', t)), (c, ('slice', t))]
        return out

    # a copy, then a change of one of the two
    def copied(self, env):
        x, t = self.pick(self.settable(env), lambda t: self.under(t)[0] in ('struct', 'array') and not isinstance(t, str))
        if not x:
            return self.arrays(env)
        y = self.fresh()
        way = self.r.choice(['{0} := {1}', 'var {0} = {1}', '{0} := func({2} {3}) {3} {{ return {2} }}({1})',
                             '{0} := [2]{3}{{{1}, {1}}}[1]', '{0} := []{3}{{{1}}}[0]', '{0} := *(&{1})',
                             '{0} := map[int]{3}{{1: {1}}}[1]', '{0} := interface{{}}({1}).({3})',
                             '{0} := struct{{ w {3} }}{{{1}}}.w', '{0} := func() {3} {{ {2} := {1}; return {2} }}()',
                             '{0}, _ := {1}, 1', '{0} := func() ({2} {3}) {{ {2} = {1}; return }}()'])
        out = [way.format(y, x, self.fresh('w'), self.name(t))]
        env.append((y, t))
        for z in (x, y):
            w, u = self.changeable(z, t)
            if w:
                out.append(f'{w} = {self.expr(u, env, 2)}')
        return out + self.shows(env, [x, y])

    def changeable(self, x, t):
        found = [(w, u) for u in (self.scalar(), self.scalar(), 'int', 'string') for w in self.parts(x, t, u, 3)]
        return self.r.choice(found) if found else (None, None)

    # a pointer to a part
    def pointed(self, env):
        t = self.type(1)
        x = self.place(self.settable(env), t)
        if not x:
            return self.copied(env)
        a, b = self.fresh(), self.fresh()
        out = [f'{a} := &{x}', f'{b} := &{a}', f'*{a} = {self.expr(t, env, 2)}', f'println({a} == &{x}, *{b} == {a}, {a} != nil)']
        env.append((a, ('pointer', t)))
        out += [f'**{b} = {self.expr(t, env, 2)}', f'{x} = {self.expr(t, env, 2)}'] + self.shows(env, [a])
        if self.r.random() < .4:
            c = self.fresh()
            out += [f'{c} := new({self.name(t)})'] + ([] if self.needs_value(t) else self.shows(env + [(c, ('pointer', t))], [c]))
            out += [f'*{c} = *{a}', f'*{a} = {self.expr(t, env, 1)}'] + self.shows(env + [(c, ('pointer', t))], [c])
            env.append((c, ('pointer', t)))
        return out

    # a method value holds a copy of its receiver, that of a pointer the pointer
    def bound(self, env):
        k = self.r.randrange(len(self.structs))
        x, m, n, q = self.fresh(), self.fresh('m'), self.fresh('m'), self.fresh('q')
        t = ('struct', k)
        env.append((x, t))
        out = [f'var {x} S{k} = {self.expr(t, env[:-1], 2)}', f'{m}, {q} := {x}.area, Shape({x}).area', f'{n} := (&{x}).mark']
        w, u = self.changeable(x, t)
        if w:
            out.append(f'{w} = {self.expr(u, env, 1)}')
        a = f'c_int({self.r.randint(-9, 9)})'
        return out + [f'println({m}({a}), {q}({a}), {x}.area({a}))', f'{n}({a})', f'println({m}({a}))'] + self.shows(env, [x])

    # closures made in a loop, run afterwards
    def looped(self, env):
        fs, i, j = self.fresh('fs'), self.fresh('i'), self.fresh('j')
        t = self.r.choice(['int', 'uint8', 'int64'])
        kind = self.r.randrange(4)
        head = [f'for {i} := {t}(0); {i} < 3; {i}++ {{', f'for {i} := range [3]{t}{{}} {{', f'for {i}, {i}x := range []{t}{{5, 6, 7}} {{',
                f'for {i} := {t}(3); {i} > 0; {i}-- {{'][kind]
        extra = [f'\t_, _ = {i}, {i}x'] if kind == 2 else []
        used = f'{i}x' if kind == 2 else f'{t}({i})'
        inner = env + [(j, t)]
        return [f'var {fs} []func({t}) {t}', head] + extra + [f'\t{j} := {used}',
                f'\t{fs} = append({fs}, func(z {t}) {t} {{ {j} += z; return {j} + {used} }})',
                f'\t{fs} = append({fs}, func(z {t}) {t} {{ return {self.expr(t, inner, 2)} ^ {j} }})'] + \
            self.maybe(kind == 0, f'\tif {self.flat(env, 1)} {{ {i}++ }}') + ['}',
                f'for _, h := range {fs} {{ println(h(1)) }}', f'for {i}, h := range {fs} {{ println({i}, h({t}({i}))) }}']

    def maybe(self, yes, line):
        return [line] if yes and self.r.random() < .5 else []

    # places that change all at once
    def swapped(self, env):
        t = self.type(1)
        a, b = self.place(self.settable(env), t), self.place(self.settable(env), t)
        if not a or not b:
            x = self.fresh()
            env.append((x, ('array', 3, t)))
            first = f'var {x} [3]{self.name(t)} = [3]{self.name(t)}{{{self.expr(t, env[:-1], 2)}, {self.expr(t, env[:-1], 2)}, {self.expr(t, env[:-1], 1)}}}'
            i = self.fresh('i')
            return [first, f'{x}[0], {x}[1], {x}[2] = {x}[1], {x}[2], {x}[0]'] + self.shows(env, [x]) + \
                [f'{i} := 1', f'{i}, {x}[{i}] = 2, {x}[{i}+1]', f'{x}[{i}], {i} = {x}[0], 0', f'println({i})'] + self.shows(env, [x])
        if a == b:
            return [f'{a} = {self.expr(t, env, 2)}']
        return [f'{a}, {b} = {b}, {a}'] + self.shows_of(env, t, [a, b])

    # strings, their bytes and their characters
    def texts(self, env):
        s = self.expr('string', env, 3)
        x, b, r, i, c = self.fresh(), self.fresh(), self.fresh(), self.fresh('i'), self.fresh('e')
        env += [(x, 'string'), (b, ('slice', 'uint8')), (r, ('slice', 'int32'))]
        out = [f'var {x} string = {s} + "{self.r.choice(WORDS[1:])}"', f'{b}, {r} := []byte({x}), []rune({x})',
               f'println(len({x}), len({b}), len({r}), string({b}) == {x}, string({r}))',
               f'for {i}, {c} := range {x} {{ println({i}, {c}, string({c}), {x}[{i}]) }}',
               f'{b}[0] = {self.expr("uint8", env, 1)}', f'{r}[len({r})-1] = {self.expr("int32", env, 1)}',
               f'println({x}, string({b}), string({r}), {x} < string({b}), {x}[len({x})/2:])']
        if self.r.random() < .5:
            out += [f'{b} = append({b}, {x}...)', f'println(copy({b}[1:], {x}), copy({b}, "zz"))', f'println(string({b}))']
        if self.r.random() < .5:
            out += [f'{x} += {self.expr("string", env, 1)}', f'switch {x} {{', f'case "{self.r.choice(WORDS)}k":', '\tprintln("k")',
                    f'case {x}[:len({x})/2], {x}:', '\tprintln("x")', 'default:', '\tprintln("none")', '}']
        return out

    # one name in several blocks
    def shadowed(self, env):
        x, t = self.pick([(x, t) for x, t in self.settable(env) if x.isidentifier()], lambda t: True)
        if not x:
            return self.local_names(env)
        out = ['{', f'\t{x} := {x}', f'\t{x} = {self.expr(t, env, 2)}']
        out += ['\t' + line for line in self.shows(env, [x])]
        if self.r.random() < .5:
            out += [f'\tfunc({x} {self.name(t)}) {{'] + ['\t\t' + w for w in self.shows(env, [x])] + [f'\t\t{x} = {self.expr(t, env, 1)}',
                    f'\t}}({self.expr(t, env, 1)})'] + ['\t' + line for line in self.shows(env, [x])]
        return out + ['}'] + self.shows(env, [x])

    # types and constants of a block
    def local_names(self, env):
        n, k, x = self.fresh('T'), self.fresh('K'), self.fresh()
        t = self.r.choice(['int', 'uint8', 'int64', 'uint64', 'int16'])
        shift = self.r.randint(1, 20)
        big = self.r.randint(0, 2 ** 100)
        out = [f'type {n} {t}', 'const (', f'\t{k}a {n} = iota + {self.r.randint(0, 9)}', f'\t{k}b', '\t_', f'\t{k}c', ')',
               f'const (\n\t{k}d, {k}e = iota << {shift}, {big} >> (iota + 90)', f'\t{k}f, {k}g', ')',
               f'var {x} {n} = {n}({self.expr(t, env, 2)})', f'println({x}, {k}a, {k}b, {k}c, {k}d, {k}e, {k}f, {k}g, {k}b+{x}, {x} == {k}c)',
               f'switch {x} {{', f'case {k}a, {k}b:', '\tprintln("low")', f'case {k}c:', '\tprintln("high")', '}',
               f'switch z := interface{{}}({x}).(type) {{', f'case {t}:', '\tprintln("plain", z)', f'case {n}:', '\tprintln("named", z)', '}']
        if self.r.random() < .5:
            return ['{'] + ['\t' + line for line in out] + ['}']
        return ['func() {'] + ['\t' + line for line in out] + ['}()']

    # deferred calls, their arguments, and results that have names
    def deferred(self, env):
        t, u = self.scalar(), self.type(1)
        while self.needs_value(u):
            u = self.type(1)
        r, s, i, y = self.fresh('n'), self.fresh('n'), self.fresh('i'), self.fresh()
        inside = env + [(r, t), (s, u)]
        raised = self.r.choice(['', 'panic("one")', f'panic({self.expr("int", env, 1)})', 'panic(S0{})', 'panic(nil)', 'return',
                                f'return {self.expr(t, env, 2)}, {s}', 'panic("two")'])
        e = lambda t: self.expr(t, inside, 2)
        out = [f'{y}, {y}z := func() ({r} {self.name(t)}, {s} {self.name(u)}) {{', f'\t{s} = {e(u)}',
               f'\tfor {i} := 0; {i} < 3; {i}++ {{', f'\t\tdefer func(w int) {{ println(w, {i}); {r} = {e(t)} }}({i} * 2)', '\t}',
               f'\tdefer println({e(t)}, {r}, recover() == nil)',
               '\tdefer func() {', '\t\tswitch z := recover().(type) {', '\t\tcase string:', '\t\t\tprintln("string", z)', '\t\tcase int:',
               '\t\t\tprintln("int", z)', '\t\tcase nil:', '\t\t\tprintln("nil")', '\t\tdefault:', '\t\t\tprintln("else")', '\t\t}']
        if self.r.random() < .3:
            out += ['\t\tdefer func() { println(recover() != nil) }()', '\t\tpanic("again")']
        out += ['\t}()']
        if self.r.random() < .4:
            out += ['\tdefer func() {', f'\t\tdefer func() {{ {s} = {e(u)} }}()', f'\t\tif {self.flat(env, 1)} {{ panic("new") }}', '\t}()']
        w, v = self.changeable(s, u) if not isinstance(u, str) else (s, u)
        if w:
            out.append(f'\t{w} = {e(v)}')
        out += [f'\tif {self.flat(inside, 1)} {{ {raised} }}', f'\treturn {e(t)}, {e(u)}', '}()', f'println({y})']
        env.append((y, t))
        env.append((y + 'z', u))
        return out + self.shows(env, [y + 'z'])

    # structs in maps and slices
    def kept(self, env):
        k = self.r.randrange(len(self.structs))
        t = ('struct', k)
        key = self.map_key()
        m, x, ok, s = self.fresh(), self.fresh(), self.fresh('b'), self.fresh()
        k1, k2 = self.key(key), self.key(key)
        mt, st = ('map', key, t), ('slice', t)
        env.append((x, t))
        out = [f'var {x} S{k} = {self.expr(t, env[:-1], 2)}', f'{m} := {self.name(mt)}{{{k1}: {x}}}', f'{s} := {self.name(st)}{{{x}, {x}, {m}[{k1}]}}']
        w, u = self.changeable(x, t)
        change = [f'{w} = {self.expr(u, env, 2)}'] if w else []
        env += [(m, mt), (s, st)]
        out += change + [f'{m}[{k2}] = {x}'] + self.shows(env, [m, s]) + change + [f'{x}z, {ok} := {m}[{k2}]', f'println({ok}, len({m}))']
        if not self.needs_value(t):
            out += self.shows(env + [(x + 'z', t)], [x + 'z'])
        out += [f'_ = {x}z', f'{s}[1] = {s}[0]', f'{s}[2], {s}[0] = {s}[0], {x}']
        w, u = self.changeable(s + '[0]', t)
        out += ([f'{w} = {self.expr(u, env, 1)}'] if w else []) + [f'delete({m}, {k1})']
        return out + self.shows(env, [m, s, x])

    # interface values: what they hold is a copy
    def opened(self, env):
        t = self.type(1)
        x, a, y, ok = self.fresh(), self.fresh(), self.fresh(), self.fresh('b')
        other = self.type(1)
        out = [f'var {x} {self.name(t)} = {self.expr(t, env, 2)}', f'var {a} interface{{}} = {x}', f'{y}, {ok} := {a}.({self.name(t)})', f'println({ok})']
        env += [(x, t), (y, t)]
        w, u = self.changeable(x, t) if not isinstance(t, str) else (x, t)
        out += ([f'{w} = {self.expr(u, env, 2)}'] if w else []) + self.shows(env, [x, y])
        out += [f'_, {ok} = {a}.({self.name(other)})', f'println({ok})', f'_, {ok} = {a}.(Shape)', f'println({ok})']
        if self.compares(t):
            out.append(f'println({a} == interface{{}}({y}), {a} == interface{{}}({x}), {a} != nil)')
        env.append((a, ('any',)))
        return out

    # generators: functions that answer functions
    def counted(self, env):
        t, g, h = self.r.choice(self.ints()), self.fresh('k'), self.fresh('k')
        n = self.fresh()
        return [f'{g} := func({n} {t}) (func() {t}, func({t})) {{', f'\tvar {n}z = {n}', f'\treturn func() {t} {{ {n}++; {n}z += {n}; return {n}z }}, ' +
                f'func(w {t}) {{ {n} = w; {n}z ^= {self.expr(t, env + [(n, t)], 2)} }}', '}',
                f'{h}, {h}z := {g}({self.expr(t, env, 1)})', f'println({h}(), {h}())', f'{h}z({self.expr(t, env, 1)})',
                f'{h}b, _ := {g}({t}(3))', f'println({h}(), {h}b(), {h}b())']

    # slices of arrays, of slices, and by three bounds
    def sliced(self, env):
        t, n = self.type(1), self.r.randint(2, 4)
        a, s, q = self.fresh(), self.fresh(), self.fresh()
        at, st = ('array', n, t), ('slice', t)
        env.append((a, at))
        lo = self.r.randint(0, n - 1)
        hi = self.r.randint(lo + 1, n)
        top = self.r.randint(hi, n)
        out = [f'var {a} {self.name(at)} = {self.name(at)}{{{", ".join(self.expr(t, env[:-1], 1) for _ in range(n))}}}',
               f'{s} := {a}[{lo}:{hi}:{top}]', f'println(len({s}), cap({s}))', f'{s}[0] = {self.expr(t, env, 2)}']
        env.append((s, st))
        out += self.shows(env, [a]) + [f'{q} := {s}[:{self.r.randint(0, top - lo)}]', f'{q} = append({q}, {self.expr(t, env, 1)})',
                f'{a}[{lo}] = {self.expr(t, env, 1)}', f'println(len({q}), cap((&{a})[:]), copy({a}[:], {s}), copy({q}, {a}[1:]))']
        env.append((q, st))
        return out + self.shows(env, [a, s, q])

    # arrays of arrays and slices of slices
    def nested(self, env):
        t = self.r.choice([self.scalar(), ('struct', 0)])
        a, b, i, row = self.fresh(), self.fresh(), self.fresh('i'), self.fresh()
        at = ('array', 2, ('array', 2, t))
        out = [f'var {a} {self.name(at)}', f'for {i} := range {a} {{', f'\t{a}[{i}][1-{i}] = {self.expr(t, env, 2)}', f'\t{a}[{i}][{i}] = {self.expr(t, env, 1)}', '}',
               f'{row} := {a}[0]', f'{b} := {a}', f'{a}[0][1] = {self.expr(t, env, 2)}', f'{a}[1] = {row}', f'{row}[0], {b}[1][0] = {b}[1][0], {row}[1]',
               f'println({a} == {b})' if self.compares(t) else '']
        env += [(a, at), (b, at), (row, at[2])]
        out += self.shows(env, [a, b, row])
        s = self.fresh()
        st = ('slice', ('array', 2, t))
        out += [f'{s} := {a}[:]', f'{s}[1][0] = {self.expr(t, env, 1)}', f'for {i}, {i}r := range {a} {{', f'\t{a}[1][0] = {self.expr(t, env, 1)}', f'\t{i}r[0] = {i}r[1]',
                f'\t{s}[{i}] = {i}r', '}']
        env.append((s, st))
        return out + self.shows(env, [a, s])

    # switches without a tag, with a statement before, with several values, with breaks and fallthrough
    def matched(self, env):
        x, t = self.fresh(), self.r.choice(self.ints())
        lab, i = self.fresh('L'), self.fresh('i')
        env.append((x, t))
        word = lambda: self.r.choice(['break', f'break {lab}', f'continue {lab}', 'println("no")', 'fallthrough', f'{x}++'])
        def body(last=False):
            w = word()
            inner = [f'\t\tprintln({i}, {x})'] + self.maybe(True, f'\t\tif {self.flat(env, 1)} {{ break }}')
            w = 'break' if last and w == 'fallthrough' else w
            return inner + ['\t\t' + w]
        c = self.r.sample(range(0, 9), 5)
        out = [f'var {x} {t} = {self.expr(t, env[:-1], 2)}', f'{lab}:', f'for {i} := 0; {i} < 4; {i}++ {{']
        if self.r.random() < .5:
            out += [f'\tswitch {i}z := {x} & 7; {i}z {{', f'\tcase {c[0]}, {c[1]}:'] + body() + [f'\tcase {c[2]}:'] + body() + ['\tdefault:'] + body() + [f'\tcase {c[3]}, {c[4]}:'] + body(True)
        else:
            out += ['\tswitch {', f'\tcase {x} > {c[0]}, {self.condition(env, 1)}:'] + body() + ['\tdefault:'] + body() + [f'\tcase {self.condition(env, 2)}:'] + body(True)
        return out + ['\t}', f'\t{x} += {t}({i} + 1)', f'\tif {x} == 100 {{ continue {lab} }}', '}', f'println({x})']

    # the embedded packages
    def library(self, env):
        s, t = self.expr('string', env, 2), f'"{self.r.choice(WORDS)}"'
        n = self.expr('int', env, 2)
        some = self.expr(self.r.choice(self.ints()), env, 2)
        self.imports |= {'strings', 'strconv', 'fmt'}
        verb = self.r.choice(['%d', '%5d', '%-5d|', '%05d', '%x', '%v', '%3v'])
        x = self.fresh()
        return self.r.choice([
            [f'println(strings.Contains({s}, {t}), strings.HasPrefix({s}, {t}), strings.HasSuffix({s}, {t}), strings.Index({s}, {t}))'],
            [f'for _, {x} := range strings.Split({s}+",x,", ",") {{ println({x}, len({x})) }}'],
            [f'println(strings.Join(strings.Fields({s}+" x  y"), "-"), strings.TrimSpace({s}), strings.Repeat({t}, {n}&3))'],
            [f'println(fmt.Sprintf("{verb}", {some}))'],
            [f'println(fmt.Sprintf("%s|%5s|%-5s|%v|%t|%c|%%", {s}, {t}, {t}, {s}, {self.condition(env, 1)}, {self.expr("uint16", env, 1)} & 1023))'],
            [f'println(fmt.Sprint({some}, {n}, {s}, {t}), fmt.Sprintln({s}, {some}))'],
            [f'println(strconv.Itoa({n}), strconv.FormatInt(int64({some}), {self.r.choice([2, 8, 10, 16, 36])}), strconv.FormatBool({self.condition(env, 1)}))'],
            [f'if {x}, err := strconv.Atoi({self.r.choice([s, f"strconv.Itoa({n})"])}); err == nil {{ println({x}) }} else {{ println("bad", {x}) }}'],
            [f'if {x}, err := strconv.ParseInt(strconv.FormatInt(int64({some}), 16), 16, {self.r.choice([0, 8, 32, 64])}); err == nil {{ println({x}) }} else {{ println("bad", {x}) }}'],
            [f'var {x} strings.Builder', f'{x}.WriteString({s})', f'{x}.WriteByte({self.expr("uint8", env, 1)})', f'println({x}.Len(), {x}.String())'],
        ])

    # variadic parameters, and results handed on
    def spread(self, env):
        t, x, s = self.scalar(), self.fresh(), self.fresh('sp')
        e = lambda: self.expr(t, env, 2)
        n = self.name(t)
        out = [f'{s} := func(w int, z ...{n}) (int, {n}) {{', f'\tprintln(w, len(z), z == nil)', f'\tif len(z) == 0 {{ return w, {e()} }}', '\tw = len(z)', f'\tz[0] = {e()}', '\treturn w, z[w-1]', '}',
               f'{x} := []{n}{{{e()}, {e()}}}', f'{s}(1)', f'{s}(2, {x}...)', f'{s}(3, {x}[:1]...)', f'{s}(4, {x}[0], {e()})', f'{s}({s}(5, {e()}))']
        env.append((x, ('slice', t)))
        return out + self.shows(env, [x])

    # an index and a place are worked out once
    def indexed(self, env):
        t = self.r.choice(self.ints())
        x, i, m = self.fresh(), self.fresh('at'), self.fresh()
        op = self.r.choice(['+=', '-=', '*=', '^=', '|=', '&=', '&^=', '<<=', '>>='])
        right = f'({self.expr("uint8", env, 1)} & 15)' if op in ('<<=', '>>=') else self.expr(t, env, 2)
        env += [(x, ('array', 3, t)), (m, ('map', 'int', t))]
        return [f'{i} := 0', f'{i}f := func() int {{ {i}++; println("at", {i}); return {i} % 3 }}', f'var {x} [3]{t} = [3]{t}{{2: {self.expr(t, env[:-2], 1)}, 1: 7}}',
                f'{x}[{i}f()] {op} {right}', f'{x}[{i}f()]++', f'{m} := map[int]{t}{{}}', f'{m}[{i}f()] {op} {right}', f'{m}[{i}f()]--', f'(&{x})[{i}f()] {op} {right}',
                f'*func() *{t} {{ println("once"); return &{x}[2] }}() {op} {right}'] + self.shows(env, [x, m])

    # maps by structs, arrays and integers of 64 bits
    def keyed(self, env):
        key = self.r.choice([('struct', 0), ('array', 2, 'string'), 'int64', 'uint64', 'bool', 'int8', ('array', 2, ('array', 1, 'int64'))])
        if not self.may_be_key(key):
            key = 'uint64'
        v = self.type(1)
        m, k, n = self.fresh(), self.fresh(), self.fresh('n')
        e = lambda: self.expr(key, env, 2)
        out = [f'{m} := map[{self.name(key)}]{self.name(v)}{{}}', f'{k} := {e()}' if not isinstance(key, str) else f'var {k} {key} = {e()}',
               f'{m}[{k}] = {self.expr(v, env, 2)}', f'{m}[{e()}] = {self.expr(v, env, 2)}', f'_, {n} := {m}[{k}]']
        env.append((k, key))
        w, u = self.changeable(k, key) if not isinstance(key, str) else (k, key)
        out += ([f'{w} = {self.expr(u, env, 1)}'] if w else []) + [f'println({n}, len({m}))', f'_, {n} = {m}[{k}]', f'println({n})', f'delete({m}, {k})', f'println(len({m}))',
                f'for {k}z := range {m} {{ delete({m}, {k}z) }}', f'println(len({m}))']
        return out

    # the ends of each type
    def limits(self, env):
        t = self.r.choice(self.ints())
        lo, hi = self.bounds(t)
        x, y = self.fresh(), self.fresh()
        env += [(x, t), (y, t)]
        c = self.r.choice([lo, hi, lo + 1, hi - 1, hi // 2, hi // 2 + 1, 1, 2, 3, 10, 255, 256, 65535, 65536, 2 ** 31 - 1, 2 ** 32, 2 ** 53])
        c = max(lo, min(hi, c))
        d = max(lo, min(hi, self.r.choice([lo, hi, 1, 3, 7, 10, 2 ** 16 + 1, 2 ** 32 - 1, 2 ** 32 + 1, -1, -2, -7]))) or 1
        m = min(abs(d), hi)
        d = f'({d})'
        out = [f'var {x}, {y} {t} = {c}, {self.expr(t, env[:-2], 2)}',
               f'println({x}+{y}, {x}-{y}, {x}*{y}, {x}&{y}, {x}|{y}, {x}^{y}, {x}&^{y}, -{x}, ^{y})',
               f'println({y}/{d}, {y}%{d}, {x}/({y}|1), {x}%({y}|1), {x} < {y}, {x} >= {y}, {x} == {c})',
               f'println({y}*{d}, {y}+{d}, {y}-{d}, {d}-{y}, {y}&{m}, {y}<={d})']
        n = self.r.randint(0, 70)
        u = self.r.choice(self.ints())
        out += [f'println({x}<<{n}, {x}>>{n}, {y}<<{n % 33}, {y}>>{n % 33}, {x}<<({self.expr(u, env, 1)}&127), {y}>>({self.expr(u, env, 1)}&127))']
        out += ['println(' + ', '.join(f'{v}({self.r.choice([x, y])})' for v in self.r.sample(self.ints(), 4)) + ')']
        return out

    # struct types without a name
    def anonymous(self, env):
        t, u = self.type(1), self.scalar()
        x, y, n = self.fresh('an'), self.fresh('an'), self.fresh('T')
        tt = f'struct {{ a {self.name(t)}; b {u} }}'
        out = [f'type {n} {tt}', f'{x} := {tt}{{{self.expr(t, env, 2)}, {self.expr(u, env, 1)}}}', f'var {y} {n} = {x}', f'{y}.b = {self.expr(u, env, 2)}', f'{y}.a = {self.expr(t, env, 2)}',
               f'println({x}.b, {y}.b, {x}.b == {y}.b)']
        if self.compares(t):
            out += [f'println({x} == {y}, {n}({x}) == {y}, interface{{}}({x}) == interface{{}}({y}))']
        out += [f'{x} = {y}', f'{x}.b = {self.expr(u, env, 1)}', f'{n}z := []{n}{{{y}, {{a: {self.expr(t, env, 1)}}}, {{}}}}', f'println(len({n}z), {n}z[0].b, {n}z[1].b, {n}z[2].b)']
        return ['func() {'] + ['\t' + w for w in out + self.shows_of(env, t, [x + '.a', y + '.a'])] + ['}()']

    # equality of whole values
    def equal(self, env):
        t = self.type(2)
        if not self.compares(t):
            return self.nested(env)
        x, y = self.fresh(), self.fresh()
        env += [(x, t), (y, t)]
        e = self.expr(t, env[:-2], 2)
        out = [f'var {x} {self.name(t)} = {e}', f'{y} := {x}', f'println({x} == {y}, {x} != {y})']
        w, u = self.changeable(y, t) if not isinstance(t, str) else (y, t)
        out += ([f'{w} = {self.expr(u, env, 2)}'] if w else []) + [f'println({x} == {y}, {x} != {y}, interface{{}}({x}) == interface{{}}({y}))']
        return out + [f'if {x} != {y} && {self.condition(env, 1)} {{ println("other") }}']

    # integers of 64 bits
    def wide(self, env):
        t = self.r.choice(['int64', 'uint64'])
        x, y, i = self.fresh(), self.fresh(), self.fresh('i')
        k = self.r.choice([6364136223846793005, 0x123456789abcdef, 0x7fffffffffffffff, 1000000007, 4294967296, 4294967295])
        env += [(x, t), (y, t)]
        return [f'var {x} {t} = {self.expr(t, env[:-2], 2)}', f'var {y} {t} = {self.expr(t, env[:-2], 2)}', f'for {i} := uint(0); {i} < {self.r.randint(1, 5)}; {i}++ {{',
                f'\t{x} = {x}*{k} + {y}', f'\t{y} ^= {x}>>({i}*{self.r.randint(1, 13)}) ^ {y}<<{self.r.randint(1, 63)}',
                f'\tprintln({x}, {y}, {x}/({y}|1), {x}%({y}|1), {x}<{y}, {x}/{self.r.choice([3, 10, 16, 1000, 4294967297])}, {x}%{self.r.choice([7, 10, 64, 4294967296])}, int32({x}), uint16({y}))', '}']

    # arrays by value
    def arrays(self, env):
        t, n = self.type(1), self.r.randint(2, 3)
        at = ('array', n, t)
        x, f, i = self.fresh(), self.fresh('f'), self.fresh('i')
        env.append((x, at))
        e = lambda: self.expr(t, env[:-1], 1)
        head = f'[...]{self.name(t)}' if self.r.random() < .4 else self.name(at)
        body = ', '.join(f'{j}: {e()}' for j in self.r.sample(range(n), n)) if self.r.random() < .4 else ', '.join(e() for _ in range(n))
        out = [f'var {x} = {head}{{{body}}}', f'{f} := func(w {self.name(at)}) {self.name(at)} {{ w[0] = {e()}; return w }}']
        y = self.fresh()
        env.append((y, at))
        return out + [f'{y} := {f}({x})', f'{y}[1] = {e()}', f'for {i}, {i}e := range {x} {{', f'\t{x}[{n}-1-{i}] = {i}e', f'\t{y}[{i}] = {x}[0]', '}',
                      f'for {i} := range &{y} {{ {y}[{i}] = {x}[{i}] }}', f'println(len({x}), cap({y}))'] + self.shows(env, [x, y])

    # ranges over what changes meanwhile
    def ranged(self, env):
        t = self.scalar()
        x, i, e = self.fresh(), self.fresh('i'), self.fresh('e')
        st = ('slice', t)
        kind = self.r.randrange(4)
        v = lambda: self.expr(t, env, 2)
        out = [f'var {x} {self.name(st)} = {self.name(st)}{{{v()}, {v()}, {v()}}}']
        if kind == 0:
            out += [f'for {i}, {e} := range {x} {{', f'\t{x} = append({x}, {e})', f'\t{x}[2] = {e}', f'\tprintln({i}, {e}, len({x}))', '}']
        elif kind == 1:
            out += [f'for {i}, {e} := range {x} {{', f'\t{x}[(uint({i})+1)%3] = {v()}', f'\tprintln({i}, {e})', f'\t{x} = {x}[:len({x}):len({x})]', '}']
        elif kind == 2:
            q = self.fresh()
            out += [f'var {q} struct {{ k int; v [2]{self.name(t)} }}', f'for {q}.k, {q}.v[1] = range {x} {{', f'\t{q}.v[0], {x} = {q}.v[1], {x}[:1]', f'\tprintln({q}.k, {q}.v[0])', '}', f'println({q}.k, {q}.v[1], len({x}))']
        else:
            out += [f'{i} := 0', f'for range {x} {{ {i}++ }}', f'for {i} = range {x} {{', f'\tif {self.flat(env, 1)} {{ break }}', '}', f'println({i})']
        env.append((x, st))
        return out + self.shows(env, [x])

    # recursion
    def folded(self, env):
        t, f = self.scalar(), self.fresh('rec')
        n = self.r.randint(1, 6)
        inner = env + [('z', t)]
        return [f'var {f} func(int, {t}) {t}', f'{f} = func(w int, z {t}) {t} {{', f'\tif w <= 0 {{ return z }}', f'\tdefer func() {{ if w == 1 {{ println("deep") }} }}()' if self.r.random() < .3 else f'\tprintln(w, z)',
                f'\tz = {self.expr(t, inner, 2)}', f'\treturn {f}(w-1, z)', '}', f'println({f}({n}, {self.expr(t, env, 1)}))']

    # conversions between named types, of strings and slices
    def converted(self, env):
        if not self.nameds:
            return self.texts(env)
        k = self.r.randrange(len(self.nameds))
        t, u = ('named', k), self.nameds[k]
        x, y = self.fresh(), self.fresh()
        env += [(x, t), (y, u)]
        out = [f'var {x} N{k} = N{k}({self.expr(u, env[:-2], 2)})', f'var {y} {self.name(u)} = ({self.name(u)})({x})', f'println({x}.more(2), {x}.again().more(1))', f'{y} = {self.expr(u, env[:-2], 1)}']
        m = self.fresh('m')
        out += [f'{m} := {x}.more', f'{x} = N{k}({y})', f'println({m}(3), {x}.more(3), interface{{ more(int) int }}({x}).more(4))', f'var {m}s interface{{}} = {x}']
        return out + [f'switch w := {m}s.(type) {{', f'case {self.name(u)}:', '\t_ = w', '\tprintln("plain")', f'case interface{{ more(int) int }}:', '\tprintln("more", w.more(5))', '}'] + self.shows(env, [x, y])

    # fields and methods that embedding promotes
    def embedded(self, env):
        k = self.r.randrange(len(self.structs))
        n, x, y = self.fresh('T'), self.fresh('em'), self.fresh('em')
        star = self.r.choice(['', '*'])
        given = f'new_S{k}({self.expr(("struct", k), env, 2)})' if star else self.expr(('struct', k), env, 2)
        f, u = self.structs[k][0][0], self.structs[k][0][1]
        out = ['func() {', f'\ttype {n} struct {{', f'\t\t{star}S{k}', '\t\tShape', '\t\tn int', '\t}', f'\t{x} := {n}{{{given}, S0{{}}, {self.expr("int", env, 1)}}}' if not self.needs_value(('struct', 0)) else
               f'\t{x} := {n}{{{given}, {self.expr(("struct", 0), env, 1)}, {self.expr("int", env, 1)}}}',
               f'\t{y} := {x}', f'\t{x}.mark({x}.n)', f'\t{x}.{f} = {self.expr(u, env, 2)}', f'\tprintln({y}.{f}, {x}.{f}, {x}.S{k}.area(1), {y}.Shape.area(2))',
               f'\t{x}.Shape = {x}.S{k}', f'\t{x}.{f}, {y} = {y}.{f}, {x}', f'\tprintln({x}.Shape.area(3), {y}.{f}, {y}.S{k}.area(4))', f'\tvar z interface{{ mark(int) }} = &{x}', '\tz.mark(5)', f'\tprintln({x}.{f}, {y}.{f})', '}()']
        return out

    # lists through pointers
    def stacked(self, env):
        t = self.type(1)
        n, x, i, f = self.fresh('T'), self.fresh('l'), self.fresh('i'), self.fresh('f')
        show = self.shows_of(env, t, ['z.v'])
        return ['func() {', f'\ttype {n} struct {{ v {self.name(t)}; next *{n} }}', f'\tvar {x}, {f} *{n}', f'\tfor {i} := 0; {i} < 3; {i}++ {{ {x} = &{n}{{{self.expr(t, env, 2)}, {x}}}; if {f} == nil {{ {f} = {x} }} }}',
                f'\t{f}.next, {x}.next.next = {x}.next, nil', f'\t{x}.v, {f}.v = {f}.v, {self.expr(t, env, 1)}', f'\tfor z, w := {f}, 0; z != nil && w < 5; z, w = z.next, w+1 {{', '\t\tprintln(w)'] + ['\t\t' + w for w in show] + ['\t}',
                f'\t*{f} = *{x}', f'\tprintln({f} == {x}, {f}.next == {x}.next)', '}()']

    # labels of blocks, loops and switches
    def left(self, env):
        a, b, i, j = self.fresh('L'), self.fresh('L'), self.fresh('i'), self.fresh('j')
        w = lambda: self.r.choice([f'break {a}', f'continue {a}', f'break {b}', 'break', 'continue', f'continue {b}', 'println("on")'])
        block = self.fresh('L')
        return [f'{i}s := func() int {{ return {self.expr("int", env, 1)} }}', f'{a}:', f'for {i} := 0; {i} < 3; {i}++ {{', f'\tdefer func() {{ println("left", {i}) }}()' if self.marked and self.r.random() < .3 else f'\tprintln({i})',
                f'\t{b}:', f'\tfor {j} := 3; {j} > 0; {j}-- {{', f'\t\tprintln({i}, {j})', f'\t\tswitch {{', f'\t\tcase {j} == {self.r.randint(1, 3)}:', f'\t\t\t{w()}', f'\t\tcase {self.condition(env, 2)}:',
                f'\t\t\t{w()}', '\t\t}', f'\t\tif {i} == {self.r.randint(0, 3)} {{ {w()} }}', f'\t\tif false {{ continue {b} }}', '\t}', f'\tif {i} == 9 {{ continue {a} }}', '}',
                f'{block}:', f'switch x := {i}s(); {{', 'case x > 0:', '\tfor {', f'\t\tif {self.flat(env)} {{ break {block} }}', f'\t\tbreak', '\t}', '\tprintln("through")',
                'default:', '\tprintln("none")', '}']

    # a conversion, an operator and a shift whose operands are constants without a type
    def again(self, env):
        t, u = self.r.choice(self.ints()), self.r.choice(self.ints())
        lo, hi = self.bounds(t)
        x, y = self.fresh(), self.fresh()
        n = self.expr(u, env, 1)
        env += [(x, t), (y, t)]
        return [f'var {x} {t} = 1 << ({n} & 31)', f'var {y} {t} = {t}({self.r.randint(0, 100)}) >> ({n} & 7) + 1<<({n}&3)', f'println({x}, {y}, {x}+1<<({n}&15), {x} == 1<<({n}&7), {t}(1<<({n}&63)))',
                f"println({x}+'a'&0x7f, {y}|0b101, {y}^0o17, {x} > {self.r.randint(0, 100)})", f'var {x}i interface{{}} = 1 << ({n} & 15)', f'println({x}i.(int), [4]int{{1, 2, 3, 4}}[1<<({n}&1)], len([1 << 3]int{{}}))']

    # ---- goroutines and channels

    def sent(self, env):
        t, c, x = self.type(1), self.fresh('c'), self.fresh()
        ct, size, n = self.name(t), self.r.choice([0, 1, 3]), self.r.randint(1, 4)
        env.append((x, t))
        w, u = self.changeable(x, t) if not isinstance(t, str) else (x, t)
        change = [f'\t{w} = {self.quietly(u, env[:-1], 1)}'] if w else []
        out = [f'{c} := make(chan {ct}, {size})', f'go func() {{', f'\t{x} := {self.quietly(t, env[:-1], 2)}', f'\tfor i := 0; i < {n}; i++ {{', f'\t\t{c} <- {x}'] + ['\t' + line for line in change] + ['\t}', f'\tclose({c})', '}()']
        return out + [f'var {x} {ct} = <-{c}'] + self.shows(env, [x]) + [f'for {x}z := range {c} {{'] + ['\t' + line for line in self.shows_of(env, t, [x + 'z'])] + [f'\t{x} = {x}z', '}', f'_, {x}k := <-{c}', f'println({x}k, len({c}), cap({c}))'] + self.shows(env, [x])

    # a select in which one case alone is ready
    def selected(self, env):
        t, a, b, x = self.type(1), self.fresh('c'), self.fresh('c'), self.fresh('e')
        ct = self.name(t)
        way = self.r.randrange(4)
        out = [f'{a}, {b} := make(chan {ct}, 1), make(chan int{self.r.choice(["", ", 1"])})', f'var {a}n chan {ct}']
        if way == 0:
            out += [f'{a} <- {self.expr(t, env, 2)}']
        elif way == 1:
            out += [f'go func() {{ {b} <- {self.quietly("int", env, 1)} }}()', '_ = 0']
        elif way == 2:
            out += [f'close({b})']
        show = ['\t' + line for line in self.shows_of(env, t, [x])]
        out += ['select {', f'case {x} := <-{a}:'] + show + [f'case {x}, ok := <-{b}:', f'\tprintln({x}, ok)', f'case {x} := <-{a}n:', f'\t_ = {x}']
        if way == 3:
            out += self.r.choice([['default:', '\tprintln("none")'], [f'case {a}n <- {self.expr(t, env, 1)}:', '\tprintln("never")', 'default:', '\tprintln("none")']])
        return out + ['}', 'select {', f'case {a} <- {self.expr(t, env, 1)}:', f'\tprintln("sent", len({a}))', 'default:', '\tprintln("full")', '}']

    def piped(self, env):
        t = self.r.choice(self.ints())
        a, b, x = self.fresh('c'), self.fresh('c'), self.fresh('e')
        n, s = self.r.randint(1, 5), self.r.choice(['', ', 1', ', 4'])
        return [f'{a}, {b} := make(chan {t}{s}), make(chan {t})', 'go func() {', f'\tdefer close({a})', f'\tfor i := {t}(0); i < {n}; i++ {{', f'\t\t{a} <- i * {self.quietly(t, env, 1)}', '\t}', '}()',
                f'go func(w <-chan {t}, z chan<- {t}) {{', f'\tfor {x} := range w {{', f'\t\tif {x}&1 == 0 {{ continue }}', f'\t\tz <- {x} + {self.quietly(t, env, 1)}', '\t}', '\tclose(z)', f'}}({a}, {b})',
                f'for {x} := range {b} {{ println({x}) }}']

    # two that take turns
    def rounds(self, env):
        t = self.type(1)
        a, x, y = self.fresh('c'), self.fresh(), self.fresh('e')
        ct = self.name(t)
        show = self.shows_of(env, t, [y])
        return [f'{a}, {a}d := make(chan {ct}), make(chan bool)', f'go func() {{', f'\tfor {y} := range {a} {{'] + ['\t\t' + w for w in show] + [f'\t\t{a}d <- {self.condition(env, 1)}', '\t}', f'\t{a}d <- true', '}()',
                f'for {x} := 0; {x} < {self.r.randint(1, 3)}; {x}++ {{', f'\t{a} <- {self.expr(t, env, 2)}', f'\tif <-{a}d {{ break }}', '}', f'close({a})', f'println(<-{a}d)']

    # a counter behind a lock
    def locked(self, env):
        self.imports |= {'sync'}
        t = self.r.choice(self.ints())
        x, g, mu = self.fresh(), self.fresh('wg'), self.fresh('mu')
        n = self.r.randint(1, 4)
        out = [f'var {g} sync.WaitGroup', f'var {mu} sync.Mutex', f'var {x} {t} = {self.expr(t, env, 1)}', f'for i := 0; i < {n}; i++ {{', f'\t{g}.Add(1)', f'\tgo func(w {t}) {{', f'\t\tdefer {g}.Done()', f'\t\t{mu}.Lock()', f'\t\tdefer {mu}.Unlock()',
               f'\t\t{x} += w * w', f'\t}}({t}(i) + {self.expr(t, env, 1)})', '}', f'{g}.Wait()', f'println({x})']
        env.append((x, t))
        return out

    # calls that wait, in every place of an expression
    def waited(self, env):
        t = self.scalar()
        c, f, x = self.fresh('c'), self.fresh('wf'), self.fresh()
        n = self.name(t)
        e = lambda: self.expr(t, env, 1)
        st = ('slice', t)
        y = self.fresh()
        inner = env + [(x, t), (y, st)]
        out = [f'{c} := make(chan {n})', f'{f} := func(w {n}) {n} {{ go func() {{ {c} <- w }}(); return <-{c} }}',
               f'var {x} {n} = {f}({self.place(env, t) or e()})', f'println({f}({e()}), {x}, {f}({x}) == {f}({e()}))', f'{y} := []{n}{{{f}({e()}), {x}, {f}({f}({x}))}}',
               f'{y}[0], {y}[1] = {f}({y}[1]), {y}[0]', f'if {f}({x}) == {y}[2] && {f}({y}[0]) != {f}({x}) || {f}({e()}) == {x} {{ println("in", {f}({x})) }}',
               f'switch {f}({x}) {{', f'case {f}({y}[0]):', '\tprintln("first")', f'case {x}, {f}({x}):', '\tprintln("second")', 'default:', '\tprintln("third")', '}',
               f'for i := range {y} {{ {y}[i] = {f}({y}[len({y})-1-i]) }}', f'defer func(w {n}) {{ println("late", w) }}({f}({x}))', f'println(func() (z {n}) {{ defer func() {{ z = {f}(z) }}(); return {f}({e()}) }}())',
               f'println(map[bool]{n}{{true: {f}({x}), false: {f}({e()})}}[{f}({x}) == {x}], struct{{ a, b {n} }}{{{f}({x}), {e()}}}.a, len([]{n}{{{f}({x})}}))']
        return ['func() {'] + ['\t' + w for w in out + self.shows(inner, [y])] + ['}()']
