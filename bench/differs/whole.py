"""Random whole programs that end: whole.py FOLDER SEED COUNT writes FOLDER/pN/main.go for each N, with its packages
in FOLDER/pN/src, and FOLDER/go, one module for the Go toolchain in which program N is the package pN, called by its
number. There each package tells when its initialisation begins and when it is over."""
import os
import random
import re
import sys

from whole_forms import WORDS, Forms
from whole_more import KIT, KIT_NAMES, More

BITS = {'int': 32, 'uint': 32, 'uintptr': 32, 'int8': 8, 'int16': 16, 'int32': 32, 'int64': 64,
        'uint8': 8, 'uint16': 16, 'uint32': 32, 'uint64': 64}
INTS = list(BITS)


class Maker(Forms, More):
    def __init__(self, seed, small=False):
        self.r = random.Random(seed)
        self.seed, self.small = seed, small
        self.kit = False
        self.count = 0
        self.structs = []
        self.nameds = []
        self.funcs = []
        self.changers = []
        self.methods = []
        self.globals = []
        self.imports = set()
        self.shown_types = {}
        self.quiet = False
        self.pure = False
        self.marked = self.r.random() < .5

    # ---- types: a name of an integer type, 'string', 'bool', or a tuple

    def name(self, t):
        if isinstance(t, str):
            return t
        kind = t[0]
        if kind == 'struct':
            return f'S{t[1]}'
        if kind == 'named':
            return f'N{t[1]}'
        if kind == 'slice':
            return '[]' + self.name(t[1])
        if kind == 'array':
            return f'[{t[1]}]' + self.name(t[2])
        if kind == 'map':
            return f'map[{self.name(t[1])}]{self.name(t[2])}'
        if kind == 'pointer':
            return '*' + self.name(t[1])
        if kind == 'func':
            return f'func({self.name(t[1])}) {self.name(t[2])}'
        return {'shape': 'Shape', 'any': 'interface{}'}[kind]

    def under(self, t):
        return self.nameds[t[1]] if t[0] == 'named' else t

    def ints(self):
        return INTS

    def bounds(self, t):
        bits = BITS[t]
        return (0, 2 ** bits - 1) if t[0] == 'u' else (-2 ** (bits - 1), 2 ** (bits - 1) - 1)

    def scalar(self):
        k = self.r.random()
        if k < .7:
            return self.r.choice(INTS)
        return 'string' if k < .9 else 'bool'

    def type(self, depth=2):
        k = self.r.random()
        if depth == 0 or k < .35:
            return self.scalar()
        if k < .52 and self.structs:
            return ('struct', self.r.randrange(len(self.structs)))
        if k < .58 and self.nameds:
            return ('named', self.r.randrange(len(self.nameds)))
        if k < .67:
            return ('slice', self.type(depth - 1))
        if k < .77:
            return ('array', self.r.randint(1, 3), self.type(depth - 1))
        if k < .85:
            return ('map', self.map_key(), self.type(depth - 1))
        if k < .92 and self.structs:
            return ('pointer', self.r.choice([('struct', self.r.randrange(len(self.structs))), self.type(depth - 1)]))
        if k < .96:
            return ('func', self.scalar(), self.scalar())
        return self.r.choice([('shape',), ('any',)]) if self.structs else self.scalar()

    def map_key(self):
        keys = ['string', 'int', 'int64', 'uint8', 'bool', ('array', 2, 'int8')]
        if self.structs and self.may_be_key(('struct', 0)):
            keys += [('struct', 0)] * 2
        return self.r.choice(keys)

    def may_be_key(self, t):
        t = self.under(t)
        if isinstance(t, str):
            return True
        if t[0] == 'array':
            return self.may_be_key(t[2])
        return t[0] == 'struct' and all(self.may_be_key(f) for _, f in self.structs[t[1]])

    def compares(self, t):
        t = self.under(t)
        if isinstance(t, str) or t[0] == 'pointer':
            return True
        if t[0] == 'array':
            return self.compares(t[2])
        return t[0] == 'struct' and all(self.compares(f) for _, f in self.structs[t[1]])

    # Slices have elements, so that an index by a remainder is in range, and pointers lead somewhere.
    def needs_value(self, t):
        t = self.under(t)
        if isinstance(t, str):
            return False
        if t[0] == 'struct':
            return any(self.needs_value(f) for _, f in self.structs[t[1]])
        if t[0] == 'array':
            return self.needs_value(t[2])
        return t[0] in ('slice', 'pointer', 'func', 'shape')

    # Types whose values share nothing with others.
    def is_alone(self, t):
        t = self.under(t)
        if isinstance(t, str):
            return True
        if t[0] == 'struct':
            return all(self.is_alone(f) for _, f in self.structs[t[1]])
        return t[0] == 'array' and self.is_alone(t[2])

    def fresh(self, prefix='v'):
        self.count += 1
        return f'{prefix}{self.count}'

    # ---- expressions: they change nothing, so that the order of their parts is seen only by what functions print

    def constant(self, t):
        if t == 'bool':
            return f'c_bool({self.r.choice(["true", "false"])})'
        if t == 'string':
            return f'"{self.r.choice(WORDS)}"'
        lo, hi = self.bounds(t)
        k = self.r.random()
        if k < .4:
            v = self.r.choice([0, 1, 2, 3, 7, 10, 31, 64, 100])
        elif k < .6:
            v = self.r.choice([lo, hi, lo + 1, hi - 1, hi // 2])
        else:
            v = self.r.randint(lo, hi)
        return f'c_{t}({max(lo, min(hi, v))})'

    # The places of a type that a variable holds.
    def parts(self, x, t, want, depth):
        if t == want:
            yield x
        t = self.under(t)
        if depth == 0 or isinstance(t, str):
            return
        if t[0] == 'pointer' and t[1][0] != 'struct':
            yield from self.parts(f'(*{x})', t[1], want, depth - 1)
        elif t[0] in ('struct', 'pointer'):
            for f, u in self.structs[t[1] if t[0] == 'struct' else t[1][1]]:
                yield from self.parts(f'{x}.{f}', u, want, depth - 1)
                if f[0] == 'S' and self.r.random() < .5:
                    yield from self.parts(x, u, want, depth - 1) if u != want else []
        elif t[0] == 'array':
            yield from self.parts(f'{x}[{self.r.randrange(t[1])}]', t[2], want, depth - 1)
        elif t[0] == 'slice':
            yield from self.parts(f'{x}[uint({self.r.randint(0, 5)})%uint(len({x}))]', t[1], want, depth - 1)

    def place(self, env, want):
        found = []
        for x, t in env:
            found += list(self.parts(x, t, want, 2))
        return self.r.choice(found) if found else None

    def expr(self, t, env, d):
        k = self.r.random()
        if d <= 0 or k < .3:
            x = self.place(env, t)
            if x and self.r.random() < .8:
                return x
            if d <= 0 and isinstance(t, str):
                return self.constant(t)
        if isinstance(t, str):
            return self.scalar_expr(t, env, d)
        return self.made(t, env, d)

    # An expression that prints nothing.
    def quietly(self, t, env, d):
        self.quiet, before = True, self.quiet
        e = self.expr(t, env, d)
        self.quiet = before
        return e

    def call(self, t, env, d):
        if self.quiet:
            return None
        fs = [f for f in self.funcs if f[2] == [t]]
        for x, u in env:
            if not isinstance(u, str) and u[0] == 'func' and u[2] == t and self.r.random() < .4:
                return f'{x}({self.expr(u[1], env, d - 1)})'
        if t == 'int' and self.r.random() < .4:
            k = self.r.randrange(len(self.structs)) if self.structs else 0
            x = self.place(env, ('struct', k)) or self.place(env, ('pointer', ('struct', k))) or self.place(env, ('shape',))
            if x and k < len(self.methods):
                return f'{x}.area({self.expr("int", env, d - 1)})'
        if fs:
            name, ps, _ = self.r.choice(fs)
            return f'{name}({", ".join(self.expr(p, env, d - 2) for p in ps)})'
        return None

    def scalar_expr(self, t, env, d):
        k = self.r.random()
        if k < .12:
            c = self.call(t, env, d)
            if c:
                return c
        if k < .2:
            for x, u in self.r.sample(env, len(env)):
                if not isinstance(u, str) and u[0] == 'map' and u[2] == t:
                    return f'{x}[{self.expr(u[1], env, d - 1)}]'
        if t == 'bool':
            return self.condition(env, d)
        if t == 'string':
            if k < .5:
                return f'({self.expr(t, env, d - 1)} + {self.expr(t, env, d - 1)})'
            if k < .6:
                return f'string(rune({self.expr("uint16", env, d - 1)}))'
            if k < .75:
                x = self.place(env, t)
                if x:
                    return f'{x}[:uint({self.r.randint(0, 4)})%uint(len({x})+1)]' if self.r.random() < .5 else \
                        f'{x}[uint({self.r.randint(0, 4)})%uint(len({x})+1):]'
            if k < .8:
                return f'string(append([]byte(nil), {self.expr(t, env, d - 1)}...))'
            return self.constant(t)
        if k < .5:
            op = self.r.choice(['+', '-', '*', '&', '|', '^', '&^', '+', '-', '*'])
            return f'({self.expr(t, env, d - 1)} {op} {self.expr(t, env, d - 1)})'
        if k < .58:
            return f'({self.expr(t, env, d - 1)} {self.r.choice(["/", "%"])} ({self.expr(t, env, d - 1)} | 1))'
        if k < .66:
            u = self.r.choice(INTS)
            return f'({self.expr(t, env, d - 1)} {self.r.choice(["<<", ">>"])} ({self.expr(u, env, 1)} & 63))'
        if k < .76:
            u = self.r.choice(INTS)
            return f'{t}({self.expr(u, env, d - 1)})'
        if k < .82:
            x = self.place(env, t)
            return f'({self.r.choice(["-", "^", "+"])}{x})' if x else self.constant(t)
        if t == 'int' and k < .92:
            for x, u in self.r.sample(env, len(env)):
                if u == 'string' or not isinstance(u, str) and u[0] in ('slice', 'array', 'map'):
                    return f'len({x})'
        if t == 'uint8' and k < .92:
            x = self.place(env, 'string')
            if x:
                return f'({x}+"z")[uint({self.expr(self.r.choice(INTS), env, 1)})%uint(len({x})+1)]'
        if k < .94:
            return f'func() {t} {{ return {self.expr(t, env, d - 1)} }}()'
        return self.constant(t)

    def condition(self, env, d):
        k = self.r.random()
        if d > 0 and k < .25:
            return f'({self.condition(env, d - 1)} {self.r.choice(["&&", "||"])} {self.condition(env, d - 1)})'
        if d > 0 and k < .35:
            return f'!({self.condition(env, d - 1)})'
        t = self.r.choice(INTS + ['string', 'string'])
        x = self.place(env, t)
        if k < .45:
            for y, u in self.r.sample(env, len(env)):
                if not isinstance(u, str) and u[0] in ('struct', 'array', 'pointer') and self.compares(u):
                    return f'({y} {self.r.choice(["==", "!="])} {self.expr(u, env, 1)})'
        if not x:
            return f'c_bool({self.r.choice(["true", "false"])})'
        return f'({x} {self.r.choice(["==", "!=", "<", "<=", ">", ">="])} {self.expr(t, env, 1)})'

    def made(self, t, env, d):
        kind = t[0]
        c = self.call(t, env, d) if d > 1 and self.r.random() < .2 else None
        if c:
            return c
        if kind == 'struct':
            fields = self.structs[t[1]]
            if self.r.random() < .3:
                return f'(S{t[1]}{{{", ".join(self.expr(f, env, d - 1) for _, f in fields)}}})'
            given = [f'{x}: {self.expr(f, env, d - 1)}' for x, f in self.r.sample(fields, len(fields))
                     if self.r.random() < .7 or self.needs_value(f)]
            return f'(S{t[1]}{{{", ".join(given)}}})'
        if kind == 'named':
            return f'N{t[1]}({self.expr(self.nameds[t[1]], env, d)})'
        if kind == 'slice':
            x = self.place(env, t)
            if x and self.r.random() < .2:
                return f'append({x}[:len({x}):len({x})], {self.expr(t[1], env, d - 1)})'
            if x and self.r.random() < .2:
                return f'{x}[:1+uint({self.r.randint(0, 3)})%uint(len({x}))]'
            return f'{self.name(t)}{{{", ".join(self.literal(t[1], env, d - 1) for _ in range(self.r.randint(1, 3)))}}}'
        if kind == 'array':
            n = t[1] if self.needs_value(t[2]) else self.r.randint(0, t[1])
            return f'({self.name(t)}{{{", ".join(self.literal(t[2], env, d - 1) for _ in range(n))}}})'
        if kind == 'map':
            if self.r.random() < .2:
                return f'make({self.name(t)}{self.r.choice(["", ", 4"])})'
            keys = sorted({self.key(t[1]) for _ in range(self.r.randint(1, 2))})
            return f'{self.name(t)}{{{", ".join(f"{k}: {self.literal(t[2], env, d - 1)}" for k in keys)}}}'
        if kind == 'pointer':
            x = self.place(env, t)
            if x and self.r.random() < .5:
                return x
            u = t[1]
            if u[0] == 'struct':
                e = self.made(u, env, d)
                return f'&{e[1:-1]}' if e.startswith(f'(S{u[1]}{{') and self.r.random() < .6 else f'new_S{u[1]}({e})'
            x = self.fresh('w')
            return f'func({x} {self.name(u)}) *{self.name(u)} {{ return &{x} }}({self.expr(u, env, d - 1)})'
        if kind == 'func':
            x = self.fresh('a')
            inside = env + [(x, t[1])]
            return f'func({x} {self.name(t[1])}) {self.name(t[2])} {{ return {self.expr(t[2], inside, d - 1)} }}'
        if kind == 'shape':
            k = self.r.randrange(len(self.structs))
            return f'Shape({self.expr(self.r.choice([("struct", k), ("pointer", ("struct", k))]), env, d - 1)})'
        return f'interface{{}}({self.expr(self.type(1), env, d - 1)})'

    # An element, whose type may be left out where it is a literal itself.
    def literal(self, t, env, d):
        e = self.expr(t, env, d)
        head = '(' + self.name(t) + '{'
        return e[len(head) - 1:-1] if e.startswith(head) and e.endswith('})') and self.r.random() < .4 else e

    def key(self, t):
        if t == 'string':
            return f'"{self.r.choice(WORDS)}"'
        if t == 'bool':
            return self.r.choice(['true', 'false'])
        if isinstance(t, str):
            return str(self.r.randint(0, 9))
        if t[0] == 'struct':
            return f'S{t[1]}{{}}'
        return f'{self.name(t)}{{{self.r.randint(-3, 3)}, {self.r.randint(-3, 3)}}}'

    # ---- what values hold

    def shows(self, env, names):
        types = dict(env)
        return [f'{self.show(types[x])}({x})' for x in names]

    def shows_of(self, env, t, places):
        return [f'{self.show(t)}({x})' for x in places]

    def show(self, t):
        n = self.name(t)
        if n not in self.shown_types:
            self.shown_types[n] = (f'show{len(self.shown_types)}', [])
            self.shown_types[n][1].extend(self.show_body(t))
        return self.shown_types[n][0]

    def show_body(self, t):
        u = self.under(t)
        if isinstance(u, str):
            return ['println(x)']
        kind = u[0]
        if kind == 'struct':
            return [f'{self.show(f)}(x.{name})' for name, f in self.structs[u[1]]]
        if kind in ('slice', 'array'):
            e = u[-1]
            return ['println(len(x))', f'for _, e := range x {{ {self.show(e)}(e) }}']
        if kind == 'map':
            keys = {'string': [f'"{w}"' for w in WORDS], 'bool': ['true', 'false'], 'uint8': range(10), 'int': range(10), 'int64': range(10)}
            some = keys.get(u[1] if isinstance(u[1], str) else '', [])
            out = ['println(len(x))']
            if some:
                out.append(f'for _, k := range []{self.name(u[1])}{{{", ".join(str(k) for k in some)}}} {{ if e, ok := x[k]; ok {{ {self.show(u[2])}(e) }} }}')
            elif u[2] in INTS:
                out += [f'var s {u[2]}', 'for _, e := range x { s += e }', 'println(s)']
            return out
        if kind == 'pointer':
            return ['if x == nil {', '\tprintln("nil")', '\treturn', '}', f'{self.show(u[1])}(*x)']
        if kind == 'func':
            zero = {'string': '"q"', 'bool': 'true'}.get(u[1], '3')
            return [f'if x != nil {{ println(x({zero})) }}']
        out = ['switch y := x.(type) {', 'case nil:', '\tprintln("nil")']
        kinds = [('struct', k) for k in range(len(self.structs))]
        for v in kinds if kind == 'shape' else kinds + ['int', 'string', 'bool', 'uint8']:
            out += [f'case {self.name(v)}:', f'\t{self.show(v)}(y)']
        return out + ['default:', '\tprintln("else")', '}']

    # ---- statements

    def declared(self, env, p, t, e):
        x = self.fresh()
        env.append((x, t))
        return [f'{p}var {x} {self.name(t)} = {e}', f'{p}_ = {x}']

    def shown(self, env, p):
        if env and self.r.random() < .4:
            return [p + line for line in self.shows(env, [self.r.choice(env)[0]])]
        xs = []
        for _ in range(self.r.randint(1, 3)):
            t = self.scalar()
            xs.append(self.place(env, t) or self.constant(t))
        return [f'{p}println({", ".join(xs)})']

    def settable(self, env):
        return [(x, t) for x, t in env if x[0] in 'vpgn']

    def stmts(self, env, d, results, ind, loops):
        out, env, p = [], list(env), '\t' * ind
        for _ in range(self.r.randint(1, 4)):
            out += self.stmt(env, d, results, ind, loops, p)
        return out

    def stmt(self, env, d, results, ind, loops, p):
        k = self.r.random()
        if k < .14:
            t = self.type()
            return self.declared(env, p, t, self.expr(t, env, 3))
        if k < .3:
            return self.assignment(env, p)
        if k < .36:
            return self.shown(env, p)
        if k < .44 and d > 0:
            if self.r.random() < .3:
                x, t = self.fresh(), self.type(1)
                head = f'{x} := ({self.expr(t, env, 2)})'
                inside = env + [(x, t)]
                return [f'{p}if {head}; {self.flat(inside)} {{', f'{p}\t_ = {x}'] + self.stmts(inside, d - 1, results, ind + 1, loops) + \
                    [f'{p}}} else {{', f'{p}\t_ = {x}'] + self.stmts(inside, d - 1, results, ind + 1, loops) + [f'{p}}}']
            out = [f'{p}if {self.flat(env)} {{'] + self.stmts(env, d - 1, results, ind + 1, loops)
            for _ in range(self.r.choice([0, 0, 0, 1, 2])):
                out += [f'{p}}} else if {self.flat(env)} {{'] + self.stmts(env, d - 1, results, ind + 1, loops)
            if self.r.random() < .5:
                out += [f'{p}}} else {{'] + self.stmts(env, d - 1, results, ind + 1, loops)
            return out + [f'{p}}}']
        if k < .53 and d > 0:
            return self.loop(env, d, results, ind, loops, p)
        if k < .57 and d > 0:
            return self.switch(env, d, results, ind, loops, p)
        if k < .6 and loops and self.r.random() < .6:
            label = self.r.choice(loops + [''])
            word = self.r.choice(['break', 'continue'])
            return [f'{p}if {self.flat(env)} {{ {word} {label} }}']
        if k < .62 and results is not None:
            return [f'{p}if {self.flat(env)} {{ return {", ".join(self.expr(t, env, 2) for t in results)} }}']
        if k < .66:
            return self.protected(env, d, ind, p) if d > 0 else self.shown(env, p)
        if k < .72:
            return self.many(env, p)
        return self.form(env, p)

    # A condition without a composite literal that could be taken for a block.
    def flat(self, env, d=2):
        c = self.condition(env, d)
        return c if '{' not in c else f'({c})'

    def assignment(self, env, p):
        can = self.settable(env)
        if not can:
            return self.shown(env, p)
        x, t = self.r.choice(can)
        if not isinstance(t, str) and self.r.random() < .6:
            t = self.scalar()
            x = self.place(can, t)
            if not x:
                return self.change(env, p)
        if t == 'string':
            return [f'{p}{x} {self.r.choice(["=", "=", "+="])} clip({self.expr(t, env, 2)})', f'{p}{x} = clip({x})']
        if t in INTS and self.r.random() < .3:
            op = self.r.choice(['+=', '-=', '*=', '^=', '|=', '&=', '&^='])
            return [f'{p}{x} {op} {self.expr(t, env, 2)}']
        if t in INTS and self.r.random() < .2:
            op = self.r.choice(['/=', '%=', '<<=', '>>='])
            return [f'{p}{x} {op} ({self.expr(t, env, 2)} | 1)' if op[0] in '/%' else f'{p}{x} {op} ({self.expr(self.r.choice(INTS), env, 2)} & 63)']
        if t in INTS and self.r.random() < .2:
            return [f'{p}{x}{self.r.choice(["++", "--"])}']
        if self.r.random() < .2:
            y, u = self.r.choice(can)
            if y != x and u != 'string':
                return [f'{p}{x}, {y} = {self.expr(t, env, 2)}, {self.expr(u, env, 2)}']
        return [f'{p}{x} = {self.expr(t, env, 3)}']

    # Maps, appends, copies.
    def change(self, env, p):
        for x, t in self.r.sample(env, len(env)):
            if isinstance(t, str):
                continue
            if t[0] == 'map':
                if self.r.random() < .3:
                    return [f'{p}delete({x}, {self.expr(t[1], env, 1)})']
                v = self.expr(t[2], env, 2)
                return [f'{p}if {x} != nil {{ {x}[{self.expr(t[1], env, 1)}] = {f"clip({v})" if t[2] == "string" else v} }}',
                        f'{p}println(len({x}))']
            if t[0] == 'slice' and x[0] in 'vpg':
                if self.r.random() < .4:
                    return [f'{p}println(copy({x}, {self.expr(t, env, 2)}))']
                return [f'{p}if len({x}) < 20 {{ {x} = append({x}[:len({x}):len({x})], {self.expr(t[1], env, 2)}) }}', f'{p}println(len({x}))']
        return self.shown(env, p)

    def loop(self, env, d, results, ind, loops, p):
        label = self.fresh('L') if self.r.random() < .3 else ''
        head = [f'{p}{label}:'] if label else []
        inner = loops + ([label] if label else [])
        used = [f'{p}\tif false {{ continue {label} }}'] if label else []
        over = [(x, t) for x, t in env if t == 'string' or not isinstance(t, str) and self.under(t)[0] in ('slice', 'array')]
        maps = [(x, t) for x, t in env if not isinstance(t, str) and t[0] == 'map' and t[2] in INTS]
        k = self.r.random()
        if maps and k < .25:
            x, t = self.r.choice(maps)
            s, v = self.fresh(), self.fresh('i')
            env.append((s, t[2]))
            return [f'{p}var {s} {t[2]}', f'{p}for _, {v} := range {x} {{ {s} += {v} }}', f'{p}println({s})']
        if over and k < .6:
            x, t = self.r.choice(over)
            i, e = self.fresh('i'), self.fresh('e')
            el = 'int32' if t == 'string' else self.under(t)[-1]
            inside = env + [(i, 'int'), (e, el)]
            return head + [f'{p}for {i}, {e} := range {x} {{', f'{p}\t_, _ = {i}, {e}'] + used + \
                self.stmts(inside, d - 1, results, ind + 1, inner) + [f'{p}}}']
        t = self.r.choice(['int', 'int8', 'uint8', 'int64', 'uint16', 'uint64'])
        i = self.fresh('i')
        if k < .7:
            return head + [f'{p}{i} := {t}({self.r.randint(1, 3)})', f'{p}for {{', f'{p}\tif {i} == 0 {{ break }}', f'{p}\t{i}--'] + used + \
                self.stmts(env + [(i, t)], d - 1, results, ind + 1, inner) + [f'{p}}}'] if not head else \
                [f'{p}{i} := {t}({self.r.randint(1, 3)})'] + head + [f'{p}for {i} > 0 {{', f'{p}\t{i}--'] + used + \
                self.stmts(env + [(i, t)], d - 1, results, ind + 1, inner) + [f'{p}}}']
        return head + [f'{p}for {i} := {t}(0); {i} < {self.r.randint(1, 3)}; {i}++ {{'] + used + \
            self.stmts(env + [(i, t)], d - 1, results, ind + 1, inner) + [f'{p}}}']

    def switch(self, env, d, results, ind, loops, p):
        anys = [(x, t) for x, t in env if t in (('shape',), ('any',))]
        if anys and self.r.random() < .6:
            x, t = self.r.choice(anys)
            y = self.fresh('y')
            out = [f'{p}switch {y} := {x}.(type) {{']
            kinds = [('struct', k) for k in range(len(self.structs))] if t == ('shape',) else \
                self.r.sample(INTS + ['string', 'bool'], 3) + [('struct', 0)]
            for u in kinds:
                out += [f'{p}case {self.name(u)}:', f'{p}\t_ = {y}'] + \
                    self.stmts(env + [(y, u)], d - 1, results, ind + 1, [])
            return out + [f'{p}case nil, *S0, error:', f'{p}\tprintln({y} == nil)' if t == ('any',) else f'{p}\tprintln("few")'] + \
                [f'{p}default:', f'{p}\t_ = {y}', f'{p}\tprintln("other")', f'{p}}}'] if t == ('any',) else \
                out + [f'{p}default:', f'{p}\t_ = {y}', f'{p}\tprintln("other")', f'{p}}}']
        t = self.r.choice(INTS)
        x = self.place(env, t) or self.constant(t)
        out = [f'{p}switch {x} & 3 {{']
        many = self.r.randint(1, 3)
        for c in range(many):
            out += [f'{p}case {c}:'] + self.stmts(env, d - 1, results, ind + 1, [])
            if self.r.random() < .2:
                out.append(f'{p}\tfallthrough')
        return out + [f'{p}default:'] + self.stmts(env, d - 1, results, ind + 1, []) + [f'{p}}}']

    # A function literal that recovers, with results that it may change.
    def protected(self, env, d, ind, p):
        x, t = self.fresh('n'), self.scalar()
        if self.r.random() < .4:
            f, a = self.fresh('pr'), self.fresh('p')
            inside = env + [(a, t)]
            return [f'{p}var {f} = func({a} {self.name(t)}) {self.name(t)} {{'] + \
                self.stmts(inside, d - 1, [t], ind + 1, []) + \
                [f'{p}\treturn {self.expr(t, inside, 2)}', f'{p}}}', f'{p}println({f}({self.expr(t, env, 1)}))', f'{p}println({f}({self.expr(t, env, 1)}))']
        body = self.stmts(env, d - 1, [t], ind + 1, [])
        risk = self.r.choice(['panic("told")', 'panic(7)', 'var q []int; println(q[len(q)])', 'var q *S0; println(q.area(1))',
                              'var q map[string]int; q["a"] = 1', 'z := 0; println(1 / z)', 'var q Shape; println(q.area(1))', 'var q func(); q()',
                              'var q interface{} = 1; println(q.(string))', 'q := []int{1}; println(len(q[2-len(q)+1:]))', 'q := -len(clip("a")); println(1 << q)',
                              'q := -len(clip("a")); println(len(make([]int, q)))', 'var q interface{} = []int{}; println(q == q)', 'var q Shape; println(q.(S0).area(1))',
                              'q := [3]int{}; println(q[len(clip("abc"))])', 'q := "abc"; println(q[len(q)])', 'q := "abc"; println(q[len(q)+1:])', 'var q *[3]int; println(q[1])',
                              'var q *int; *q = 1', 'q := make(chan int); close(q); close(q)', 'var q *[3]int; for i := range q { println(i) }; for i, e := range q { println(i, e) }', ''])
        return [f'{p}println(func() ({x} {self.name(t)}) {{',
                f'{p}\tdefer func() {{ if r := recover(); r != nil {{ println("caught"); {x} = {self.expr(t, env, 1)} }} }}()'] + \
            body + [f'{p}\tif {self.flat(env)} {{ {risk} }}', f'{p}\treturn {self.expr(t, env, 2)}', f'{p}}}())']

    # Calls that stand alone, since they may change what they are given, and all variables of the package.
    def many(self, env, p):
        if self.r.random() < .4:
            k = self.r.randrange(len(self.structs))
            x = self.place(self.settable(env), ('struct', k)) or self.place(env, ('pointer', ('struct', k)))
            if x and k < len(self.methods):
                t, u = self.methods[k]
                y = self.fresh()
                out = [f'{p}{y} := {x}.set{k}({self.expr(u, env, 2)})', f'{p}println({y})']
                env.append((y, t))
                return out
        some = self.funcs if self.pure else self.funcs + self.changers
        if not some:
            return self.shown(env, p)
        name, ps, rs = self.r.choice(some)
        xs = [(self.fresh(), t) for t in rs]
        out = [f'{p}{", ".join(x for x, _ in xs)} := {name}({", ".join(self.expr(t, env, 2) for t in ps)})']
        out += [f'{p}_ = {x}' for x, _ in xs]
        env += xs
        return out

    # ---- declarations

    def function(self, i, pure):
        self.pure = pure
        ps = [self.type() for _ in range(self.r.randint(0, 3))]
        if pure:
            ps = [t for t in ps if self.is_alone(t)]
        rs = [self.type() for _ in range(self.r.randint(1, 2))]
        env = ([] if pure else self.globals) + [(f'p{i}_{j}', t) for j, t in enumerate(ps)]
        name = f'{"f" if pure else "h"}{i}'
        body = self.stmt(env, 1, rs, 1, [], '\t') if self.small else self.stmts(env, 1, rs, 1, [])
        head = ', '.join(f'p{i}_{j} {self.name(t)}' for j, t in enumerate(ps))
        self.pure = False
        last = ", ".join(self.expr(t, env, 2) for t in rs)
        (self.funcs if pure else self.changers).append((name, ps, rs))
        return [f'func {name}({head}) ({", ".join(self.name(t) for t in rs)}) {{'] + body + [f'\treturn {last}', '}', '']

    def struct(self, k):
        fields = [(f'f{k}_{i}', t) for i, t in enumerate([self.r.choice(INTS)] + [self.type(1) for _ in range(self.r.randint(0, 3))])
                  if t not in (('shape',), ('any',))]
        if k > 0 and self.r.random() < .5:
            j = self.r.randrange(k)
            fields.insert(self.r.randint(1, len(fields)), (f'S{j}', self.r.choice([('struct', j), ('struct', j), ('pointer', ('struct', j))])))
        self.structs.append(fields)
        lines = [f'\t{self.name(t)}' if f[0] == 'S' else f'\t{f} {self.name(t)}' for f, t in fields]
        return [f'type S{k} struct {{'] + lines + ['}', '', f'func new_S{k}(s S{k}) *S{k} {{ return &s }}', '']

    def struct_methods(self, k):
        self.pure = True
        env = [('p0', ('struct', k)), ('p1', 'int')]
        out = [f'func (p0 S{k}) area(p1 int) int {{', f'\treturn {self.expr("int", env, 2)}', '}', '']
        t, u = self.scalar(), self.scalar()
        env = [('p0', ('pointer', ('struct', k))), ('p1', u)]
        out += [f'func (p0 *S{k}) set{k}(p1 {u}) {t} {{'] + (self.assignment(env, '\t') if self.small else self.stmts(env, 1, [t], 1, [])) + [f'\treturn {self.expr(t, env, 2)}', '}', '']
        f, v = self.structs[k][0]
        out += [f'func (p0 *S{k}) mark(p1 int) {{', f'\tp0.{f} = p0.{f}*3 + {v}(p1)', f'\tprintln("mark", p0.{f})', '}', '']
        self.methods.append((t, u))
        self.pure = False
        return out

    def named(self, k):
        t = self.type(1)
        while t[0] in ('func', 'pointer', 'shape', 'any', 'named'):
            t = self.type(1)
        self.nameds.append(t)
        env = [('p0', ('named', k)), ('p1', 'int')]
        w, u = self.changeable('p0', t)
        change = [f'\t{w} = {self.expr(u, env[1:], 1)}'] if w and self.is_alone(t) and w != 'p0' else []
        return [f'type N{k} {self.name(t)}', '', f'func (p0 N{k}) more(p1 int) int {{'] + change + [f'\treturn {self.expr("int", env, 2)}', '}', '',
                f'func (p0 N{k}) again() N{k} {{ return p0 }}', '']

    # Variables of the package that need each other, in any order, by themselves and through functions.
    def ordered(self):
        n = self.r.randint(3, 6)
        out, text = [], []
        for i in range(n):
            needs = self.r.sample(range(i), min(i, self.r.randint(0, 2)))
            e = ' + '.join([str(i)] + [f'{self.r.choice(["o{0}", "get{0}()", "(&o{0}t).get()", "func() int {{ return o{0} }}()"]).format(j)}' for j in needs])
            kind = self.r.randrange(3)
            if kind == 0:
                text.append([f'var o{i} = traced("o{i}", {e})', f'var o{i}t OT = OT{{o{i}}}', ''])
            elif kind == 1:
                text.append([f'var o{i}, o{i}t = func() (int, OT) {{ x := traced("o{i}", {e}); return x, OT{{x}} }}()', ''])
            else:
                text.append(['var (', f'\to{i}t = OT{{o{i}}}', f'\to{i} int = traced("o{i}", {e})', ')', ''])
            text.append([f'func get{i}() int {{ return o{i} }}', ''])
        text.append(['func init() { println("init") }', ''])
        text.append(['func init() { println("init", ' + ', '.join(f'o{i}' for i in range(n)) + ') }', ''])
        self.r.shuffle(text)
        head = ['type OT struct { v int }', '', 'func (p0 *OT) get() int { return p0.v }', '', 'func traced(s string, x int) int { println(s, x); return x }', '']
        for lines in text:
            out += lines
        return head + out

    # Two more packages: `lib` imports `base`, and the program both.
    def packages(self):
        e = lambda t, env=[]: self.quietly(t, env, 2)
        t, u = self.r.choice(INTS), self.scalar()
        helpers = [f'func c_{v}(x {v}) {v} {{ return x }}' for v in INTS + ['bool']] + ['']
        base = ['package base', ''] + helpers + ['type B struct {', f'\tX {t}', f'\tY {u}', '\thidden int', '}', '', f'var Given = Make({e(t)}, {e(u)})', '', f'var count = {e("int")}', '',
                f'func Make(x {t}, y {u}) B {{ println("make", x, y); count++; return B{{x, y, count}} }}', '', 'func (b B) Area(x int) int { return b.hidden + x }', '',
                f'func (b *B) Set(x {t}) *B {{ b.X, b.hidden = x, b.hidden+1; return b }}', '', 'func init() { println("base", count) }', '',
                'type Area interface { Area(x int) int; private() }', '', 'func (b B) private() { println("private", b.hidden) }', '', 'func Use(a Area) { a.private(); println(a.Area(1)) }', '',
                'const (', '\tFirst = iota + 1', '\tSecond', ')', '', 'type Kind uint8', '', 'const Third Kind = Second + 1', '', 'func (k Kind) String() string { return string(rune(k) + 64) }', '']
        lib = ['package lib', '', 'import "base"', ''] + helpers + ['type L struct {', '\tbase.B', '\tn int', '}', '', f'var All = []L{{{{base.Make({e(t)}, {e(u)}), 1}}, {{B: base.Given}}}}', '',
               'func New(n int) *L { return &L{n: n} }', '', f'func (l L) Twice() int {{ return l.n*2 + base.Second + l.Area({e("int")}) }}', '', 'func init() { println("lib", len(All), All[0].Twice()) }', '']
        use = ['func packed() {', '\tx := lib.All[0]', f'\tx.Set({e(t)}).Set({e(t)})', '\tprintln(x.X, x.Y, x.Twice(), lib.All[0].X, lib.All[0].Twice(), base.Given.X)', '\tbase.Use(x)', '\tbase.Use(&x.B)',
               '\tvar k interface{ String() string } = base.Third', '\tprintln(k.String(), base.Third, base.First)', f'\ty := base.Make({e(t)}, {e(u)})', '\ty, x.B = x.B, y', '\tprintln(y == x.B, y.X, x.X, lib.New(3).Twice())',
               '\t_, ok := interface{}(x).(base.Area)', '\tprintln(ok)', '}', '']
        self.libs = {'base': '\n'.join(base), 'lib': '\n'.join(lib)}
        return use

    # One special form, the next with each seed, and a statement or two around it.
    def small_body(self):
        env = list(self.globals)
        kinds = self.kinds()
        forms = [kinds[self.seed // 4 % len(kinds)], self.r.choice(kinds)]
        out = [line for _ in range(self.r.randint(0, 2)) for line in self.stmt(env, 1, None, 1, [], '\t')]
        for form in forms[:self.r.randint(1, 2)]:
            out += ['\t' + line for line in form(env)]
        return out + self.shown(env, '\t')

    def program(self):
        self.libs = {}
        many = lambda most: self.r.randint(0, most) if self.small else self.r.randint(1, 3)
        out = [f'func c_{t}(x {t}) {t} {{ return x }}' for t in INTS + ['bool']] + ['']
        out += ['func clip(s string) string { if len(s) > 40 { return s[:40] }; return s }', '', 'type Shape interface { area(x int) int }', '']
        for k in range(1 + many(1) if self.small else many(3)):
            out += self.struct(k)
        for k in range(self.r.randint(0, 2)):
            out += self.named(k)
        for k in range(len(self.structs)):
            out += self.struct_methods(k)
        for i in range(many(1)):
            out += self.function(i, True)
        for _ in range(self.r.randint(0, 1 if self.small else 2)):
            t, x = self.type(), self.fresh('g')
            out += [f'var {x} {self.name(t)} = {self.expr(t, [], 2)}', '']
            self.globals.append((x, t))
        for i in range(0 if self.small else self.r.randint(0, 2)):
            out += self.function(i, False)
        ordered = self.ordered() if self.r.random() < (.03 if self.small else .3) else []
        packed = self.packages() if self.r.random() < (.02 if self.small else .2) else []
        body = self.small_body() if self.small else [line for _ in range(3) for line in self.stmts(self.globals, 2, None, 1, [])]
        out += ['func main() {'] + (['\tpacked()'] if packed else []) + body
        out += ['\t' + line for line in self.shows(self.globals, [x for x, _ in self.globals])] + ['\tprintln("end")', '\t' + self.ending(), '}', '']
        out += KIT.split('\n') if self.kit else []
        for n, (f, body) in sorted(self.shown_types.items()):
            out += [f'func {f}(x {n}) {{'] + ['\t' + line for line in body] + ['}', '']
        files = {'main.go': self.file(out)}
        if ordered:
            cut = self.r.randint(0, len(ordered))
            while cut < len(ordered) and ordered[cut] != '':
                cut += 1
            files['a.go'], files['z.go'] = self.file(ordered[:cut]), self.file(ordered[cut:])
        if packed:
            files['b.go'] = self.file(packed, ['base', 'lib'])
        return files, self.libs

    def file(self, lines, more=[]):
        text = '\n'.join(lines)
        imports = sorted(i for i in self.imports if i + '.' in text) + more
        return 'package main\n\n' + ''.join(f'import "{i}"\n' for i in imports) + '\n' + text + '\n'


def write(path, text):
    os.makedirs(os.path.dirname(path), exist_ok=True)
    with open(path, 'w') as f:
        f.write(text)


# Names of the package, with the program's number, so that many programs are one package for the Go toolchain.
NAMES = re.compile(r'\b(' + '|'.join(KIT_NAMES) + r'|c_\w+|clip|Shape|(?:new_)?S\d+|N\d+|[fhg]\d+|show\d+)\b')


def numbered(text, n):
    told = lambda mark: f'var _ = func() int {{ println("{mark}{n}"); return 0 }}()\n'
    head, body = re.match(r'(package \w+\n\n(?:import "\w+"\n)*)(.*)', text, re.S).groups()
    body = NAMES.sub(lambda name: f'{name.group()}_p{n}', body).replace('func main()', f'func Main{n}()', 1)
    return head + '\n' + told('>>') + body + '\n' + told('<<')


# What each package of the Go toolchain's module tells before and after its initialisation.
def marked(folder, package, n):
    write(f'{folder}/0.go', f'package {package}\n\nvar _ = func() int {{ println(">>{n}"); return 0 }}()\n')
    write(f'{folder}/zz.go', f'package {package}\n\nfunc init() {{ println("<<{n}") }}\n')


def main():
    folder, seed, count, small = sys.argv[1], int(sys.argv[2]), int(sys.argv[3]), sys.argv[4:] == ['small']
    for n in range(seed, seed + count):
        files, libs = Maker(n, small).program()
        if small and len(files) == 1:
            write(f'{folder}/p{n}/main.go', files['main.go'])
            text = numbered(files['main.go'], n)
            write(f'{folder}/all/p{n}.go', text)
            write(f'{folder}/go/b{n // 50}/p{n}.go', text.replace('package main', f'package b{n // 50}', 1))
            continue
        within = lambda text: re.sub(r'import "(base|lib)"', f'import "whole/p{n}/\\1"', text)
        for name, text in files.items():
            write(f'{folder}/p{n}/{name}', text)
            text = within(text).replace('package main', f'package p{n}', 1).replace('func main()', 'func Main()', 1)
            write(f'{folder}/go/p{n}/{name}', text)
        for name, text in libs.items():
            write(f'{folder}/p{n}/src/{name}/{name}.go', text)
            write(f'{folder}/go/p{n}/{name}/{name}.go', within(text))
            marked(f'{folder}/go/p{n}/{name}', name, n)
        marked(f'{folder}/go/p{n}', f'p{n}', n)
    write(f'{folder}/go/go.mod', 'module whole\n\ngo 1.17\n')


main()
