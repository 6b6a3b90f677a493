"""Writes the rows as trees into crates/js_tree, where the check computes their texts and runs.

Run it after an edit of rows.txt: it writes specs/Engine*.antt and the proofs of src/laws.rt's
functions engine_*.
"""

import os
import re
import sys

from rows import HERE, rows

CRATE = os.path.join(HERE, "..", "..", "crates", "js_tree")
A_FILE = 15  # rows

TOKEN = re.compile(
    r'\s*(?:(\d+)|(\$[A-Za-z0-9_$]*)|([A-Za-z]+)|("(?:[^"\\]|\\x[0-9a-f]{2}|\\["\\])*")'
    r"|(>>>|===|!==|<=|>=|<<|>>|&&|\|\||[-+*/%&|^~!<>=?:;,.(){}\[\]]))"
)
LEVELS = [
    {"||": "either"},
    {"&&": "both"},
    {"|": "BitOr"},
    {"^": "BitXor"},
    {"&": "BitAnd"},
    {"===": "Same", "!==": "Different"},
    {"<": "Less", "<=": "LessEqual", ">": "Greater", ">=": "GreaterEqual", "in": "In"},
    {"<<": "ShiftLeft", ">>": "ShiftRight", ">>>": "ShiftRightUnsigned"},
    {"+": "Add", "-": "Subtract"},
    {"*": "Multiply", "/": "Divide", "%": "Remainder"},
]
SIGNS = {"-": "Negate", "~": "Complement", "!": "Not"}


def tokens(text):
    text, at, found = text.rstrip(), 0, []
    while at < len(text):
        m = TOKEN.match(text, at)
        found.append(m.group().strip())
        at = m.end()
    return found


def byte_list(data):
    """A text by its letters where it has only plain ones, else by its bytes."""
    if all(32 <= c < 127 or c == 10 for c in data):
        shown = data.decode().replace("\\", "\\\\").replace('"', '\\"').replace("\n", "\\n")
        return f'(codes "{shown}")' if data else "[]"
    return "(" + "".join(f"{c} ∷ " for c in data) + "[])"


def string_bytes(token):
    undo = lambda m: chr(int(m.group(1), 16)) if m.group(1) else m.group(2)
    return re.sub(r'\\x([0-9a-f]{2})|\\(["\\])', undo, token[1:-1]).encode("latin1")


class Reader:
    """A reader of the subset, which trusts its input."""

    def __init__(self, text):
        self.tokens, self.at = tokens(text), 0

    def peek(self, ahead=0):
        return self.tokens[self.at + ahead] if self.at + ahead < len(self.tokens) else ""

    def next(self):
        self.at += 1
        return self.tokens[self.at - 1]

    def skip(self, *wanted):
        for token in wanted:
            assert self.next() == token, (token, self.tokens[max(0, self.at - 5) : self.at + 3])

    def name(self):
        return f'(codes "{self.next()}")'

    def expr(self):
        test = self.chain(0)
        if self.peek() != "?":
            return test
        self.skip("?")
        left = self.expr()
        self.skip(":")
        return f"(choice 0 {test} {left} {self.expr()})"

    def chain(self, level):
        if level == len(LEVELS):
            return self.unary()
        left = self.chain(level + 1)
        while self.peek() in LEVELS[level]:
            op = LEVELS[level][self.next()]
            right = self.chain(level + 1)
            left = f"({op} 0 {left} {right})" if level < 2 else f"(binary 0 {op} {left} {right})"
        return left

    def unary(self):
        if self.peek() in SIGNS:
            return f"(unary 0 {SIGNS[self.next()]} {self.unary()})"
        return self.post()

    def post(self, stop=()):
        e = self.atom()
        while True:
            if self.peek() == "[":
                self.skip("[")
                i = self.expr()
                self.skip("]")
                if self.peek() in stop:
                    return e, i
                e = f"(index 0 {e} {i})"
            elif self.peek() == "(":
                e = f"(call 0 {e} {self.exprs('(', ')')})"
            elif self.peek() == ".":
                if self.peek(1) == "push":
                    return (e, None) if stop else e
                e = self.dotted(e)
            else:
                return (e, None) if stop else e

    def dotted(self, e):
        self.skip(".")
        word = self.next()
        if word == "length":
            return f"(length_of 0 {e})"
        self.skip("(")
        if word == "pop":
            self.skip(")")
            return f"(pop 0 {e})"
        i = self.expr()
        if word == "charCodeAt":
            self.skip(")")
            return f"(char_code_at 0 {e} {i})"
        self.skip(",")
        j = self.expr()
        self.skip(")")
        return f"(substring 0 {e} {i} {j})"

    def exprs(self, opened, closed):
        self.skip(opened)
        found = []
        while self.peek() != closed:
            if found:
                self.skip(",")
            found.append(self.expr())
        self.skip(closed)
        return "".join(f"(expr {e} " for e in found) + "no_exprs" + ")" * len(found)

    def atom(self):
        token = self.peek()
        if token == "(":
            self.skip("(")
            e = self.expr()
            self.skip(")")
            return e
        if token == "[":
            return f"(array 0 {self.exprs('[', ']')})"
        self.next()
        if token[0].isdigit():
            return f"(number 0 {token})"
        if token[0] == '"':
            return f"(string 0 {byte_list(string_bytes(token))})"
        if token in ("true", "false"):
            return f"(boolean 0 {token})"
        if token == "null":
            return "(null 0)"
        if token == "Object":
            self.skip(".", "create", "(", "null", ")")
            return "(dictionary 0)"
        if token == "String":
            word = "decimal_of"
            if self.peek() == ".":
                self.skip(".", "fromCharCode")
                word = "from_char_code"
            self.skip("(")
            e = self.expr()
            self.skip(")")
            return f"({word} 0 {e})"
        return f'(name 0 (codes "{token}"))'

    def block(self):
        self.skip("{")
        found = self.stmts("}")
        self.skip("}")
        return found

    def stmts(self, *ends):
        found = []
        while self.peek() not in ends:
            found.append(self.stmt())
        return "".join(f"(stmt {s} " for s in found) + "no_stmts" + ")" * len(found)

    def head(self):
        self.skip("(")
        e = self.expr()
        self.skip(")")
        return e

    def other(self):
        if self.peek() != "else":
            return "no_else"
        self.skip("else")
        if self.peek() != "if":
            return f"(else_block {self.block()})"
        self.skip("if")
        return f"(else_if 0 {self.head()} {self.block()} {self.other()})"

    def cases(self):
        if self.peek() == "}":
            return "no_cases"
        if self.next() == "default":
            self.skip(":")
            return f"(default {self.stmts('}')})"
        n = self.next()
        self.skip(":")
        body = self.stmts("case", "default", "}")
        return f"(case {n} {body} {self.cases()})"

    def jump(self, word):
        self.next()
        label = "None" if self.peek() == ";" else f"(Some {self.name()})"
        self.skip(";")
        return f"({word} 0 {label})"

    def stmt(self):
        label, word = "None", self.peek()
        if self.peek(1) == ":":
            label = f"(Some {self.name()})"
            self.skip(":")
            word = self.peek()
        if word == "while":
            self.next()
            return f"(while 0 {label} {self.head()} {self.block()})"
        if word == "for":
            self.skip("for", "(", ";", ";", ")")
            return f"(forever 0 {label} {self.block()})"
        if word == "switch":
            self.next()
            e = self.head()
            self.skip("{")
            cases = self.cases()
            self.skip("}")
            return f"(switch 0 {label} {e} {cases})"
        if word == "if":
            self.next()
            return f"(branch 0 {self.head()} {self.block()} {self.other()})"
        if word == "try":
            self.next()
            body = self.block()
            self.skip("catch", "(", "$catch", ")")
            return f"(attempt 0 {body} {self.block()})"
        if word in ("break", "continue"):
            return self.jump(word)
        s = self.simple(word)
        self.skip(";")
        return s

    def simple(self, word):
        if word == "return":
            self.next()
            return "(return 0 None)" if self.peek() == ";" else f"(return 0 (Some {self.expr()}))"
        if word == "throw":
            self.next()
            return f"(throw 0 {self.expr()})"
        if word == "delete":
            self.next()
            e, key = self.post(stop=(";",))
            return f"(remove 0 {e} {key})"
        if word == "var":
            self.next()
            x = self.name()
            self.skip("=")
            return f"(declare 0 {x} {self.expr()})"
        if self.peek(1) == "=":
            x = self.name()
            self.skip("=")
            return f"(assign 0 {x} {self.expr()})"
        e, i = self.post(stop=("=",))
        if i is not None:
            self.skip("=")
            return f"(store 0 {e} {i} {self.expr()})"
        if self.peek() == ".":
            self.skip(".", "push")
            return f"(push 0 {e} {self.head()})"
        return f"(perform 0 {e})"

    def function(self):
        self.skip("function")
        x, params = self.name(), []
        self.skip("(")
        while self.peek() != ")":
            if params:
                self.skip(",")
            params.append(self.name())
        self.skip(")")
        listed = "".join(f"{p} ∷ " for p in params) + "[]"
        return f"function_item (record {{ name = {x}; params = {listed}; body = {self.block()}; at = 0 }})"

    def script(self):
        items = []
        while self.peek(1) != "(":
            if self.peek() == "function":
                items.append(self.function())
            else:
                self.skip("var")
                x = self.name()
                self.skip("=")
                items.append(f"global_item 0 {x} {self.expr()}")
                self.skip(";")
        listed = "".join(f"{x} ∷ " for x in items) + "[]"
        return f"record {{ items = {listed}; start = {self.name()}; start_at = 0 }}"


SPEC = """-- Scripts that node and mujs ran as these rows say: {first} to {last}. Written by bench/engines/trees.py.
use Rattle.std.specs.Prelude.{{List, [], ◌∷◌, Option, Some, None, Bool, true, false, codes}}
use Rattle.js_tree.specs.Script.{{{words}}}
use Rattle.js_tree.specs.Agrees.{{Agrees}}
{ops}
{trees}
pub record {record} : Type 0 where
{fields}"""

PROOF = """use Rattle.std.proofs.Common.{{refl, List, [], ◌∷◌, codes}}
use Rattle.std.specs.Fmt.{{digits}}
use Rattle.js_tree.specs.Agrees.{{Agrees}}
use Rattle.js_tree.specs.Printed.{{{long}}}
use Rattle.js_tree.specs.{record}.{{{names}}}
use Rattle.js_tree.proofs.laws.{function}.Goals as goal

{lemmas}
pub returns : goal.returns
returns c = record {{
  rows = record {{
{fields}  }};
}}
"""

WORDS = "number string boolean null name unary binary both either choice call index length_of pop char_code_at substring array dictionary decimal_of from_char_code no_exprs expr declare assign store perform push remove branch while forever switch return throw break continue attempt no_stmts stmt no_else else_block else_if no_cases default case function_item global_item".split()
OPS = [op for level in LEVELS[2:] for op in level.values()]
LONG = "char_code_at_word substring_word dictionary_word string_word from_char_code_word catch_word preamble".split()


def used(words, text):
    return [w for w in words if re.search(rf"\b{w}\b", text)]


def agrees(row):
    choices = "".join(f"{n} ∷ " for n in row.choices) + "[]"
    choices = f"({choices})" if row.choices else choices
    parts = [choices, byte_list(row.body.encode()), byte_list(row.printed), str(row.status), byte_list(row.text)]
    return f"Agrees {row.name} " + " ".join(parts)


def operators(trees):
    found, lines = used(OPS, trees), ""
    if found:
        lines += f"use Rattle.js_tree.specs.declared.tree.BinaryOp.TheVariants.{{{', '.join(found)}}}\n"
    found = used(list(SIGNS.values()), trees)
    if found:
        lines += f"use Rattle.js_tree.specs.declared.tree.UnaryOp.TheVariants.{{{', '.join(found)}}}\n"
    return lines


def write_file(number, part):
    record, function = f"Engine{number}", f"engine_rows_{number}"
    trees = "".join(
        f"abbrev pub {row.name} : ScriptTree\n{row.name} = {Reader(row.body).script()}\n\n" for row in part
    )
    fields = "".join(f"  pub {row.name} : {agrees(row)}\n" for row in part)
    with open(os.path.join(CRATE, "specs", record + ".antt"), "w") as f:
        words = ", ".join(used(WORDS, trees) + ["ScriptTree"])
        ops = operators(trees)
        f.write(SPEC.format(first=part[0].name, last=part[-1].name, words=words, ops=ops, trees=trees, record=record, fields=fields))
    lemmas = "".join(
        f"{row.name}_agrees : {agrees(row)}\nunfolding digits {' '.join(LONG)}\n"
        f"{row.name}_agrees = record {{ text = refl; printable = refl; prints = refl; ends = refl }}\n\n"
        for row in part
    )
    fields = "".join(f"    {row.name} = {row.name}_agrees;\n" for row in part)
    folder = os.path.join(CRATE, "proofs", "laws", function)
    os.makedirs(folder, exist_ok=True)
    with open(os.path.join(folder, "Answers.antt"), "w") as f:
        names = ", ".join(row.name for row in part)
        f.write(PROOF.format(long=", ".join(LONG), record=record, names=names, function=function, lemmas=lemmas, fields=fields))


def main():
    found = rows()
    for number, at in enumerate(range(0, len(found), A_FILE), 1):
        write_file(number, found[at : at + A_FILE])


if __name__ == "__main__":
    sys.exit(main())
