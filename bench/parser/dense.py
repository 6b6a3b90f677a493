"""Writes one Go file of a million or more tokens that are all tree: `dense.py OUT KIND`."""
import sys

N = 1000000
TEXTS = {
    "arguments": "var x = f(" + "a," * N + ")\n",
    "calls": "func f() {" + "f(x);" * (N // 2) + "}\n",
    "constants": "const (\n" + "a=1\n" * (N // 2) + ")\n",
    "declarations": "var a b;" * (N // 4) + "\n",
    "elements": "var x = T{" + "1," * N + "}\n",
    "parentheses": "var x = " + "(" * (4 << 20) + "\n",
    "statements": "func f() {" + "a;" * N + "}\n",
}

with open(sys.argv[1], "w", encoding="ascii") as out:
    out.write("package p\n" + TEXTS[sys.argv[2]])
