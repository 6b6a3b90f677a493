"""Rows at the limit of functions: usage rows.py PROGRAM. Each is one file with `main`, so many functions `_` and then a last one, with and
without a struct beside them; what `build` tells of it is compared with what was worked out by hand."""
import os
import subprocess
import sys
import tempfile

TOO_MANY = "main.go:65538:1: too many functions"
FAULTY = "main.go:65540:16: constant does not fit its type"

# `main` stands in line 3, the others from line 4 on: with 65534 of them before it, the last one is the 65536th and stands in
# line 65538. The compiler makes two functions more, which count where nothing else is told.
ROWS = [
    ("no more than may be", 65531, "func _() { }", "", ""),
    ("too many with the two of the compiler", 65532, "func _() { }", "", "main.go:1:1: too many functions"),
    ("one too many in the text", 65534, "func _() { }", "", TOO_MANY),
    ("one too many, with a result", 65534, "func _() int { return 1 }", "", TOO_MANY),
    ("one too many, of a typed constant", 65534, "func _() { println(c) }", "\nconst c int8 = 100\n", TOO_MANY),
    ("a fault in its body", 65534, "func _() { z() }", "", "main.go:65538:12: undefined: z"),
    ("its name is taken", 65534, "func main() { }", "", "main.go:65538:6: main redeclared"),
    ("a fault in its signature", 65534, "func _(x int, x int) { }", "", "main.go:65538:15: x redeclared"),
    ("its end is missing", 65534, "func _() int { }", "", "main.go:65538:16: missing return"),
    ("a variable is not used", 65534, "func _() { x := 4 }", "", "main.go:65538:12: x declared but not used"),
    ("a label is not used", 65534, "func _() { L: for { } }", "", "main.go:65538:12: label L defined and not used"),
    ("it uses a faulty constant", 65534, "func _() { println(c) }", "\nconst c int8 = 300\n", FAULTY),
    ("it assigns to a faulty constant", 65534, "func _() { c = 4 }", "\nconst c int8 = 300\n", FAULTY),
]


# What the checker of scalar programs leaves to that of the whole profile.
BESIDE = ("", "; var _ struct{}")


def told(program, beside, count, last, after):
    with tempfile.TemporaryDirectory() as folder:
        os.mkdir(f"{folder}/app")
        with open(f"{folder}/app/main.go", "w") as file:
            file.write(f"package main{beside}\n\nfunc main() {{ }}\n" + "func _() { }\n" * count + last + "\n" + after)
        ran = subprocess.run([program, "build", "app"], cwd=folder, capture_output=True, text=True)
        return (ran.stdout + ran.stderr).strip()


def main():
    program = os.path.abspath(sys.argv[1])
    failed = 0
    for beside in BESIDE:
        for name, count, last, after, wanted in ROWS:
            found = told(program, beside, count, last, after)
            if found != wanted:
                failed += 1
                print(f"{name}{beside}: told {found!r}, wanted {wanted!r}")
    print(f"{len(BESIDE) * len(ROWS) - failed} passed, {failed} failed")
    return failed != 0


sys.exit(main())
