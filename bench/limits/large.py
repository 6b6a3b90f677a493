"""Programs with much of one thing: usage large.py PROGRAM [SECONDS]. What `build` tells of each is compared with what was worked
out by hand, or with what the Go toolchain tells; each must end within SECONDS of processor time, by default 20."""
import os
import resource
import subprocess
import sys
import tempfile

MAIN = "\nfunc main() {\n\t%s\n}\n"


def lines(form, count):
    return "".join(form.format(i=i, next=i + 1, before=i - 1) + "\n" for i in range(count))


def fields(count):
    return "type T struct {\n" + lines("\tx{i} int", count) + "}\n" + MAIN % "var t T\n\tprintln(t.x%d)" % (count - 1)


def embedded(count, form):
    return "type T0 struct{ x int }\n\nfunc (*T0) m() {}\n\n" + "".join(
        form.format(i=i, before=i - 1) + "\n" for i in range(1, count + 1)) + MAIN % f"var t T{count}\n\tt.m()\n\tprintln(t.x)"


def promoted(count, on):
    methods = "type A struct{}\n\n" + lines("func (%s) m{i}() {{}}" % on, count) + "\ntype B struct{ A }\n"
    return methods + MAIN % f"var i interface{{ m0(); m{count - 1}() }} = &B{{}}\n\ti.m0()"


def wide(count):
    """Many types that embed one with many methods."""
    return "type A struct{}\n\n" + lines("func (A) m{i}() {{}}", 1000) + lines("type B{i} struct{{ A }}", count) + MAIN % "B0{}.m0()"


def interfaces(count):
    return "type I0 interface{ m0() }\n" + "".join(
        f"type I{i} interface {{ m{i}(); I{i - 1} }}\n" for i in range(1, count + 1)) + MAIN % f"var i I{count}\n\tprintln(i == nil)"


def many(form, count, use):
    return lines(form, count) + MAIN % use


ROWS = [
    ("1000 fields", fields(1000), ""),
    ("1001 fields", fields(1001), "main.go:3:8: more than 1000 parts"),
    ("100000 fields", fields(100000), "main.go:3:8: more than 1000 parts"),
    ("embedding 200 deep", embedded(200, "type T{i} struct{{ T{before} }}"), ""),
    ("embedding 200 deep by pointers", embedded(200, "type T{i} struct{{ *T{before} }}"), ""),
    ("two ways at each of 30 levels", embedded(
        30, "type A{i} struct{{ *T{before} }}\ntype B{i} struct{{ *T{before} }}\ntype T{i} struct {{\n\tA{i}\n\tB{i}\n}}"),
     "main.go:190:4: no field or method m"),
    ("10000 promoted methods", promoted(10000, "A"), ""),
    ("10000 promoted methods on the pointer", promoted(10000, "*A"), ""),
    ("60 types with 1000 promoted methods", wide(60), ""),
    ("70 types with 1000 promoted methods", wide(70), "main.go:1:1: too many functions"),
    ("interfaces of up to 1000 methods", interfaces(999), ""),
    ("an interface of 1001 methods", interfaces(1000), "main.go:1003:12: more than 1000 parts"),
    ("10000 constants that need one another", many("const c{i} = c{next} + 1", 10000, "") + "\nconst c10000 = 1\n", ""),
    ("10000 constants that need themselves", many("const c{i} = c{next} + 1", 10000, "") + "\nconst c10000 = c0\n",
     "main.go:3:7: invalid recursive type"),
    ("10000 types that need one another", many("type t{i} struct {{ p *t{next}; n [2]int }}", 10000, "") + "\ntype t10000 t0\n", ""),
    ("10000 types that need themselves", many("type t{i} t{next}", 10000, "") + "\ntype t10000 t0\n",
     "main.go:3:6: invalid recursive type"),
    ("1000 array lengths that need one another", many("var a{i} [len(a{next}) + 1]bool", 1000, "") + "\nvar a1000 [1]bool\n", ""),
    ("1000 array lengths that need themselves", many("var a{i} [len(a{next}) + 1]bool", 1000, "") + "\nvar a1000 [len(a0)]bool\n",
     "main.go:3:5: invalid recursive type"),
    ("10000 variables that need one another", many("var v{i} = v{next}", 10000, "println(v0)") + "\nvar v10000 = 1\n", ""),
    ("10000 functions that call one another", many("func f{i}() int {{ return f{next}() }}", 10000, "println(f0())")
     + "\nfunc f10000() int { return 1 }\n", ""),
    ("1000 cases", MAIN % ("switch n := 1; n {\n" + lines("\tcase {i}:", 1000) + "\t}"), ""),
    ("100000 cases", MAIN % ("switch n := 1; n {\n" + lines("\tcase {i}:", 100000) + "\t}"), "main.go:5:2: more than 1000 parts"),
    ("1000 labels", MAIN % lines("L{i}:\n\tfor {{\n\t\tbreak L{i}\n\t}}", 1000), ""),
    ("10000 variables of one block", MAIN % lines("\tx{i} := {i}\n\t_ = x{i}", 10000), ""),
    ("10000 closures", MAIN % ("f := func() {}\n" + lines("\tf = func() {{ f(); println({i}) }}", 10000)), ""),
]


def told(program, text, most):
    with tempfile.TemporaryDirectory() as folder:
        os.mkdir(f"{folder}/app")
        with open(f"{folder}/app/main.go", "w") as file:
            file.write("package main\n\n" + text)
        before = resource.getrusage(resource.RUSAGE_CHILDREN).ru_utime
        limit = lambda: resource.setrlimit(resource.RLIMIT_CPU, (most, most))
        ran = subprocess.run([program, "build", "app"], cwd=folder, capture_output=True, text=True, preexec_fn=limit)
        text = "no end" if ran.returncode < 0 else (ran.stdout + ran.stderr).strip()
        return text, resource.getrusage(resource.RUSAGE_CHILDREN).ru_utime - before


def main():
    program, most = os.path.abspath(sys.argv[1]), int(sys.argv[2]) if len(sys.argv) > 2 else 20
    failed = 0
    for name, text, wanted in ROWS:
        found, seconds = told(program, text, most)
        print(f"{seconds:6.2f} s  {name}", flush=True)
        if found != wanted:
            failed += 1
            print(f"{name}: told {found!r} in {seconds:.1f} s, wanted {wanted!r}")
    print(f"{len(ROWS) - failed} passed, {failed} failed")
    return failed != 0


sys.exit(main())
