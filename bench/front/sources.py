"""Writes four Go files of up to 4 MiB each into a folder: declarations of Go's library, in one package.

Imports are left out, and so are sources with what the profile's grammar lacks: floats, imaginary numbers, `goto`,
build constraints and type parameters. The names then mean nothing, which neither gofmt nor `load` looks at. No function is named `main`, so
that the build ends after loading.
"""
import glob
import os
import re
import sys

LIMIT = 4194304
FLOAT = re.compile(rb"(?<![\w.])(\d[\d_]*\.\d|\d+\.|\d+e[+-]?\d|\.\d|0x[0-9a-fA-F]*[.pP])|\b\d+i\b")
GENERIC = re.compile(rb"^(func|type)\s+(\([^)]*\)\s*)?\w+\[[A-Z]\w*[ ,\]]|\w\[[A-Z]\w* \w+|~\w", re.M)
IMPORTS = re.compile(rb"^import\s+(\((.|\n)*?^\)|.*)\n", re.M)
PACKAGE = re.compile(rb"^package \w+.*\n", re.M)
HEAD = b"package main\n"
CLOSE = b"\n"
MAIN = re.compile(rb"^func main\(", re.M)


def declarations():
    for path in sorted(glob.glob("/usr/share/go-*/src/**/*.go", recursive=True) + glob.glob("/usr/lib/go/src/**/*.go", recursive=True)):
        if "testdata" in path or "typeparam" in path:
            continue
        with open(path, "rb") as file:
            text = file.read()
        clause = PACKAGE.search(text)
        if clause is None or FLOAT.search(text) or GENERIC.search(text) or re.search(rb"\bgoto\b", text):
            continue
        before = text[: clause.start()]
        if before.count(b"/*") != before.count(b"*/"):
            continue
        body = IMPORTS.sub(b"", text[clause.end() :])
        # A function without a body is not in the profile.
        if not re.search(rb"^func [^{]*$", body, re.M):
            yield MAIN.sub(b"func entry(", body)


def main():
    folder = sys.argv[1]
    parts = declarations()
    for name in ("a.go", "b.go", "c.go", "d.go"):
        texts, size = [HEAD], len(HEAD) + len(CLOSE)
        for text in parts:
            if size + len(text) + 1 > LIMIT:
                break
            texts.append(text)
            size += len(text) + 1
        texts.append(CLOSE)
        with open(os.path.join(folder, name), "wb") as out:
            out.write(b"\n".join(texts)[:LIMIT])


main()
