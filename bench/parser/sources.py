"""Writes one Go file: what is declared at the top of sources of Go's library, up to so many bytes.

Left out are sources with floats, imaginary numbers, type parameters, `goto` or functions without a body, and each file's package clause and imports.
"""
import glob
import re
import sys

FLOAT = re.compile(rb"(?<![\w.])(\d[\d_]*\.\d|\d+e[+-]?\d|\.\d|0x[0-9a-fA-F]*[.pP])|\b\d+i\b")
GENERIC = re.compile(rb"^(func|type)\s+(\([^)]*\)\s*)?\w+\[\w+[ ,]|\batomic\.Pointer\[", re.M)
GOTO = re.compile(rb"\bgoto\b")
BODILESS = re.compile(rb"^func .*[^{}(,\s]\s*$", re.M)
HEAD = re.compile(rb"\A(?://.*\n|\s|/\*(?s:.*?)\*/)*package \w+.*")
IMPORT = re.compile(rb'^import\s*(\([^)]*\)|(\w+ |\. )?"[^"]*").*?$', re.M | re.S)


def sources():
    for folder in ("/usr/lib/go-1.19/src", "/usr/share/go-1.19/src"):
        for path in sorted(glob.glob(folder + "/**/*.go", recursive=True)):
            if "testdata" in path or "/types2/" in path or "/go/types/" in path:
                continue
            with open(path, "rb") as file:
                text = file.read()
            if b"~" in text or FLOAT.search(text) or GENERIC.search(text) or GOTO.search(text) or BODILESS.search(text):
                continue
            if HEAD.search(text):
                yield IMPORT.sub(b"", HEAD.sub(b"", text, count=1))


def main():
    limit = int(sys.argv[2])
    parts, size = [b"package p\n"], 0
    for text in sources():
        if size + len(text) < limit:
            parts.append(text)
            size += len(text) + 1
    with open(sys.argv[1], "wb") as out:
        out.write(b"\n".join(parts))


main()
