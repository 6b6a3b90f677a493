#!/usr/bin/env python3
"""usage: both.py PROGRAM [FOLDER ...]

The two checkers of PROGRAM against one another. The program of each folder below a FOLDER, and where none is given those of
crates/gopherjs/data and examples, is built as it is, so that the checker of scalars answers where it can, and once more with a first
file in which a struct stands, so that the other one answers. What is told must be the same, but for what is told at the start of
the first file. Ends with status 1 where it isn't.
"""

import collections
import concurrent.futures
import os
import re
import subprocess
import sys
import tempfile

sys.dont_write_bytecode = True
from trees import trees

FIRST, TEXT = "app/!.go", "package %s\n\nvar _ struct{}\n"


def programs(folders):
    """The name and the files of each program."""
    for top in folders:
        for place, _, names in sorted(os.walk(top)):
            tree = {}
            for name in names:
                if name.endswith(".go"):
                    with open(os.path.join(place, name), encoding="latin1", newline="") as text:
                        tree["app/" + name] = text.read()
            if tree:
                yield place, tree
    if not folders:
        yield from trees()


def built(program, tree):
    """The status of `build`, and what it tells."""
    with tempfile.TemporaryDirectory() as work:
        for path, text in tree.items():
            os.makedirs(os.path.dirname(f"{work}/{path}"), exist_ok=True)
            with open(f"{work}/{path}", "w", encoding="latin1", newline="") as out:
                out.write(text)
        try:
            ran = subprocess.run([program, "build", "app"], cwd=work, capture_output=True, timeout=60)
            return ran.returncode, re.sub(r"^\S+:1:1: ", "1:1: ", (ran.stdout + ran.stderr).decode("latin1").strip())
        except subprocess.TimeoutExpired:
            return None, "no end within a minute"


def main():
    program = os.path.abspath(sys.argv[1])
    counts = collections.Counter()

    def compared(it):
        clauses = [re.search(r"(?m)^package ([A-Za-z_]\w*)", text) for path, text in sorted(it[1].items()) if path.startswith("app/")]
        package = clauses[0][1] if clauses and clauses[0] else "main"
        return it[0], built(program, it[1]), built(program, {**it[1], FIRST: TEXT % package})

    with concurrent.futures.ThreadPoolExecutor(2) as pool:
        for name, one, other in pool.map(compared, programs(sys.argv[2:])):
            if one == other:
                counts["both take it" if one[0] == 0 else "both refuse it"] += 1
            else:
                counts["differ"] += 1
                print("%s: alone %s, with a struct %s" % (name, one[1] or "taken", other[1] or "taken"))
    print(", ".join("%s: %d" % it for it in sorted(counts.items())) or "no programs")
    sys.exit(1 if counts["differ"] or not counts else 0)


main()
