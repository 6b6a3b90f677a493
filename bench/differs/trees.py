"""The Go programs of crates/gopherjs/data and of examples."""

import os
import re

HERE = os.path.dirname(os.path.realpath(__file__))
DATA, EXAMPLES = HERE + "/../../crates/gopherjs/data", HERE + "/../../examples"


def cases():
    """The name and the files of each: from path to text, in which each byte is a character."""
    for path in sorted(os.listdir(DATA)):
        if path.endswith(".rows"):
            with open(f"{DATA}/{path}", encoding="latin1", newline="") as rows:
                for case in re.split(r"(?m)^=== ", rows.read())[1:]:
                    parts = re.split(r"(?m)^--[->] (.*)\n", case)
                    yield path[:-5] + "/" + case.split("\n")[0], dict(zip(parts[1::2], parts[2::2]))
        elif os.path.isdir(f"{DATA}/{path}/tree"):
            yield path, below(f"{DATA}/{path}", "")
    for name in sorted(os.listdir(EXAMPLES)):
        if os.path.isdir(f"{EXAMPLES}/{name}"):
            yield name, below(f"{EXAMPLES}/{name}", "tree/app/")


def below(top, start):
    found = {}
    for place, _, files in os.walk(top):
        for name in files:
            path = os.path.join(place, name)
            if name.endswith(".go") or name == "grow":
                with open(path, encoding="latin1", newline="") as text:
                    found[start + os.path.relpath(path, top)] = text.read()
    return found


def trees():
    """The name and the Go files of each that has a root `app` and isn't large: from path below the tree to text."""
    for name, files in cases():
        tree = {path[5:]: text for path, text in files.items() if path.startswith("tree/") and path.endswith(".go")}
        root = [path for path in tree if re.fullmatch(r"app/[^/]*\.go", path) and not path.endswith("_test.go")]
        if root and sum(map(len, tree.values())) < 20000 and "grow" not in files:
            yield name, tree
