#!/usr/bin/env python3
"""usage: compare.py PROGRAM TYPES FOLDER

Builds each program below FOLDER by PROGRAM, asks TYPES (types.go) of it, and prints where the two differ, and counts.  Ends with
status 1 where one takes a program that the other refuses, or both refuse it at different lines, for no reason that is known.
"""

import collections
import os
import re
import subprocess
import sys

# ours alone: outside the profile, or a limit of our own
OURS = ["not in the profile", "constant outside 128 bits", "wrong use of package main"]
# what go/types alone refuses, or refuses for another reason: a bound of its own for counts, another thing named `main`
THEIRS = ["invalid shift count", "cannot declare main"]
LABEL = re.compile(r"label \w+ declared but not used")


def asked(types, folder, names):
    """The faults of go/types by the name of the program, as (line, text)."""
    paths = "".join(os.path.join(folder, name) + "\n" for name in names)
    lines = subprocess.run([types], input=paths, stdout=subprocess.PIPE, check=True, text=True).stdout.splitlines()
    split = lambda fault: (int(fault.split(":", 1)[0]), fault.split(":", 1)[1])
    return {os.path.basename(path): [split(fault) for fault in faults] for path, *faults in (line.split("\t") for line in lines)}


def built(program, folder, name):
    """What `build` tells: nothing, or (line, text)."""
    ran = subprocess.run([program, "build", name], cwd=folder, stderr=subprocess.PIPE, text=True)
    if ran.returncode == 0:
        return None
    found = re.fullmatch(r"main\.go:(\d+):(\d+): (.*)", ran.stderr.strip())
    if ran.returncode != 1 or not found:
        sys.exit("%s: status %d, %s" % (name, ran.returncode, ran.stderr.strip()))
    line, column, text = int(found[1]), int(found[2]), found[3]
    return (line, text)


def compiled(folder, name):
    """The line of the first fault that the compiler tells, or nothing."""
    words = ["go", "tool", "compile", "-lang=go1.17", "-o", os.devnull, "main.go"]
    ran = subprocess.run(words, cwd=os.path.join(folder, name), env={**os.environ, "GOARCH": "386"}, stdout=subprocess.PIPE, text=True)
    return int(ran.stdout.split(":")[1]) if ran.returncode else None


def same_place(ours, theirs, strict):
    """Whether they tell the same line first; not strict, whether go/types tells ours at all."""
    if theirs[0][1].startswith("syntax: "):
        return True
    if not strict:
        return ours[0] in [line for line, _ in theirs]
    # own: an unused label is told only where its statement has no fault
    labels = [line for line, text in theirs if LABEL.match(text)]
    return ours[0] in labels + [min([line for line, text in theirs if not LABEL.match(text)], default=0)]


def verdict(ours, theirs, strict, first_compiled):
    """How the two agree, or after a `!` how they differ."""
    if ours and ours[1] in OURS:
        return "unbuilt, or ours alone"
    if any(text == "go/types ended" or any(word in text for word in THEIRS) for _, text in theirs):
        return "theirs alone"
    if not ours and not theirs:
        return "both take it"
    if not ours:
        return "! go/types refuses it: " + theirs[0][1]
    # go/types lets some branches pass that the compiler refuses
    if theirs and same_place(ours, theirs, strict) or ours[0] == first_compiled():
        return "both refuse it"
    if not theirs:
        return "! go/types takes it: " + ours[1]
    return "! go/types tells another line: %s, not %s" % (theirs[0][1], ours[1])


def main():
    program, types, folder = map(os.path.abspath, sys.argv[1:4])
    names = sorted(os.listdir(folder))
    faults = asked(types, folder, names)
    counts, differ = collections.Counter(), 0
    for name in names:
        # after a change one fault often leads to others, and to other ones for go/types
        how = verdict(built(program, folder, name), faults[name], not name.startswith("changes"), lambda: compiled(folder, name))
        if how.startswith("!"):
            differ += 1
            print(name + how[1:])
        else:
            counts[how] += 1
    print(", ".join("%s: %d" % (how, count) for how, count in sorted(counts.items())) + ", differ: %d" % differ)
    sys.exit(1 if differ else 0)


main()
