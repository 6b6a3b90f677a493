"""The rows of rows.txt: name, choice numbers, printed bytes, status, text, body."""

import os
from collections import namedtuple

Row = namedtuple("Row", "name choices printed status text body")
HERE = os.path.dirname(os.path.abspath(__file__))


def in_brackets(line):
    """The bytes between `[` and the last `]`, with `\\\\` and `\\xNN` undone."""
    shown = line[line.index("[") + 1 : line.rindex("]")]
    out, i = bytearray(), 0
    while i < len(shown):
        if shown.startswith("\\x", i):
            out.append(int(shown[i + 2 : i + 4], 16))
            i += 4
        elif shown[i] == "\\":
            out.append(ord(shown[i + 1]))
            i += 2
        else:
            out.append(ord(shown[i]))
            i += 1
    return bytes(out)


def row_of(block):
    lines = block.split("\n")
    name, choices, printed, status, text = lines.pop(0).split()[1], [], b"", 0, b""
    while lines[0].split()[0] in ("choices", "prints", "ends"):
        word, line = lines[0].split()[0], lines.pop(0)
        if word == "choices":
            choices = [int(n) for n in line.split()[1:]]
        elif word == "prints":
            printed = in_brackets(line)
        else:
            status, text = int(line.split()[1]), in_brackets(line)
    return Row(name, choices, printed, status, text, "\n".join(lines) + "\n")


def rows():
    with open(os.path.join(HERE, "rows.txt")) as f:
        return [row_of(block) for block in f.read().strip().split("\n\n")]
