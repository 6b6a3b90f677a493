#!/usr/bin/env python3
"""usage: mutated.py PROGRAM [SEED [COUNT]]

Builds COUNT programs that are those of crates/gopherjs/data and examples with one to four tokens deleted, doubled, swapped or
replaced, often by one of their kind, and looks at each answer: a script, or one line that tells a fault at a place of a file that is there. What was made
must be a script for node. Ends with status 1 where an answer is another one, or none within a minute, and leaves such programs in
the folder that it names.
"""

import collections
import concurrent.futures
import os
import random
import re
import shutil
import subprocess
import sys
import tempfile

sys.dont_write_bytecode = True
from trees import trees

WORD = re.compile(r"\n|[ \t]+|//[^\n]*|\"(?:[^\"\n\\]|\\.)*\"|`[^`]*`|'(?:[^'\n\\]|\\.)*'|[A-Za-z_]\w*|\d\w*|<-|:=|\+\+|--|\.\.\."
                  r"|&\^=?|<<=?|>>=?|&&|\|\||[-+*/%&|^=!<>]=|.")
MORE = ["int", "string", "bool", "uint8", "error", "nil", "iota", "len", "append", "make", "new", "_", "x", "0", "1", "-1", '"a"', "main",
        "init", "struct", "interface", "map", "chan", "func", "type", "var", "const", "return", "break", "continue", "fallthrough", "go",
        "defer", "select", "switch", "case", "default", "range", "for", "if", "else", "import", "...", "<-", "*", "&", "[", "]", "(", ")",
        "{", "}", ".", ",", ";", ":=", "=", "==", "+", "<<", "interface{}", "struct{}", "[]int", "[4]int", "map[string]int", "recover()",
        "T", "*T", "1 << 70", "x.x", "x()", "x[0]", "func() {}", "(type)"]
LINE = re.compile(r"([^:\n]+):(\d+):(\d+): [^\n]+")
NODE = ("const vm=require('vm'),fs=require('fs');for(const p of fs.readFileSync(0,'utf8').split('\\n'))if(p)"
        "try{new vm.Script(fs.readFileSync(p,'utf8'))}catch(e){console.log(p+' '+e)}")


def changed(choose, text):
    words = WORD.findall(text)
    places = [i for i, word in enumerate(words) if word.strip()]
    names = [words[i] for i in places]
    for _ in range(choose.choice([1, 1, 1, 2, 2, 4])):
        if not places:
            return text
        at, other = choose.choice(places), choose.choice(places)
        how = choose.choice(["delete", "double", "swap", "own", "more", "alike", "alike", "alike"])
        if how == "delete":
            words[at] = ""
        elif how == "double":
            words[at] += " " + words[at]
        elif how == "swap":
            words[at], words[other] = words[other], words[at]
        elif how == "alike":
            words[at] = choose.choice([name for name in names if name.isidentifier() == words[at].isidentifier()] or names)
        else:
            words[at] = choose.choice(names if how == "own" else MORE)
    return "".join(words)


def wrong(tree, status, told):
    """What is wrong with an answer, or nothing."""
    if status is None:
        return "no end within a minute"
    if status == 0:
        return told and "a script and " + told
    found = LINE.fullmatch(told)
    if status != 1 or not found:
        return "status %d, %s" % (status, told[:200])
    path, line, column = found[1], int(found[2]), int(found[3])
    # a file of another package is told with its path below the folder of packages
    texts = [text for name, text in tree.items() if name == "app/" + path or "/" in path and name.endswith("/" + path)]
    if not texts:
        return "no such file: " + told
    lines = texts[0].split("\n")
    if not (1 <= line <= len(lines) and 1 <= column <= len(lines[line - 1]) + 1):
        return "no such place: " + told
    return ""


def tried(program, work, number, tree):
    """Makes the files of a tree, builds it, and gives what is wrong with the answer, and the script."""
    top = "%s/%d" % (work, number)
    for path, text in tree.items():
        os.makedirs(os.path.dirname(f"{top}/{path}"), exist_ok=True)
        with open(f"{top}/{path}", "w", encoding="latin1", newline="") as out:
            out.write(text)
    try:
        ran = subprocess.run([program, "build", "app"], cwd=top, capture_output=True, timeout=60)
        status, told = ran.returncode, (ran.stdout + ran.stderr).decode("latin1").strip()
    except subprocess.TimeoutExpired:
        status, told = None, ""
    how = wrong(tree, status, told)
    if not how and status:
        shutil.rmtree(top)
    return top, status, how


def main():
    program = os.path.abspath(sys.argv[1])
    choose = random.Random(int(sys.argv[2]) if len(sys.argv) > 2 else 1)
    count, work = int(sys.argv[3]) if len(sys.argv) > 3 else 20000, tempfile.mkdtemp()
    start, counts, made, bad = [tree for _, tree in trees()], collections.Counter(), [], 0

    def one(number):
        tree = dict(choose.choice(start))
        path = choose.choice(sorted(tree))
        tree[path] = changed(choose, tree[path])
        return number, tree

    with concurrent.futures.ThreadPoolExecutor(2) as pool:
        for top, status, how in pool.map(lambda it: tried(program, work, *it), map(one, range(count))):
            counts["wrong" if how else "refused" if status else "taken"] += 1
            if how:
                bad += 1
                print(top, how)
            elif not status:
                made.append(top)
    checked = subprocess.run(["node", "-e", NODE], input="".join(f"{top}/out.js\n" for top in made), stdout=subprocess.PIPE, text=True)
    print(checked.stdout, end="")
    print(", ".join("%s: %d" % it for it in sorted(counts.items())) + ", no script for node: %d" % len(checked.stdout.splitlines()))
    if bad or checked.stdout or checked.returncode:
        sys.exit("kept in " + work)
    shutil.rmtree(work)


main()
