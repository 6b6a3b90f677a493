"""Runs each row in node and in mujs, and compares what it prints and how it ends.

node has the preamble, but for `$pick`; mujs has a shim for all functions of the host.
"""

import os
import subprocess
import sys
import tempfile

from rows import rows

PICK = """var $numbers=[%s],$next=0;
function $pick(k){var n=$next<$numbers.length?$numbers[$next]:0;$next=$next+1;return n%%k;}
"""

NODE = """var $fs=require("fs");
function $write(s){var b=Buffer.from(s,"latin1"),i=0;while(i<b.length){i+=$fs.writeSync(1,b,i);}}
function $end(c,t){var b=Buffer.from(t,"latin1"),i=0;while(i<b.length){i+=$fs.writeSync(2,b,i);}process.exit(c);}
"""

# mujs writes text as UTF-8, so bytes go out as hexadecimal digits, one line for each sink.
MUJS = """var $out="";
function $hex(s){var r="",i;for(i=0;i<s.length;++i){r+=(256+s.charCodeAt(i)).toString(16).substring(1);}return r;}
function $write(s){$out+=s;}
function $end(c,t){print($hex($out));print($hex(t));quit(c);}
"""


def run(command, script):
    with tempfile.NamedTemporaryFile("w", suffix=".js", delete=False) as f:
        f.write(script)
    try:
        return subprocess.run(command + [f.name], capture_output=True, timeout=20)
    finally:
        os.unlink(f.name)


def in_node(row):
    done = run(["node"], NODE + PICK % ",".join(map(str, row.choices)) + row.body)
    return done.stdout, done.returncode, done.stderr


def in_mujs(row):
    pick = PICK % ",".join(map(str, row.choices))
    done = run(["mujs"], MUJS + pick + row.body + '$end(0,"");\n')
    lines = done.stdout.decode().split("\n")
    if len(lines) < 2 or done.stderr:
        return done.stdout, done.returncode, done.stderr
    return bytes.fromhex(lines[0]), done.returncode, bytes.fromhex(lines[1])


def main():
    wrong = 0
    for row in rows():
        for engine, run_in in (("node", in_node), ("mujs", in_mujs)):
            got, wanted = run_in(row), (row.printed, row.status, row.text)
            if got != wanted:
                wrong += 1
                print(f"{row.name} in {engine}: {got}, wanted {wanted}")
    print(f"{len(rows())} rows in two engines, {wrong} differ")
    return 1 if wrong else 0


if __name__ == "__main__":
    sys.exit(main())
