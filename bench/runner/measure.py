"""Runs each script by turns in our runner, in mujs and in duktape, and prints the ratios: `measure.py PROGRAM`.

What the three print must be equal. Times are the least of a few runs, in seconds of processor time; memory is the
peak. It ends with 1 where an aim is missed: no slower than mujs, and at most twice the time of duktape.
"""

import os
import resource
import subprocess
import sys
import tempfile

HERE = os.path.dirname(os.path.abspath(__file__))
PREAMBLE = """var $fs=require("fs");
function $write(s){var b=Buffer.from(s,"latin1"),i=0;while(i<b.length){i+=$fs.writeSync(1,b,i);}}
function $pick(k){return Math.floor(Math.random()*k);}
function $end(c,t){var b=Buffer.from(t,"latin1"),i=0;while(i<b.length){i+=$fs.writeSync(2,b,i);}process.exit(c);}
"""
# Each script prints one line, at its end, and takes no numbers.
SHIM = """function $write(s){print(s);}
function $pick(k){return 0;}
function $end(c,t){throw t;}
"""
COMPARED = [
    "arithmetic",
    "histogram",
    "matrix",
    "calls",
    "strings",
    "compare",
    "dictionary",
    "machine",
    "throws",
    "list",
]
# Those that our runner alone can run, or runs in reasonable time, with what they print.
ALONE = {"deep": "1000000", "ticks": str((50000000 * 49999999 // 2 + 2**31) % 2**32 - 2**31)}
TURNS = 5


def limit(gibibytes=24):
    """Lets a command have so much memory."""
    resource.setrlimit(resource.RLIMIT_AS, (gibibytes << 30, gibibytes << 30))


def run(command, script):
    """What a command prints for a script, its processor time in seconds, and its peak of memory in KiB."""
    with tempfile.TemporaryDirectory() as folder, open(script, "rb") as given:
        spent = os.path.join(folder, "spent")
        # GNU time, since a child of this program would have its memory counted in.
        command = ["time", "-q", "-o", spent, "-f", "%U %S %M", *command]
        done = subprocess.run(command, stdin=given, capture_output=True, preexec_fn=limit)
        with open(spent, encoding="ascii") as file:
            user, system, peak = file.read().split()
    printed, told = done.stdout.decode().rstrip("\n"), done.stderr.decode()
    if done.returncode != 0 or told not in ("", "ended 0\n"):
        sys.exit(f"{script}: status {done.returncode}, {told}")
    return printed, float(user) + float(system), int(peak)


def script_files(folder, name):
    """The script as our runner reads it, and with the functions of the host that the other engines have."""
    with open(os.path.join(HERE, "scripts", name + ".js"), encoding="ascii") as file:
        body = file.read()
    files = []
    for kind, head in (("ours", PREAMBLE), ("theirs", SHIM)):
        files.append(os.path.join(folder, f"{name}_{kind}.js"))
        with open(files[-1], "w", encoding="ascii") as file:
            file.write(head + body)
    return files


def compare(program, folder, name):
    """Prints a script's row; whether both aims are met."""
    ours, theirs = script_files(folder, name)
    engines = [([program], ours), (["mujs", theirs], theirs), (["duk", theirs], theirs)]
    times, peaks, printed = [[], [], []], [[], [], []], set()
    for _ in range(TURNS):
        for engine, (command, script) in enumerate(engines):
            text, time, peak = run(command, script)
            printed.add(text)
            times[engine].append(time)
            peaks[engine].append(peak)
    if len(printed) != 1:
        sys.exit(f"{name}: the engines print {printed}")
    t, m = [min(x) for x in times], [min(x) for x in peaks]
    good = t[0] <= t[1] and t[0] <= 2 * t[2]
    print(
        f"{name:11}{t[0]:8.2f}{t[1]:8.2f}{t[2]:8.2f}{t[0] / t[1]:9.2f}{t[0] / t[2]:9.2f}"
        f"{m[0]:12}{m[1]:9}{m[2]:9}{m[0] / m[1]:9.2f}{m[0] / m[2]:9.2f}{'' if good else '  missed'}"
    )
    return good


def alone(program, folder, name, wanted):
    printed, time, peak = run([program], script_files(folder, name)[0])
    if printed != wanted:
        sys.exit(f"{name}: printed {printed}, wanted {wanted}")
    print(f"{name:11}{time:8.2f}{peak:46}")


def exhausted(program, folder, name):
    """A script that takes more memory than there is ends with that being told."""
    with open(script_files(folder, name)[0], "rb") as given:
        done = subprocess.run([program], stdin=given, capture_output=True, preexec_fn=lambda: limit(1))
    if done.returncode != 0 or done.stderr.decode() != "no memory\n":
        sys.exit(f"{name}: status {done.returncode}, {done.stderr.decode()}")
    print(f"{name:11}no memory, of 1 GiB")


def main():
    program, good = os.path.abspath(sys.argv[1]), True
    print("             seconds of processor   ratio of times       KiB at the peak       ratio of memory")
    print("             ours    mujs duktape   to mujs  to duk        ours     mujs  duktape to mujs   to duk")
    with tempfile.TemporaryDirectory() as folder:
        for name in COMPARED:
            good = compare(program, folder, name) and good
        for name, wanted in ALONE.items():
            alone(program, folder, name, wanted)
        exhausted(program, folder, "memory")
    return 0 if good else 1


if __name__ == "__main__":
    sys.exit(main())
