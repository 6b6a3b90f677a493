#!/bin/sh
# usage: run.sh [PROGRAM]
# Compares the time and the memory of our runner with those of mujs and of duktape on the same scripts.
set -e
here=$(cd "$(dirname "$0")" && pwd)
top=$here/../..
work=$(mktemp -d)
trap 'rm -rf "$work"' EXIT
if [ -n "$1" ]; then
    python3 "$here/measure.py" "$1"
    exit
fi

# What `rt check` and `rt lib` have built of the crates is copied with them, so that it isn't built anew.
mkdir -p "$work/crates/run_time/src"
below=$(python3 - "$top/crates.txt" <<'END_OF_NAMES'
import sys

lists = dict(line.split(":") for line in open(sys.argv[1], encoding="utf-8") if line.strip())
wanted, found = ["js_run", "js_read", "js_tree", "gj_base"], set()
while wanted:
    name = wanted.pop()
    if name not in found:
        found.add(name)
        wanted += lists.get(name, "").split()
print(*sorted(found))
END_OF_NAMES
)
for crate in $below; do
    if [ -d "$top/crates/$crate" ]; then
        mkdir "$work/crates/$crate"
        (cd "$top/crates/$crate" && tar cf - --exclude=out/incremental .) | (cd "$work/crates/$crate" && tar xf -)
        grep -E "^$crate:" "$top/crates.txt" >> "$work/crates.txt"
    fi
done
echo run_time: $below >> "$work/crates.txt"
cat > "$work/crates/run_time/src/main.rt" <<'END_OF_MAIN'
//! Runs the script on standard input. It prints what the script prints, and on standard error how
//! the run ended.
#![tactic(auto)]

use gj_base::{ListChoices, VecSink};
use js_read::{ReadRefusal, read};
use js_run::{RunEnd, RunRefusal, run};
use js_tree::Script;
use std::io;
use std::io::{Read, Write};

const BUDGET: u64 = 1000000000000;

fn run_script(rt: &HostRuntime, script: &Script) -> io::Result<()> {
    let mut choices = ListChoices::new(Vec::new(rt.alloc()));
    let mut out = VecSink::new(rt.alloc());
    let end = run(rt.alloc(), script, &mut choices, &mut out, BUDGET);
    rt.stdout().write_all(out.bytes())?;
    match end {
        Ok(RunEnd::Ended(status, _)) => eprintln!(rt; "ended {status}"),
        Ok(RunEnd::Stopped) => eprintln!(rt; "stopped"),
        Ok(RunEnd::Stuck(at)) => eprintln!(rt; "stuck at {at}"),
        Err(RunRefusal::WriteFault) => eprintln!(rt; "write fault"),
        Err(RunRefusal::NoMemory) => eprintln!(rt; "no memory"),
    }
}

fn main(rt: HostRuntime) -> io::Result<()> {
    let mut bytes = Vec::new(rt.alloc());
    rt.stdin().read_to_end(&mut bytes)?;
    if bytes.len() >= 4294967295 {
        return Ok(());
    }
    match read(rt.alloc(), bytes.as_slice()) {
        Ok(script) => run_script(&rt, &script),
        Err(ReadRefusal::Syntax(at)) => eprintln!(rt; "no script: {at}"),
        Err(ReadRefusal::NoMemory) => eprintln!(rt; "no memory"),
    }
}
END_OF_MAIN
(cd "$work/crates/run_time" && rt run < /dev/null > "$work/built.log" 2>&1) || { tail -5 "$work/built.log"; exit 1; }
python3 "$here/measure.py" "$work/crates/run_time/out/run_time"
