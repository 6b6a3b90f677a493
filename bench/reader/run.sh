#!/bin/sh
# Compares the time of `read` with that of `node --check` on the same script.
set -e
here=$(cd "$(dirname "$0")" && pwd)
work=$(mktemp -d)
trap 'rm -rf "$work"' EXIT
size=${1:-67108864}

python3 "$here/script.py" "$size" "$work/script.js"
ls -l "$work/script.js" | awk '{ print $5, "bytes" }'
echo "node --check, and node on an empty script:"
: > "$work/empty.js"
for script in script empty; do
    for turn in 1 2 3; do
        /usr/bin/time -f "%U s of processor, %e s, %M KiB" node --check "$work/$script.js"
    done
done

mkdir -p "$work/crates/read_time/src"
crates='gj_base js_tree js_grammar js_nodes js_expr js_read'
for crate in $crates; do
    mkdir "$work/crates/$crate"
    (cd "$here/../../crates/$crate" && tar cf - --exclude=incremental .) | (cd "$work/crates/$crate" && tar xf -)
    grep -E "^$crate:" "$here/../../crates.txt" >> "$work/crates.txt"
done
echo 'read_time: js_read js_expr js_nodes js_grammar js_tree gj_base itoa thiserror' >> "$work/crates.txt"
cat > "$work/crates/read_time/src/main.rt" <<'END'
//! Reads the script on standard input three times, and prints how it went and the microseconds.
#![tactic(auto)]

use js_read::{ReadRefusal, read};
use std::io;
use std::io::Read;
use std::time::Instant;

fn main(rt: HostRuntime) -> io::Result<()> {
    let mut bytes = Vec::new(rt.alloc());
    rt.stdin().read_to_end(&mut bytes)?;
    if bytes.len() >= 4294967295 {
        return Ok(());
    }
    for _ in 0..3u8 {
        let start = Instant::now(&rt)?;
        let answer = read(rt.alloc(), bytes.as_slice());
        let took = start.elapsed(&rt)?.as_micros();
        match answer {
            Ok(script) => {
                let n = script.items.len();
                println!(rt; "{n} items {took} us")?;
            }
            Err(ReadRefusal::Syntax(_)) => println!(rt; "no script {took} us")?,
            Err(ReadRefusal::NoMemory) => println!(rt; "no memory {took} us")?,
        }
    }
    Ok(())
}
END
echo "read:"
cd "$work/crates/read_time"
: > "$work/none"
rt run < "$work/none" > /dev/null 2>&1 || true
/usr/bin/time -f "%U s of processor, %e s, %M KiB" out/read_time < "$work/script.js"
