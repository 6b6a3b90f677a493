#!/bin/sh
# Compares the time of `lex` with Go's scanner on the same bytes.
set -e
here=$(cd "$(dirname "$0")" && pwd)
work=$(mktemp -d)
trap 'rm -rf "$work"' EXIT

python3 "$here/sources.py" "$work/go.txt"
echo "Go's scanner:"
go run "$here/scan.go" < "$work/go.txt"

mkdir -p "$work/crates/lex_time/src"
for crate in gj_base go_syntax go_lexer; do
    mkdir "$work/crates/$crate"
    (cd "$here/../../crates/$crate" && tar cf - --exclude=out .) | (cd "$work/crates/$crate" && tar xf -)
done
grep -E '^(gj_base|go_syntax|go_lexer):' "$here/../../crates.txt" > "$work/crates.txt"
echo 'lex_time: go_lexer go_syntax gj_base' >> "$work/crates.txt"
cat > "$work/crates/lex_time/src/main.rt" <<'END'
//! Lexes standard input five times, and prints the count of tokens and the microseconds of each time.
#![tactic(auto)]

use gj_base::Refusal;
use go_lexer::lex;
use std::io;
use std::io::Read;
use std::time::Instant;

fn main(rt: HostRuntime) -> io::Result<()> {
    let mut bytes = Vec::new(rt.alloc());
    rt.stdin().read_to_end(&mut bytes)?;
    if bytes.len() >= 4294967295 {
        return Ok(());
    }
    for _ in 0..5u8 {
        let start = Instant::now(&rt)?;
        let answer = lex(rt.alloc(), bytes.as_slice(), 0);
        let took = start.elapsed(&rt)?.as_micros();
        match answer {
            Ok(tokens) => {
                let n = tokens.len();
                println!(rt; "{n} tokens {took} us")?;
            }
            Err(Refusal::Fault(fault)) => {
                let code = fault.code;
                let offset = fault.place.offset;
                println!(rt; "F{code} at {offset} {took} us")?;
            }
            Err(Refusal::NoMemory) => println!(rt; "no memory")?,
        }
    }
    Ok(())
}
END
echo "lex:"
cd "$work/crates/lex_time"
rt run < "$work/go.txt" 2>/dev/null | grep ' us'
