#!/bin/sh
# Compares the time and the memory of `parse` with those of gofmt and of Go's own parser on the same bytes.
set -e
here=$(cd "$(dirname "$0")" && pwd)
work=$(mktemp -d)
trap 'rm -rf "$work"' EXIT
below='gj_base go_syntax go_lexer go_grammar go_frames go_expr_steps go_field_steps go_stmt_steps go_control_steps go_parser'

# What `rt check` and `rt lib` have built of the crates is copied with them, so that it isn't built anew.
mkdir -p "$work/crates/parse_time/src"
: > "$work/crates.txt"
for crate in $below; do
    mkdir "$work/crates/$crate"
    (cd "$here/../../crates/$crate" && tar cf - --exclude=out/incremental .) | (cd "$work/crates/$crate" && tar xf -)
    grep -E "^$crate:" "$here/../../crates.txt" >> "$work/crates.txt"
done
echo 'parse_time: go_parser go_lexer go_frames go_syntax gj_base' >> "$work/crates.txt"
cat > "$work/crates/parse_time/src/main.rt" <<'END'
//! Lexes standard input and, with no argument, parses it too, and prints the microseconds of both.
#![tactic(auto)]

use gj_base::Refusal;
use go_frames::ends::file::cut_off;
use go_frames::frames::frame::{FileFrame, Frame};
use go_frames::frames::stack::Stack;
use go_lexer::lex;
use go_parser::parse;
use std::env;
use std::env::Env;
use std::io;
use std::io::Read;
use std::time::Instant;

fn main(rt: HostRuntime) -> io::Result<()> {
    let mut bytes = Vec::new(rt.alloc());
    rt.stdin().read_to_end(&mut bytes)?;
    if bytes.len() >= 4294967295 {
        return Ok(());
    }
    let with_tree = count_of_words(&rt)? < 2;
    let start = Instant::now(&rt)?;
    let answer = lex(rt.alloc(), bytes.as_slice(), 0);
    let lexed = start.elapsed(&rt)?.as_micros();
    match answer {
        Err(_) => println!(rt; "not lexed")?,
        Ok(tokens) => {
            let count = tokens.len();
            println!(rt; "lex {lexed} us, {count} tokens")?;
            if with_tree {
                let start = Instant::now(&rt)?;
                let answer = parse(rt.alloc(), &tokens);
                let parsed = start.elapsed(&rt)?.as_micros();
                println!(rt; "parse {parsed} us")?;
                match answer {
                    Ok(file) => {
                        let decls = file.decls.len();
                        cut_off(Frame::File(FileFrame::Whole(file)), Stack::new(rt.alloc()));
                        println!(rt; "{decls} declarations")?;
                    }
                    Err(Refusal::Fault(fault)) => {
                        let code = fault.code;
                        let offset = fault.place.offset;
                        println!(rt; "fault {code} at {offset}")?;
                    }
                    Err(Refusal::NoMemory) => println!(rt; "no memory")?,
                }
            }
        }
    }
    Ok(())
}

/// How many words there are, with the program's name.
fn count_of_words<R: Env + AllocGlobal>(rt: &R) -> io::Result<usize> {
    let words = env::args(rt)?.collect::<Vec<String>>(rt.alloc())?;
    Ok(words.len())
}
END
(cd "$work/crates/parse_time" && rt run < /dev/null > "$work/built.log" 2>&1) || { tail -5 "$work/built.log"; exit 1; }
go build -o "$work/go_parse" "$here/parse.go"

for size in 1000000 2000000 4000000; do
    python3 "$here/sources.py" "$work/go.go" "$size"
    for command in "gofmt -l" "$work/go_parse" "$work/crates/parse_time/out/parse_time tokens" "$work/crates/parse_time/out/parse_time"; do
        echo "$(basename "${command%% *}")${command#"${command%% *}"}:"
        # shellcheck disable=SC2086
        python3 "$here/measure.py" "$work/go.go" $command
    done
done

for kind in arguments calls constants declarations elements parentheses statements; do
    python3 "$here/dense.py" "$work/go.go" "$kind"
    for command in "$work/crates/parse_time/out/parse_time tokens" "$work/crates/parse_time/out/parse_time"; do
        echo "$kind:"
        # shellcheck disable=SC2086
        python3 "$here/measure.py" "$work/go.go" $command
    done
done
