#!/bin/sh
# usage: run.sh [PROGRAM]
# Prints the time of `build` on 25,000, 50,000 and 100,000 lines of each kind beside `go vet` on the same files, and peak memory a
# byte of source.
set -e
here=$(cd "$(dirname "$0")" && pwd)
program=${1:-"$here/../../crates/gopherjs/out/gopherjs"}
program=$(cd "$(dirname "$program")" && pwd)/$(basename "$program")
work=$(mktemp -d)
trap 'rm -rf "$work"' EXIT
. "$here/../timed.sh"

mkdir "$work/least"
printf 'package main\n\nfunc main() {\n}\n' > "$work/least/main.go"
cd "$work"

base=$(timed "%M" "$program" build least | sort -n | tail -1)
for kind in scalar mixed; do
    for lines in 25000 50000 100000; do
        mkdir "$kind$lines"
        python3 "$here/sources.py" "$kind" "$kind$lines" "$lines"
        echo "$lines lines, $kind"
        echo "go vet, processor time:"
        GOARCH=386 CGO_ENABLED=0 timed "%U s" go vet "$kind$lines/main.go"
        if [ -s told ]; then
            echo "go vet should tell nothing, but: $(head -1 told)"
            exit 1
        fi
        echo "build, processor time:"
        timed "%U s" "$program" build "$kind$lines"
        if [ -s told ]; then
            echo "build should tell nothing, but: $(cat told)"
            exit 1
        fi
        peak=$(timed "%M" "$program" build "$kind$lines" | sort -n | tail -1)
        size=$(wc -c < "$kind$lines/main.go")
        echo "peak memory: $(((peak - base) * 1024 / size)) bytes a byte of source"
    done
done
