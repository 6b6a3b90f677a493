#!/bin/sh
# usage: run.sh [PROGRAM]
# Prints the time of `build` on a root of 16 MB beside `gofmt -l` on the same files, and peak memory a byte of source.
set -e
here=$(cd "$(dirname "$0")" && pwd)
program=${1:-"$here/../../crates/gopherjs/out/gopherjs"}
program=$(cd "$(dirname "$program")" && pwd)/$(basename "$program")
work=$(mktemp -d)
trap 'rm -rf "$work"' EXIT
. "$here/../timed.sh"

mkdir "$work/app" "$work/least"
python3 "$here/sources.py" "$work/app"
printf 'package main\n\nfunc main() {\n}\n' > "$work/least/main.go"
cd "$work"

echo "gofmt -l, processor time:"
timed "%U s" gofmt -l app
echo "build, processor time:"
timed "%U s" "$program" build app
if [ "$(cat told)" != "a.go:1:1: no function main" ]; then
    echo "the files should have no fault of loading but that there is no main, but: $(cat told)"
    exit 1
fi
peak=$(timed "%M" "$program" build app | sort -n | tail -1)
base=$(timed "%M" "$program" build least | sort -n | tail -1)
size=$(cat app/*.go | wc -c)
echo "peak memory: $(((peak - base) * 1024 / size)) bytes a byte of source"
