#!/bin/sh
# usage: run.sh [PROGRAM [SEED [COUNT [WHOLE]]]]
# Compares what `build` tells of COUNT random programs of each kind with what go/types tells of them, and what
# WHOLE random programs that end print with what they print by the Go toolchain.
set -e
here=$(cd "$(dirname "$0")" && pwd)
program=${1:-"$here/../../crates/gopherjs/out/gopherjs"}
work=$(mktemp -d)
trap 'rm -rf "$work"' EXIT
status=0
mkdir "$work/programs"
python3 "$here/programs.py" "$work/programs" "${2:-1}" "${3:-1000}"
GO111MODULE=off go build -o "$work/types" "$here/types.go"
python3 "$here/compare.py" "$program" "$work/types" "$work/programs" || status=1
python3 "$here/whole.py" "$work/whole" "${2:-1}" "${4:-200}"
python3 "$here/whole_compare.py" "$program" "$work/whole" || status=1
exit $status
