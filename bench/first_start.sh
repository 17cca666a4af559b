#!/usr/bin/env bash
# Prints how long the first start of ./scc takes in a fresh clone of this repository, by the clock and in processor time: it builds the
# compiler unproved, and compiles an example. Fails where the example's text isn't written, or where a second start builds again.
set -euo pipefail
cd "$(dirname "$0")/.."
work=$(mktemp -d)
trap 'rm -rf "$work"' EXIT
git clone -q . "$work/clone"
cd "$work/clone"
TIMEFORMAT='first start: %R s by the clock, %U s and %S s of processors, of user and system'
time ./scc compile Blink examples/blink/blink.cpp >"$work/first.sv"
grep -q '^endmodule$' "$work/first.sv"
said=$(./scc compile Blink examples/blink/blink.cpp 2>&1 >"$work/second.sv")
[ -z "$said" ]
cmp "$work/first.sv" "$work/second.sv"
