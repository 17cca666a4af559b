#!/usr/bin/env bash
# Prints how long `scc compile` takes on sources of 131,072 and 262,144 tokens that are files of the grammar and have no module of the name
# that is asked for, so that it reads, joins and parses them and does little else: statements, long chains of operators, members, calls and
# arguments, and declarations.
# Fails where one is not read, where twice the tokens take more than 2.5 times as long (a longer tree no longer fits the caches), or where there
# are fewer than a million tokens a second.
set -euo pipefail
cd "$(dirname "$0")/.."
source bench/timed.sh

# a source of at most so many tokens: what stands before, what is repeated, how many tokens that has, what stands behind, and how many
# tokens stand before and behind
text() {
  local tokens=$1 before=$2 piece=$3 each=$4 behind=$5 rest=$6
  printf '%s' "$before"
  awk -v count="$(((tokens - rest) / each))" -v piece="$piece" 'BEGIN { for (i = 0; i < count; i++) printf "%s", piece }'
  printf '%s' "$behind"
}

failed=0
while IFS='@' read -r name before piece each behind rest; do
  half=0
  for tokens in 131072 262144; do
    file=$work/source.cpp
    text "$tokens" "$before" "$piece" "$each" "$behind" "$rest" >"$file"
    said=$("$program" compile Top "$file" 2>&1 >/dev/null) || true
    [[ $said =~ :\ E3[0-9][0-9]\  ]] || { echo "$name: $said"; failed=1; }
    took=$(timed 40 Top "$file")
    printf '%-24s %7d tokens %8d us %6d tokens a millisecond\n' "$name" "$tokens" "$took" $((tokens * 1000 / took))
    ((tokens == 131072 || took * 10 <= half * 25)) || { echo "$name: not linear"; failed=1; }
    ((took <= tokens)) || { echo "$name: fewer than a million tokens a second"; failed=1; }
    half=$took
  done
done <<'SHAPES'
statements@void f() { @x = a + b * c[1] - f(d); @16@}@6
sums@void f() { x = 1@ + 1@2@; }@10
operators of all levels@void f() { x = 1@ || a && b | c ^ d & e == f < g << h + i * j@20@; }@10
members@void f() { x = a@.b@2@; }@10
calls@void f() { x = a@()@2@; }@10
arguments@void f() { x = a(1@, 1@2@); }@13
functions@@int f(int x, bool *y) const { return x; } @17@@0
fields@struct S { @sc_in<sc_uint<8> > a, *b; @12@};@5
SHAPES
exit "$failed"
