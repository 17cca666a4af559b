#!/usr/bin/env bash
# Prints how long `scc compile` takes on files of 262,144, 524,288 and 1,048,576 bytes that are refused at their first joined token, so that
# it reads, cuts and joins them and does nothing else. Fails where twice the bytes take more than 2.2 times as long, or where
# the longest is read at less than 20 MB a second.
set -euo pipefail
cd "$(dirname "$0")/.."
source bench/timed.sh

# a module with comments and a macro, of which there are fewer than 262,144 tokens in the longest file
lines='SC_MODULE(Counter) { // counts the edges of its clock
  sc_in<bool> clock; /* the clock of the counter */
  sc_out<sc_uint<WIDTH> > value; // the count so far
  sc_signal<sc_uint<WIDTH> > next_value;
  void step() {
    if (reset.read() == 0x1F && enable.read()) { next_value.write(0); }
    else if (count_1 <= 255u) next_value.write(value.read() + 1);
  }
  SC_CTOR(Counter) {
    SC_METHOD(step); sensitive << clock.pos(); dont_initialize();
  }
};
'

# so many bytes of them behind a mark that begins no source, the last of them blanks
text() {
  local bytes=$1 head='}
#define WIDTH 32
'
  printf '%s' "$head"
  bytes=$((bytes - ${#head}))
  while ((bytes >= ${#lines})); do
    printf '%s' "$lines"
    bytes=$((bytes - ${#lines}))
  done
  printf '%*s' "$bytes" ''
}

failed=0
before=0
for bytes in 262144 524288 1048576; do
  file=$work/$bytes.cpp
  text "$bytes" >"$file"
  [ "$(stat -c %s "$file")" = "$bytes" ]
  status=0
  said=$("$program" compile Counter "$file" 2>&1 >/dev/null) || status=$?
  if [ "$status" != 1 ] || [[ $said != "$file:1:1: "* ]]; then
    echo "bench: expected a refusal at the first token, not status $status: $said" >&2
    exit 1
  fi
  took=$(timed 50 Counter "$file")
  printf '%8d bytes %8d us %6d KB/s\n' "$bytes" "$took" $((bytes * 1000 / took))
  if ((before > 0 && took * 10 > before * 22)); then
    echo "bench: more than 2.2 times the time for twice the bytes" >&2
    failed=1
  fi
  before=$took
done
if ((1048576 / before < 20)); then
  echo 'bench: less than 20 MB a second' >&2
  failed=1
fi
exit "$failed"
