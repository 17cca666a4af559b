#!/usr/bin/env bash
# Prints how long `scc compile` takes on the shipped example, by the launcher and by the program itself, beside `true`, and
# on thin texts of 250, 500 and 1,000 ports, whose cost is to grow with their length.
set -euo pipefail
cd "$(dirname "$0")/.."
program=${SCC:-$(tools/scc --program)}
work=$(mktemp -d)
trap 'rm -rf "$work"' EXIT

# a thin text of so many ports: half of them inputs, half of them outputs
thin_text() {
  local half=$(($1 / 2)) i
  echo '#include <systemc.h>'
  echo 'SC_MODULE(Wide) {'
  for ((i = 0; i < half; i++)); do echo "  sc_in<sc_uint<32> > in_$i; sc_out<sc_uint<32> > out_$i;"; done
  echo '  void f() {'
  for ((i = 0; i < half; i++)); do echo "    out_$i.write(in_$i.read() ^ in_$(((i + 1) % half)).read());"; done
  echo '  }'
  printf '  SC_CTOR(Wide) { SC_METHOD(f); sensitive'
  for ((i = 0; i < half; i++)); do printf ' << in_%d' "$i"; done
  echo '; }'
  echo '};'
}

# a line with a name and the milliseconds of the fastest of 100 runs, which other work on the machine disturbs least
timed() {
  local name=$1 best=1000000 start took
  shift
  for _ in {1..100}; do
    start=${EPOCHREALTIME/[.,]/}
    "$@" >/dev/null || { echo "bench: $name: status $?" >&2; exit 1; }
    took=$((${EPOCHREALTIME/[.,]/} - start))
    ((took >= best)) || best=$took
  done
  printf '%-28s %5d.%02d ms\n' "$name" $((best / 1000)) $((best % 1000 / 10))
}

timed 'true' /bin/true
[[ -n ${SCC:-} ]] || timed './scc compile And' ./scc compile And examples/and/and.cpp
timed 'the program itself' "$program" compile And examples/and/and.cpp
for ports in 250 500 1000; do
  thin_text "$ports" >"$work/$ports.cpp"
  timed "thin text of $ports ports" "$program" compile Wide "$work/$ports.cpp"
done
