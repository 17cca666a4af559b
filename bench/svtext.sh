#!/usr/bin/env bash
# Prints how long an emitted text of 1,000, 4,000 and 8,000 small threads takes to be read and to be printed again. Fails where 8,000 take more
# than 2.2 times as long as 4,000, or where a text is printed otherwise; the first text fits the processor's cache, so it is not compared. Where
# Icarus Verilog is installed, it reads the first text too, and has to take longer.
# The program is made, proved and built in a folder of its own.
set -euo pipefail
top=$(cd "$(dirname "$0")/.." && pwd)
work=$(mktemp -d)
trap 'rm -rf "$work"' EXIT
source "$top/bench/copied.sh"
mkdir -p "$work/crates/bench/src"
copied "$work" scc_base scc_svtext scc_svread
echo 'bench: scc_base scc_svtext scc_svread' >>"$work/crates.txt"
cat >"$work/crates/bench/src/main.rt" <<'PROGRAM'
//! Times an emitted text: read, and printed again.
#![tactic(auto)]

use scc_svread::read;
use scc_svtext::print;
use std::io;
use std::time::Instant;

fn main(rt: HostRuntime) -> io::Result<()> {
    let mut text: Vec<u8> = Vec::new(rt.alloc());
    for line in rt.lines(rt.alloc()) {
        text.extend_from_slice(line?.as_bytes())?;
        text.push(10)?;
    }
    let start = Instant::now(&rt)?;
    let module = read(rt.alloc(), text.as_slice());
    let reading = start.elapsed(&rt)?.as_micros();
    match module {
        Ok(m) => {
            let start = Instant::now(&rt)?;
            let printed = print(rt.alloc(), &m);
            let printing = start.elapsed(&rt)?.as_micros();
            match printed {
                Ok(printed) if printed.bytes() == text.as_slice() => {
                    println!(rt; "{reading} {printing}")?
                }
                _ => println!(rt; "printed otherwise")?,
            }
        }
        Err(_) => println!(rt; "refused")?,
    }
    Ok(())
}
PROGRAM

# a module of so many threads
text() {
  awk -v n="$1" 'BEGIN {
    printf "module Many (\n  input logic clk,\n  input logic rst"
    for (i = 0; i < n; i++) printf ",\n  output logic [7:0] q%d", i
    printf "\n);\n"
    for (i = 0; i < n; i++) {
      printf "  logic [7:0] q%d$$n;\n  logic s%d;\n  logic s%d$$n;\n", i, i, i
    }
    for (i = 0; i < n; i++) {
      printf "  always_comb begin\n    q%d$$n = q%d;\n    s%d$$n = s%d;\n    if (rst) begin\n      q%d$$n = 8%sh00;\n      s%d$$n = 1%sh0;\n", i, i, i, i, i, "\047", i, "\047"
      printf "    end else begin\n      case (s%d)\n", i
      for (k = 0; k < 2; k++) {
        printf "        1%sh%d: begin\n          q%d$$n = 8%s((64%s(q%d$$n) + 64%sh0000000000000001));\n          s%d$$n = 1%sh1;\n        end\n", "\047", k, i, "\047", "\047", i, "\047", i, "\047"
      }
      printf "      endcase\n    end\n  end\n  always_ff @(posedge clk) begin\n    q%d <= q%d$$n;\n    s%d <= s%d$$n;\n  end\n", i, i, i, i
    }
    printf "endmodule\n"
  }'
}

for threads in 1000 4000 8000; do
  text "$threads" >"$work/$threads.sv"
done
cd "$work/crates/bench"
rt run <"$work/1000.sv" >/dev/null 2>"$work/log" || { cat "$work/log"; exit 1; }

# the least of nine runs, in microseconds
least() {
  for _ in 1 2 3 4 5 6 7 8 9; do
    out/bench <"$1" || echo "bench: ended with $?"
  done | awk '{ if ($1 !~ /^[0-9]+$/) { print; exit } if (NR == 1 || $1 < a) a = $1; if (NR == 1 || $2 < b) b = $2 } END { print a, b }'
}

declare -A reading printing
for threads in 1000 4000 8000; do
  read -r reading[$threads] printing[$threads] < <(least "$work/$threads.sv")
  [[ ${reading[$threads]} =~ ^[0-9]+$ ]] || { echo "${reading[$threads]} ${printing[$threads]}"; exit 1; }
  echo "$(wc -l <"$work/$threads.sv") lines: read in ${reading[$threads]} us, printed in ${printing[$threads]} us"
done
if command -v iverilog >/dev/null; then
  start=$(date +%s%N)
  iverilog -g2012 -t null "$work/1000.sv"
  icarus=$((($(date +%s%N) - start) / 1000))
  echo "Icarus Verilog reads the first in $icarus us"
  [ "${reading[1000]}" -lt "$icarus" ] || { echo "slower than Icarus Verilog"; exit 1; }
fi
awk -v a="${reading[4000]}" -v b="${reading[8000]}" -v c="${printing[4000]}" -v d="${printing[8000]}" \
  'BEGIN { if (b > 2.2 * a || d > 2.2 * c) { print "more than linear"; exit 1 } }'
