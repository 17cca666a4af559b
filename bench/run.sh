#!/usr/bin/env bash
# Prints how many steps a second `scc svsim` makes beside Icarus Verilog, and `scc sim` beside the SystemC library, with their
# ratios. Tools that aren't installed are left out. Fails where `scc` is slower on one of the two larger designs, where a program
# fails, and where `gen 1000` writes another line than it should.
set -euo pipefail
cd "$(dirname "$0")/.."
exec python3 bench/run.py "${SCC:-$(tools/scc --program)}"
