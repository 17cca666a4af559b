#!/usr/bin/env bash
# Prints how the processor time and the memory of `scc compile` grow on whole designs: generated ones of 250, 500 and 1,000
# stages, a thread of 8,000 and 16,000 states, 15,000 and 30,000 ports (growth.py); and how it compares with other tools
# (compile.py). Fails where twice the source takes more than 2.2 times as long (growth.py says how), where Icarus Verilog reads the text of 1,000
# stages in no more time than `scc` takes to make it, where `g++ -fsyntax-only` takes less than 100 times as long as `scc` on the
# shipped example, and where a command fails. Tools that aren't installed are left out.
set -euo pipefail
cd "$(dirname "$0")/.."
SCC=${SCC:-$(tools/scc --program)}
export SCC
failed=0
python3 bench/growth.py compile || failed=1
python3 bench/compile.py || failed=1
exit "$failed"
