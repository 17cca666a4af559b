#!/usr/bin/env bash
# Prints how the processor time of `scc compile` grows with `--hier` (10,000 instances), `--memory` (65,000 elements) and `--clocks` (128
# clocks, and 4,096 variables at 128 clocks), and that of `svsim --hier`, `sim --clocks` and `svsim --clocks` on the same designs: at half of
# a size and at the size. Fails where twice the source takes more than 2.2 times as long; where the clocks grow with the variables it is only
# printed. See growth.py.
set -euo pipefail
cd "$(dirname "$0")/.."
SCC=${SCC:-$(tools/scc --program)}
export SCC
exec python3 bench/growth.py forms
