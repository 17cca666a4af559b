#!/usr/bin/env bash
# Prints how the processor time of `scc compile` grows on arrays of 500 to 65,000 elements that are read and written under indices, at
# all doublings. Fails where twice the elements take more than 2.2 times as long. A statement that writes one array element under an
# index and reads another under an index is only printed: its text grows with the square. See growth.py.
set -euo pipefail
cd "$(dirname "$0")/.."
SCC=${SCC:-$(tools/scc --program)}
export SCC
exec python3 bench/growth.py arrays
