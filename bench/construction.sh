#!/usr/bin/env bash
# Prints how the processor time of `scc compile` grows on sources that are large for the construction stages: at half of a limit and at the limit.
# Fails where twice the source takes more than 2.2 times as long. See growth.py.
set -euo pipefail
cd "$(dirname "$0")/.."
SCC=${SCC:-$(tools/scc --program)}
export SCC
exec python3 bench/growth.py construction
