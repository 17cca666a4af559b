#!/usr/bin/env bash
# Prints how the processor time of `scc compile` grows on sources that are large for the middle stages, at half of a size and at the size.
# Near a limit are 60,000 statements of a process (65,536), 8,000 processes (216,000 of 262,144 tokens), 16,000 waits (16,384), 4,000 turns
# (4,096) and an array of 60,000 elements (65,536). The others are 30,000 signals in one list, 30,000 indices over 30,000 elements, which are
# refused as too wide, and 200 empty loops in 4,000 turns, which are refused as too many. Fails where one isn't answered so, or where twice
# the source takes more than 2.2 times as long. See growth.py.
set -euo pipefail
cd "$(dirname "$0")/.."
SCC=${SCC:-$(tools/scc --program)}
export SCC
exec python3 bench/growth.py middle
