#!/usr/bin/env python3
"""Says which parts of a crate took longest to prove.

    rm -rf crates/NAME/out; (cd crates/NAME; rt check --jobs 1); tools/slow_functions.py NAME [N]

A check with one job writes a file into crates/NAME/out/incremental for each part as soon as it is checked. So what a part took is
the time from the file before to its own. Prints the N parts (20 without a number) that took longest: seconds, bytes, name.
Of a function f, `f.Lts` is what its steps are, `f.Proof` that it meets its goals, `f.Tie` that its contract follows.
"""
import sys
from pathlib import Path

TOP = Path(__file__).resolve().parent.parent


def main():
    crate, most = sys.argv[1], int(sys.argv[2]) if len(sys.argv) > 2 else 20
    kept = TOP / "crates" / crate / "out" / "incremental"
    # the other files there are parts of these
    files = [it for it in kept.rglob("*.oantt") if it.parent.name != "records"]
    if not files:
        sys.exit(f"{kept} has no parts: run rt check --jobs 1 in crates/{crate} first")
    parts = sorted((it.stat().st_mtime, it.stat().st_size, it.name.removesuffix(".oantt")) for it in files)
    took = [(at - before, size, name) for (before, *_), (at, size, name) in zip(parts, parts[1:])]
    for seconds, size, name in sorted(took, reverse=True)[:most]:
        print(f"{seconds:8.1f} s {size:10} bytes  {name}")


if __name__ == "__main__":
    main()
