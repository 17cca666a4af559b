#!/usr/bin/env python3
"""Prints the processor time of `scc compile` beside that of other tools: Icarus Verilog, which reads the text of a generated
design, and `g++ -fsyntax-only` with SystemC's headers on the shipped example. Tools that aren't installed are left out.

The program is that of SCC, else crates/scc/out/scc. Fails where a command fails or says anything, where Icarus takes no longer
than `scc`, and where g++ takes less than 100 times as long.
"""
import pathlib
import shutil
import subprocess
import sys
import tempfile

from growth import PROGRAM, TOP, generated, measured

STAGES = 1000
# the lines of their text
LINES = 27016
EXAMPLE = str(TOP / "examples/and/and.cpp")


def seconds(what, program, words, folder):
    """Prints and answers the processor time of a command that says nothing."""
    status, said, took, _ = measured(words, folder, program)
    if status != 0 or said:
        sys.exit(f"{what}: status {status}: {said[:200].strip()}")
    print(f"{what:<44} {took * 1000:>9.1f} ms", flush=True)
    return took


def has_systemc(compiler, folder):
    pathlib.Path(folder, "include.cpp").write_text("#include <systemc.h>\n")
    return subprocess.run([compiler, "-fsyntax-only", "include.cpp"], cwd=folder, capture_output=True).returncode == 0


def is_behind_icarus(folder):
    pathlib.Path(folder, "gen.cpp").write_text(generated(STAGES))
    text = subprocess.run([PROGRAM, "compile", "Gen", "gen.cpp"], cwd=folder, capture_output=True, check=True).stdout
    pathlib.Path(folder, "gen.sv").write_bytes(text)
    if text.count(b"\n") != LINES:
        sys.exit(f"the text of {STAGES} stages has {text.count(bytes([10]))} lines, not {LINES}")
    took = seconds(f"scc compile, {STAGES} stages", PROGRAM, ["compile", "Gen", "gen.cpp"], folder)
    icarus = shutil.which("iverilog")
    if icarus is None:
        return False
    return seconds("iverilog -g2012, their text", icarus, ["-g2012", "-o", "gen.vvp", "gen.sv"], folder) <= took


def is_near_gcc(folder):
    took = seconds("scc compile, the shipped example", PROGRAM, ["compile", "And", EXAMPLE], folder)
    compiler = shutil.which("g++")
    if compiler is None or not has_systemc(compiler, folder):
        return False
    return seconds("g++ -fsyntax-only, the shipped example", compiler, ["-fsyntax-only", EXAMPLE], folder) < 100 * took


def main():
    failed = False
    with tempfile.TemporaryDirectory() as folder:
        if is_behind_icarus(folder):
            print("scc takes as long as Icarus, or longer")
            failed = True
        if is_near_gcc(folder):
            print("g++ takes less than 100 times as long as scc")
            failed = True
    sys.exit(failed)


if __name__ == "__main__":
    main()
