#!/usr/bin/env python3
"""Prints how many steps a second `scc svsim` and Icarus Verilog make on the same emitted text, and `scc sim` and the SystemC
library on the same source, with their ratios.

    bench/run.py [PROGRAM]

The designs are generated ones of 100 and 1,000 stages and `bench/wide.cpp` with arithmetic of 128 bits. Each input is a
number that changes with each step, the same in all four; each program prints all outputs twice a step. What a program takes to
start, and to read its text, is left out: the time of few steps is taken off that of many. A tool that isn't installed is
left out. The status is 1 where `scc` makes fewer steps a second than the other tool on one of the two larger designs; the
small one is printed for comparison. It is 1 too where a program fails, where the times of few and of many steps tell nothing,
and where `gen 1000` writes another line than it should, which takes too long for a test.
"""
import shutil
import subprocess
import sys
import tempfile
import time
from pathlib import Path

HERE = Path(__file__).resolve().parent
sys.path.insert(0, str(HERE.parent / "tools"))
from agreeing.emitted import read_module  # noqa: E402
from agreeing.runs import has_systemc  # noqa: E402

FACTOR, ADDEND = 6364136223846793005, 1442695040888963407
REPEATS = 3
LARGEST = "stages 1000 processes 1002 registers 2000 states 2000 q a315\n"


def made(words, folder):
    return subprocess.run([str(w) for w in words], cwd=folder, check=True, capture_output=True, text=True).stdout


def seconds(words, folder):
    """The least time of some runs."""
    best = float("inf")
    for _ in range(REPEATS):
        start = time.perf_counter()
        with open(folder / "trace", "w") as trace:
            subprocess.run([str(w) for w in words], cwd=folder, check=True, stdout=trace, stderr=subprocess.DEVNULL)
        best = min(best, time.perf_counter() - start)
    return best


def rate(words_of, folder, few, many):
    """Steps a second, between a run of few steps and one of many."""
    took = seconds(words_of(many), folder) - seconds(words_of(few), folder)
    if took <= 0:
        sys.exit(f"{words_of(many)[0]}: {many} steps took no longer than {few}")
    return (many - few) / took


def is_reset(port):
    return port.name == "rst"


def stimulus(module, steps):
    ports = module.inputs()
    values = {p.name: 0 for p in ports}
    lines = ["scc-stim 1", "ports " + " ".join(p.name for p in ports)]
    for n in range(steps):
        for p in ports:
            values[p.name] = int(n == 0) if is_reset(p) else (values[p.name] * FACTOR + ADDEND) % 2**p.width
        lines.append("step " + " ".join(f"{values[p.name]:x}" for p in ports))
    return "\n".join(lines) + "\n"


def verilog_bench(module):
    lines = ["`timescale 1ns/1ns", "module testbench;", "  integer n, steps;"]
    for p in module.ports:
        lines.append(f"  {'reg' if p.is_input else 'wire'} [{p.width - 1}:0] {p.spelling};")
    lines.append(f"  \\{module.name} dut ({', '.join(f'.{p.spelling}({p.spelling})' for p in module.ports)});")
    shown = '$display("{}"{});'.format(" ".join("%h" for _ in module.outputs()), "".join(f", {p.spelling}" for p in module.outputs()))
    lines += ["  initial begin", '    if (!$value$plusargs("steps=%d", steps)) $finish;', f"    \\{module.clock} = 0;"]
    lines += [f"    {p.spelling} = 0;" for p in module.inputs()]
    lines.append("    for (n = 0; n < steps; n = n + 1) begin")
    for p in module.inputs():
        lines.append(f"      {p.spelling} = {'n == 0' if is_reset(p) else f'{p.spelling} * {max(p.width, 64)}{chr(39)}d{FACTOR} + {max(p.width, 64)}{chr(39)}d{ADDEND}'};")
    lines += [f"      #1; {shown}", f"      \\{module.clock} = 1;", f"      #1; {shown}", f"      \\{module.clock} = 0; #1;", "    end", "    $finish;", "  end", "endmodule", ""]
    return "\n".join(lines)


def systemc_bench(module, source):
    lines = ["#include <systemc.h>", "#include <cstdio>", "#include <cstdlib>", "#include <iostream>", f'#include "{source}"',
             "template<class Port> auto& wire(Port& port) {", "  typedef typename Port::data_type Data;",
             '  auto* made = new sc_signal<Data>(sc_gen_unique_name("wire"));', "  port(*made);", "  return *made;", "}",
             "int sc_main(int, char** words) {", f'  {module.name} dut("dut");', "  long steps = std::atol(words[1]);"]
    for p in module.ports:
        lines.append(f"  auto& {p.name} = wire(dut.{p.name});")
    for p in module.inputs():
        if not is_reset(p):
            lines.append(f"  sc_biguint<{p.width}> next_{p.name} = 0;")
    shown = "std::cout" + "".join(f" << {p.name}.read() << ' '" for p in module.outputs()) + " << '\\n';"
    lines += [f"  {module.clock}.write(false);", "  for (long n = 0; n < steps; n++) {"]
    for p in module.inputs():
        if is_reset(p):
            lines.append(f"    {p.name}.write(n == 0);")
        else:
            lines.append(f"    next_{p.name} = next_{p.name} * {FACTOR}ull + {ADDEND}ull;")
            lines.append(f"    {p.name}.write(next_{p.name});")
    lines += [f"    sc_start(1, SC_NS); {shown}", f"    {module.clock}.write(true);", f"    sc_start(1, SC_NS); {shown}",
              f"    {module.clock}.write(false); sc_start(1, SC_NS);", "  }", "  return 0;", "}", ""]
    return "\n".join(lines)


def told(name, ours, others, tool, theirs):
    ratio = ours / theirs
    print(f"{name:14} {others:10} {ours:12,.0f} steps a second, {tool:8} {theirs:12,.0f}, ratio {ratio:7.1f}", flush=True)
    return ratio >= 1


def measured(name, program, source, top, steps, folder):
    text = made([program, "compile", top, source], folder)
    (folder / "text.sv").write_text(text)
    module = read_module(text)
    few, many = steps // 10, steps
    for n in (few, many):
        (folder / f"{n}.stim").write_text(stimulus(module, n))
    well = True
    if shutil.which("iverilog"):
        (folder / "bench.v").write_text(verilog_bench(module))
        made(["iverilog", "-g2012", "-o", "bench.vvp", "bench.v", "text.sv"], folder)
        ours = rate(lambda n: [program, "svsim", top, "text.sv", "--stim", f"{n}.stim"], folder, few, many)
        theirs = rate(lambda n: ["vvp", "bench.vvp", f"+steps={n}"], folder, few, many)
        well = told(name, ours, "svsim", "Icarus", theirs) and well
    if has_systemc():
        (folder / "bench.cpp").write_text(systemc_bench(module, source))
        made(["g++", "-std=c++17", "-w", "-O2", "-o", "bench", "bench.cpp", "-lsystemc"], folder)
        ours = rate(lambda n: [program, "sim", top, source, "--stim", f"{n}.stim"], folder, few, many)
        theirs = rate(lambda n: ["./bench", str(n)], folder, few, many)
        well = told(name, ours, "sim", "SystemC", theirs) and well
    return well


def main():
    program = Path(sys.argv[1] if len(sys.argv) > 1 else HERE.parent / "crates/scc/out/scc").resolve()
    well = True
    with tempfile.TemporaryDirectory() as temporary:
        folder = Path(temporary)
        line = made([program, "gen", "1000"], folder)
        if line != LARGEST:
            sys.exit(f"gen 1000: {line!r}")
        for stages, steps, counts in ((100, 20000, False), (1000, 1000, True)):
            source = folder / f"gen{stages}.cpp"
            source.write_text(made([program, "gen", str(stages), "--source"], folder))
            is_well = measured(f"{stages} stages", program, source, "Gen", steps, folder)
            well = well and (is_well or not counts)
        well = measured("128 bits", program, HERE / "wide.cpp", "Wide", 14000, folder) and well
    sys.exit(0 if well else 1)


if __name__ == "__main__":
    main()
