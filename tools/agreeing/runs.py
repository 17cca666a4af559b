"""One function for each tool that can run a design. Each gives the tool's trace, or raises Failed."""
import contextlib
import os
import shutil
import signal
import subprocess
from pathlib import Path

from agreeing import systemc, verilog


class Failed(Exception):
    """A tool ended with a fault; the text is the first line that speaks of an error, or the first that it printed."""


def call(words, folder, seconds):
    """What a program prints. With what it started it is ended after so many seconds."""
    program = Path(str(words[0])).name
    try:
        run = subprocess.Popen([str(w) for w in words], cwd=folder, stdin=subprocess.DEVNULL, stdout=subprocess.PIPE,
                               stderr=subprocess.PIPE, text=True, errors="replace", start_new_session=True)
    except OSError as fault:
        raise Failed(f"{words[0]} can't be run: {fault.strerror}")
    try:
        output, said = run.communicate(timeout=seconds)
    except subprocess.TimeoutExpired:
        raise Failed(f"{program} hangs, or wants more than {seconds} seconds (--seconds N gives it N)")
    finally:
        if run.poll() is None:
            with contextlib.suppress(ProcessLookupError):
                os.killpg(run.pid, signal.SIGKILL)
            run.wait()
    if run.returncode:
        lines = (said + output).strip().splitlines() or ["no output"]
        fault = next((line for line in lines if "error" in line.lower()), lines[0])
        raise Failed(f"{program} ended with {run.returncode}: {fault}")
    return output


def trace_of(output):
    """The trace's lines; simulators may print more, before or after."""
    lines = output.splitlines()
    start = next((k for k, line in enumerate(lines) if line.startswith("scc-trace ")), len(lines))
    kept = [line for line in lines[start:] if line.startswith("scc-trace ") or line[:1].isdigit()]
    return "".join(line + "\n" for line in kept)


def icarus(job):
    bench = job.folder / "testbench.v"
    bench.write_text(verilog.testbench(job.module, job.stimulus))
    job.call(["iverilog", "-g2012", "-o", "icarus.vvp", bench, job.given])
    return trace_of(job.call(["vvp", "icarus.vvp"]))


def verilated(top, files, folder, seconds):
    """What Verilator's program prints for a testbench."""
    call(["verilator", "--binary", "-j", "1", "-fno-const-bit-op-tree", "-Wno-fatal", "-Wno-lint", "-Wno-style", "--x-initial", "0",
          "--x-assign", "0", "--timescale", "1ns/1ns", "--top-module", top, "--Mdir", "verilated", "-o", "simulation", *files], folder, seconds)
    return call([folder / "verilated" / "simulation"], folder, seconds)


def verilator(job):
    bench = job.folder / "testbench.v"
    bench.write_text(verilog.testbench(job.module, job.stimulus))
    return trace_of(verilated("testbench", [bench, job.given], job.folder, job.seconds))


def yosys(job):
    """What Yosys synthesises, run by Icarus. Of one design among many it makes no gates, which takes most of its time."""
    netlist, bench = job.folder / "netlist.v", job.folder / "netlist_testbench.v"
    # a memory of the text has to be one for Yosys too: as registers it would give the same trace. Yosys 0.23 makes
    # registers of a memory in a block with an asynchronous reset
    has_memory = "--memory" in job.flags and "[0:" in job.emitted.read_text() and not job.module.resets
    seen = "memory -nomap; select -assert-min 1 t:$mem*; " if has_memory else ""
    # memories go first: Yosys 0.23 fails where setundef has set the enables of their ports
    made = "opt_clean" if job.is_random else f"synth -top \\{job.module.name}"
    job.call(["yosys", "-q", "-p", f"read_verilog -sv {job.given}; proc; {seen}memory; setundef -zero -init; {made}; "
              f"check -assert; write_verilog -noattr {netlist}"])
    bench.write_text(verilog.testbench(job.module, job.stimulus, registers_are_named=False))
    job.call(["iverilog", "-g2012", "-o", "netlist.vvp", bench, netlist])
    return trace_of(job.call(["vvp", "netlist.vvp"]))


def systemc_library(job):
    bench = job.folder / "testbench.cpp"
    bench.write_text(systemc.testbench(job.module, job.stimulus, job.sources))
    # as scc reads it, so that a testbench of the source's own stays out
    job.call(["g++", "-std=c++17", "-w", "-O0", "-DSCC_SYNTHESIS", "-o", "systemc", bench, "-lsystemc"])
    return trace_of(job.call([job.folder / "systemc"]))


def has_systemc():
    if not shutil.which("g++"):
        return False
    seen = subprocess.run(["g++", "-E", "-x", "c++", "-"], input="#include <systemc.h>\n", capture_output=True, text=True)
    return seen.returncode == 0


def has(*programs):
    return lambda: all(shutil.which(p) for p in programs)


def always():
    return True


# name, is it installed, its trace
TOOLS = [
    ("scc sim", always, lambda job: job.source_trace()),
    ("scc svsim", always, lambda job: job.emitted_trace()),
    ("SystemC", has_systemc, systemc_library),
    ("Icarus", has("iverilog", "vvp"), icarus),
    ("Verilator", has("verilator", "g++"), verilator),
    ("Yosys", has("yosys", "iverilog", "vvp"), yosys),
]


def key(name):
    """What --only calls a tool."""
    return name.split()[-1].lower()
