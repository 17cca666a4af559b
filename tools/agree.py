#!/usr/bin/env python3
"""Runs a design by scc and by every other tool that is installed, on one stimulus, and compares the traces.

    tools/agree.py TOP FILE [FILE ..] --stim S [--hier | --clocks | --memory] [--expect TRACE]
    tools/agree.py TOP FILE [FILE ..] --random N [--seed S] ..      a stimulus of N random steps
    tools/agree.py --random N [--seed S] ..                         N random designs, on 24 random steps each

One line for each tool says `same`, `differs` with the first line that does, `failed`, or why it wasn't run; for random designs
one line for each design. All traces are compared with TRACE where it is given, and with that of `scc sim` otherwise. The tools
are `scc sim`, `scc svsim`, the SystemC library with g++, Icarus Verilog, Verilator, and Yosys, whose netlist Icarus runs.
--hier, --clocks and --memory are those of `scc compile`. The status is 0 where all that was run agrees, and 1 otherwise.
"""
import argparse
import sys
import tempfile
from pathlib import Path

from agreeing.compiler import compiler
from agreeing.emitted import read_module
from agreeing.many import compare_designs
from agreeing.runs import TOOLS, Failed, call, key
from agreeing.steps import resets_of, stimulus
from agreeing.stimulus import read_stimulus
from portable import portable

FORMS = ("--hier", "--clocks", "--memory")
SECONDS = 300


class Job:
    """A design that was compiled, with a stimulus and a folder to work in."""

    def __init__(self, asked, top, sources, stimulus_file, folder):
        self.scc, self.seconds, self.flags = asked.words, asked.seconds, asked.flags
        self.top, self.folder = top, folder
        # one of many
        self.is_random = asked.top is None
        self.sources = [Path(s).resolve() for s in sources]
        self.emitted = folder / f"{top}.sv"
        self.emitted.write_text(self.call(self.scc + ["compile", top, *self.sources, *self.flags]))
        self.module = read_module(self.emitted.read_text())
        # the text that other tools are given
        self.given = self.emitted
        if asked.portable:
            self.given = folder / f"{top}.portable.sv"
            self.given.write_text(portable(self.emitted.read_text()))
        self.stimulus_file = Path(stimulus_file).resolve() if stimulus_file else self.random_stimulus(asked)
        # scc says what is wrong with a stimulus
        self.wanted = self.source_trace()
        self.stimulus = read_stimulus(self.stimulus_file.read_text())

    def random_stimulus(self, asked):
        text = self.emitted.read_text()
        file = self.folder / f"{self.top}.stim"
        file.write_text(stimulus(self.module, resets_of(self.module, text), "--clocks" in self.flags, asked.steps, asked.seed, 2))
        return file

    def call(self, words):
        return call(words, self.folder, self.seconds)

    def source_trace(self):
        flags = [f for f in self.flags if f == "--clocks"]
        return self.call(self.scc + ["sim", self.top, *self.sources, "--stim", self.stimulus_file, *flags])

    def emitted_trace(self):
        return self.call(self.scc + ["svsim", self.top, self.emitted, "--stim", self.stimulus_file, *self.flags])


def difference(wanted, got):
    """The first line that differs, in words; None where both are the same."""
    if wanted == got:
        return None
    a, b = wanted.splitlines() + ["the end"], got.splitlines() + ["the end"]
    k = next(k for k in range(min(len(a), len(b))) if a[k] != b[k])
    return f"at line {k + 1}: wanted '{a[k]}', got '{b[k]}'"


def compare(job, expected, only):
    all_agree = True
    expected = job.wanted if expected is None else expected
    for name, is_installed, trace_of in TOOLS:
        if only and key(name) not in only:
            continue
        if name == "scc svsim" and "--memory" in job.flags:
            print(f"  {name:10} reads no memories", flush=True)
            continue
        if not is_installed():
            print(f"  {name:10} not installed", flush=True)
            continue
        try:
            trace = trace_of(job)
        except Failed as fault:
            print(f"  {name:10} failed: {fault}", flush=True)
            all_agree = False
            continue
        (job.folder / f"{name.replace(' ', '-').lower()}.trace").write_text(trace)
        differs = difference(expected, trace)
        print(f"  {name:10} {'same' if differs is None else 'differs ' + differs}", flush=True)
        all_agree = all_agree and differs is None
    return all_agree


def one_design(asked, folder):
    expected = Path(asked.expect).read_text() if asked.expect else None
    try:
        job = Job(asked, asked.top, asked.sources, asked.stim, folder)
    except Failed as fault:
        print(f"{asked.top}: {fault}")
        return False
    lines = job.emitted.read_text().count("\n")
    print(f"{job.top}: {lines} lines of SystemVerilog, {len(job.stimulus.steps)} steps")
    return compare(job, expected, asked.only)


def read_words():
    parser = argparse.ArgumentParser(description=__doc__, formatter_class=argparse.RawDescriptionHelpFormatter)
    parser.add_argument("top", metavar="TOP", nargs="?")
    parser.add_argument("sources", metavar="FILE", nargs="*")
    parser.add_argument("--stim", metavar="S", help="the stimulus")
    parser.add_argument("--random", metavar="N", type=int, help="in its place N random steps; without TOP, N random designs")
    parser.add_argument("--seed", metavar="S", type=int, default=1,
                        help="another seed, other steps or designs; 1 where it isn't given")
    parser.add_argument("--only", metavar="TOOL", nargs="+", choices=[key(name) for name, *_ in TOOLS],
                        help="runs these alone: " + " ".join(key(name) for name, *_ in TOOLS))
    parser.add_argument("--portable", action="store_true", help="gives other tools the text as tools/portable.py writes it")
    parser.add_argument("--seconds", metavar="N", type=int, default=SECONDS,
                        help=f"ends a tool that takes longer, and says so; {SECONDS} where it isn't given")
    parser.add_argument("--expect", metavar="TRACE", help="the trace that is wanted, in the place of that of scc sim")
    parser.add_argument("--scc", metavar="CMD", help="another program in the place of ./scc, as is the environment's SCC")
    parser.add_argument("--keep", metavar="FOLDER", help="leaves texts, testbenches and traces there")
    forms = parser.add_mutually_exclusive_group()
    for flag in FORMS:
        forms.add_argument(flag, action="append_const", const=flag, dest="flags", default=[])
    asked = parser.parse_args()
    if asked.top and not asked.sources:
        parser.error(f"no file after the module {asked.top}")
    if asked.stim and asked.random:
        parser.error("--stim and --random exclude each other")
    if not asked.random and not (asked.top and asked.stim):
        parser.error("a design wants --stim S or --random N" if asked.top else "give a design, or --random N for random ones")
    if not asked.top and (asked.flags or asked.expect):
        parser.error("random designs take no --hier, --clocks, --memory or --expect")
    return asked


def main():
    asked = read_words()
    asked.words, asked.steps = compiler(asked.scc), asked.random if asked.top else 24
    with tempfile.TemporaryDirectory() as temporary:
        folder = Path(asked.keep or temporary).resolve()
        folder.mkdir(parents=True, exist_ok=True)
        is_well = one_design(asked, folder) if asked.top else compare_designs(asked, folder, Job, difference)
    sys.exit(0 if is_well else 1)


if __name__ == "__main__":
    main()
