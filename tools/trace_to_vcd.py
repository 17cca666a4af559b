#!/usr/bin/env python3
"""Makes a VCD file, for GTKWave and the like, of a trace that `scc sim` or `scc svsim` wrote.

    tools/trace_to_vcd.py TRACE [--stim S] [--module T.sv] > T.vcd

With --stim the inputs are shown too. With --module, the text that `scc compile` wrote, widths are exact and the clocks
are shown; else a width is four bits for each digit. Step N begins at 10 * N: the inputs change there; the edges are at
10 * N + 5.
"""
import argparse
import itertools
import sys
from pathlib import Path

from agreeing.emitted import read_module
from agreeing.stimulus import read_stimulus

STEP = 10
EDGE = 5


def identifiers():
    """The short names of a VCD file: `!`, `"`, .., `~`, `!!`, .."""
    letters = [chr(c) for c in range(33, 127)]
    for length in itertools.count(1):
        for letter in itertools.product(letters, repeat=length):
            yield "".join(letter)


def read_trace(text):
    """(time, {name: digits}) for each line of a trace."""
    lines = text.splitlines()
    if not lines or not lines[0].startswith("scc-trace "):
        sys.exit("the first line isn't that of a trace")
    for line in lines[1:]:
        label, *values = line.split(" ")
        time = int(label[:-1]) * STEP + (EDGE if label[-1] == "+" else 0)
        yield time, dict(v.split("=") for v in values)


def events_of(trace, stimulus, module):
    """Each change: (time, name, number)."""
    for time, values in read_trace(trace):
        for name, digits in values.items():
            yield time, name, int(digits, 16)
    for number, step in enumerate(stimulus.steps if stimulus else []):
        for name, value in zip(stimulus.ports, step.values):
            yield number * STEP, name, value
    for k, clock in enumerate(module.clocks_of(stimulus) if stimulus and module else []):
        for number, step in enumerate(stimulus.steps):
            yield number * STEP, clock.name, int(not clock.rising)
            if step.edges >> k & 1:
                yield number * STEP + EDGE, clock.name, int(clock.rising)


def widths_of(trace, stimulus, module):
    if module:
        return {p.name: p.width for p in module.ports}
    widths = {}
    for _, values in read_trace(trace):
        widths.update((name, 4 * len(digits)) for name, digits in values.items())
    for k, name in enumerate(stimulus.ports if stimulus else []):
        widths[name] = max((s.values[k].bit_length() for s in stimulus.steps), default=1) or 1
    return widths


def vcd(trace, stimulus, module):
    widths = widths_of(trace, stimulus, module)
    events = sorted(events_of(trace, stimulus, module), key=lambda e: e[0])
    shown = sorted({name for _, name, _ in events}, key=list(widths).index)
    short = dict(zip(shown, identifiers()))
    lines = ["$timescale 1ns $end", f"$scope module {module.name if module else 'trace'} $end"]
    lines += [f"$var wire {widths[name]} {short[name]} {name} $end" for name in shown]
    lines += ["$upscope $end", "$enddefinitions $end"]
    now, last = None, {}
    for time, name, value in events:
        if last.get(name) == value:
            continue
        if time != now:
            lines.append(f"#{time}")
            now = time
        last[name] = value
        lines.append(f"{value}{short[name]}" if widths[name] == 1 else f"b{value:b} {short[name]}")
    end = max((time for time, _, _ in events), default=0) // STEP * STEP + STEP
    return "\n".join([*lines, f"#{end}", ""])


def main():
    parser = argparse.ArgumentParser(description=__doc__, formatter_class=argparse.RawDescriptionHelpFormatter)
    parser.add_argument("trace", metavar="TRACE")
    parser.add_argument("--stim")
    parser.add_argument("--module")
    a = parser.parse_args()
    for name in filter(None, (a.trace, a.stim, a.module)):
        if not Path(name).is_file():
            sys.exit(f"no file {name}")
    stimulus = read_stimulus(Path(a.stim).read_text()) if a.stim else None
    module = read_module(Path(a.module).read_text()) if a.module else None
    sys.stdout.write(vcd(Path(a.trace).read_text(), stimulus, module))


if __name__ == "__main__":
    main()
