"""Stimuli, as `scc sim --stim` reads them, and the first line of their traces."""
from dataclasses import dataclass


@dataclass
class Step:
    edges: int  # bit i says whether the i-th clock has an edge
    values: list  # numbers, one for each port of the `ports` line

    @property
    def has_edge(self):
        return self.edges != 0


@dataclass
class Stimulus:
    version: int
    clocks: list  # the names of the line `clocks`; none before version 3, where the only clock has no name
    ports: list
    steps: list

    @property
    def trace_head(self):
        return f"scc-trace {min(self.version, 2)}"


def read_step(line, names_clocks):
    word, *values = line.split(" ")
    edges = int(values.pop(0), 16) if names_clocks else int(word == "step")
    return Step(edges, [int(v, 16) for v in values])


def read_stimulus(text):
    lines = text.splitlines()
    version = int(lines[0].removeprefix("scc-stim "))
    if version not in (1, 2, 3):
        raise SystemExit(f"stimuli of version {version} are not taken here")
    clocks = lines.pop(1).split(" ")[1:] if version == 3 else []
    ports = lines[1].split(" ")[1:]
    return Stimulus(version, clocks, ports, [read_step(line, version == 3) for line in lines[2:]])
