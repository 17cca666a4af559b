"""What the other tools need to know of an emitted text: the ports of its first module, its clocks, resets and registers.

The text has one form, line by line, so a few patterns are enough.
"""
import re
from dataclasses import dataclass, field

NAME = r"(?:\\\S+ |[A-Za-z_][\w$]*)"
MODULE = re.compile(rf"module ({NAME}) ?\($")
PORT = re.compile(r"  (input|output) logic (?:\[(\d+):0\] )?(.*?),?$")
INSTANCE = re.compile(rf"  ({NAME}) ({NAME}) ?\((.*)\);$")
WIRE = re.compile(rf"\.({NAME})\(({NAME})\)")
MEMORY = re.compile(rf"  logic (?:\[\d+:0\] )?({NAME}) \[0:(\d+)\];$")
EDGE = re.compile(r"  always_ff @\((posedge|negedge) (\S+?) ?(?:\)| or (posedge|negedge) (\S+?) ?\))")
SET = re.compile(r" +(\S+ ?) <= ")


@dataclass
class Port:
    name: str  # without the escape of a reserved word
    width: int
    is_input: bool

    @property
    def digits(self):
        """Hexadecimal digits of a value, as many as a literal of this width has."""
        return (self.width + 3) // 4

    @property
    def spelling(self):
        """The name as SystemVerilog writes it: all ports are escaped where they are connected."""
        return spelled(self.name)


@dataclass
class Clock:
    name: str
    rising: bool


@dataclass
class Reset:
    name: str
    active: bool  # the level at which it resets


@dataclass
class Module:
    name: str
    ports: list
    clocks: list = field(default_factory=list)  # in the order of the ports; none in a module of combinational blocks alone
    resets: list = field(default_factory=list)  # the asynchronous ones
    registers: list = field(default_factory=list)  # as SystemVerilog names them from outside: elements and instances too

    @property
    def clock(self):
        return self.clocks[0].name if self.clocks else None

    def inputs(self):
        clocks = [c.name for c in self.clocks]
        return [p for p in self.ports if p.is_input and p.name not in clocks]

    def outputs(self):
        return [p for p in self.ports if not p.is_input]

    def clocks_of(self, stimulus):
        """The clocks in the order in which a stimulus names them."""
        place = {name: k for k, name in enumerate(stimulus.clocks)}
        return sorted(self.clocks, key=lambda c: place.get(c.name, 0))


def plain(name):
    return name.strip().lstrip("\\")


def spelled(name):
    return f"\\{name} "


class Part:
    """One `module` of a text."""

    def __init__(self, lines):
        self.name, self.ports, self.edges, self.resets, self.registers, self.instances = "", [], {}, {}, [], []
        memories = {}
        for line in lines:
            if found := MODULE.match(line):
                self.name = plain(found.group(1))
            elif found := PORT.match(line):
                width = int(found.group(2)) + 1 if found.group(2) else 1
                self.ports.append(Port(plain(found.group(3)), width, found.group(1) == "input"))
            elif found := MEMORY.match(line):
                memories[plain(found.group(1))] = int(found.group(2)) + 1
            elif found := EDGE.match(line):
                self.edges[plain(found.group(2))] = found.group(1) == "posedge"
                if found.group(3):
                    self.resets[plain(found.group(4))] = found.group(3) == "posedge"
            elif found := INSTANCE.match(line):
                wires = {plain(port): plain(wire) for port, wire in WIRE.findall(found.group(3))}
                self.instances.append((plain(found.group(1)), plain(found.group(2)), wires))
            elif found := SET.match(line):
                name = plain(found.group(1)).split("[")[0]
                self.registers += [spelled(name)] if name not in memories else []
        self.registers += [f"{spelled(name)}[{k}]" for name, length in memories.items() for k in range(length)]
        self.registers = list(dict.fromkeys(self.registers))


def gathered(parts, part):
    """The edges, resets and registers of a module with those of its instances."""
    edges, resets, registers = dict(part.edges), dict(part.resets), list(part.registers)
    for module, name, wires in part.instances:
        inner_edges, inner_resets, inner_registers = gathered(parts, parts[module])
        edges.update((wires[clock], rising) for clock, rising in inner_edges.items())
        resets.update((wires[reset], active) for reset, active in inner_resets.items())
        registers += [f"{spelled(name)}.{r}" for r in inner_registers]
    return edges, resets, registers


def read_module(text):
    """The first module of an emitted text, with what is in its instances."""
    parts = [Part(lines.splitlines()) for lines in re.split(r"^(?=module )", text, flags=re.M) if lines]
    top = parts[0]
    edges, resets, registers = gathered({p.name: p for p in parts}, top)
    clocks = [Clock(p.name, edges[p.name]) for p in top.ports if p.name in edges]
    asynchronous = [Reset(p.name, resets[p.name]) for p in top.ports if p.name in resets]
    return Module(top.name, top.ports, clocks, asynchronous, registers)
