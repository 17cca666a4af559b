"""What a thin text denotes (scc_drive: Reading, Resolved, Source; scc_semantics: Location, Design, Body), and what that
design shows (scc_semantics: Store, Value, Machine, Process, Run)."""
from typing import NamedTuple

from observing.texts import Cursor, Different, Port
from observing.words import EXACT, Kind, applied, common_of, number_of, stored, uint


class Put(NamedTuple):
    """A write; `op` is None where it is of one read."""
    target: int
    first: int
    op: str
    second: int


class Thin(NamedTuple):
    top: str
    ports: list
    puts: list
    senses: list


def read_thin(text):
    comment, line, rest = text.partition("#include <systemc.h>\n")
    if not line or any(not c.startswith("//") for c in comment.splitlines()):
        raise Different("the head")
    at, ports, puts, senses = Cursor(rest, r"[A-Za-z0-9_]+|<<|[(){}<>;,.&|^]"), [], [], []

    def port():
        return at.one_of({p.name: i for i, p in enumerate(ports)})

    def read():
        first = port()
        at.take(". read ( )")
        return first

    at.take("SC_MODULE (")
    top = at.word()
    at.take(") {")
    while not at.has("void"):
        output = at.one_of({"sc_in": False, "sc_out": True})
        at.take("< sc_uint <")
        width = at.number()
        at.take("> >")
        ports.append(Port(at.word(), width, output))
        while at.has(","):
            ports.append(Port(at.word(), width, output))
        at.take(";")
    function = at.word()
    at.take("( ) {")
    while not at.has("}"):
        target = port()
        at.take(". write (")
        first = read()
        op = at.word() if at.tokens[0] in EXACT else None
        puts.append(Put(target, first, op, read() if op else first))
        at.take(") ;")
    at.take(f"SC_CTOR ( {top} ) {{ SC_METHOD ( {function} ) ; sensitive")
    while at.has("<<"):
        senses.append(port())
    at.take("; } } ;")
    return Thin(top, ports, puts, senses)


class Location(NamedTuple):
    root: str
    path: tuple


TOP = Location("Top", ())


def within(l, name):
    return Location(l.root, l.path + (name,))


def member(i):
    return within(TOP, i)


class Read(NamedTuple):
    """`field` of the object of the process."""
    kind: Kind
    field: int


class Convert(NamedTuple):
    to: Kind
    of: object


class Binary(NamedTuple):
    op: str
    left: object
    right: object


class Write(NamedTuple):
    field: int
    value: object
    rest: object


class Process(NamedTuple):
    """A combinational method, the sort that a thin text has."""
    object: Location
    senses: list
    body: object


class Design(NamedTuple):
    things: dict
    inputs: list
    outputs: list
    processes: list


def source_of(t):
    def read_of(i):
        return Read(uint(t.ports[i].width), i)

    def written_of(p):
        return Binary(p.op, read_of(p.first), read_of(p.second)) if p.op else read_of(p.first)

    body = None
    for p in reversed(t.puts):
        body = Write(p.target, Convert(uint(t.ports[p.target].width), written_of(p)), body)
    return Design(
        {member(i): uint(p.width) for i, p in enumerate(t.ports)},
        [member(i) for i, p in enumerate(t.ports) if not p.output],
        [member(i) for i, p in enumerate(t.ports) if p.output],
        [Process(TOP, [member(i) for i in t.senses], body)],
    )


# ---- what it shows
# A store gives each location a word; a dict holds those that differ from 0. No pointer is there, so nothing is stuck.


class State(NamedTuple):
    words: dict
    frames: dict


def expr_kind(e):
    if isinstance(e, Binary):
        return common_of(expr_kind(e.left), expr_kind(e.right))
    return e.to if isinstance(e, Convert) else e.kind


def value(design, signals, this, e):
    if isinstance(e, Read):
        l = within(this, e.field)
        return signals.get(l, 0) if l in design.things else 0
    if isinstance(e, Convert):
        return stored(e.to, number_of(expr_kind(e.of), value(design, signals, this, e.of)))
    x, y = value(design, signals, this, e.left), value(design, signals, this, e.right)
    return applied(e.op, expr_kind(e.left), x, expr_kind(e.right), y)


def first_frames(process):
    """The object, and the statements still to do."""
    return process.object, process.body


def run(design, signals, bound, frames, requests):
    """At most so many statements. A write is a request, and signals keep their words. Answers whether it ended."""
    this, body = frames
    while body is not None and bound > 0:
        l, x = within(this, body.field), value(design, signals, this, body.value)
        if l in design.things:
            requests.append((l, x))
        body, bound = body.rest, bound - 1
    return body is None


def phase(bound, design, test, s):
    """Those processes on the present signals, and then all requests together, the last one of a root counting."""
    requests, frames = [], dict(s.frames)
    for i, p in enumerate(design.processes):
        if test(p):
            if not run(design, s.words, bound, first_frames(p), requests):
                raise Different(f"process {i} is not finished")
            frames[i] = None
    words = dict(s.words)
    for l, x in requests:
        words[l] = x
    return State(words, frames)


def is_combinational(process):
    return True


def settle(bound, design, s):
    """As many rounds of all combinational methods as there are such methods, and one more."""
    for _ in range(len([p for p in design.processes if is_combinational(p)]) + 1):
        s = phase(bound, design, is_combinational, s)
    return s


def observed(design, s):
    return [s.words.get(l, 0) for l in design.outputs]


def design_step(bound, design, inputs, edge, s):
    """The state behind a step and its observations. `edge` is None, or the list of clocks that have their edge."""
    assert edge in (None, []), "a thin text has no clock"
    assert len(inputs) == len(design.inputs)
    assert all(x < 2 ** design.things[l].width for l, x in zip(design.inputs, inputs))
    s = State({**s.words, **dict(zip(design.inputs, inputs))}, s.frames)
    # no thread is under reset, and no process resumes at an edge
    s = settle(bound, design, phase(bound, design, lambda p: False, s))
    seen = [observed(design, s)]
    if edge is not None:
        s = settle(bound, design, phase(bound, design, lambda p: False, s))
        seen.append(observed(design, s))
    return s, seen


def start_of(design, words):
    """A start: each port holds what fits, any other location anything; nothing has run."""
    assert all(words.get(l, 0) < 2 ** k.width for l, k in design.things.items())
    return State(words, {i: first_frames(p) for i, p in enumerate(design.processes)})
