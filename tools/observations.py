#!/usr/bin/env python3
"""Finds that a thin design and the module that is emitted for it show the same, on small inputs.

Both sides are computed from the definitions in docs/DEFINITIONS.md, step by step: a function below has the name of
its definition in crates/*/specs, and does what it says. Both texts are read here, and nothing is shared with the
program but `scc compile`, which gives the emitted texts; SCC in the environment is another program in the place of
`./scc`. One line is printed for each text. The first difference is named, and the status is 1.

    python3 tools/observations.py
"""
import random
import subprocess
import sys
import tempfile
from itertools import product
from pathlib import Path

from agreeing.compiler import compiler
from observing.design import design_step, member, read_thin, source_of, start_of, within
from observing.module import module_step, outputs, read_module, settles_once
from observing.texts import Different

REPOSITORY = Path(__file__).resolve().parent.parent


# ---- the same run (scc_drive: Same)


def matches(thin, m):
    if m.name != thin.top:
        raise Different(f"the module is {m.name}, the design is {thin.top}")
    if m.vars != thin.ports:
        raise Different(f"the module's ports are {m.vars}, the design's are {thin.ports}")


def spelled(ports, words):
    return ", ".join(f"{p.name} = {word:#x}" for p, word in zip(ports, words))


def same_run(thin, m, words, x, steps):
    """The number of observations, all with the same outputs."""
    design, count, bound = source_of(thin), 0, len(thin.puts)
    ins, outs = [p for p in thin.ports if not p.output], [p for p in thin.ports if p.output]
    s = start_of(design, words)
    few = sum(p.width for p in outs) <= 8
    for i, (inputs, edge) in enumerate(steps):
        s, shown = design_step(bound, design, inputs, edge, s)
        x, valuations = module_step(m, inputs, edge is not None, x)
        if few and i == 0:
            settles_once(m, valuations[0])
        assert len(shown) == len(valuations)
        for where, o, y in zip(("before", "behind"), shown, valuations):
            assert len(o) == len(outputs(m, y)) == len(outs)
            for p, one, other in zip(outs, o, outputs(m, y)):
                if one != other:
                    raise Different(f"{spelled(ins, inputs)}, {where} the edge: the design shows {p.name} = {one:#x}, the module {other:#x}")
            count += 1
    return count


def inputs_of(widths, most, chance):
    """All inputs where they have at most so many bits, else all of least and greatest words, and others."""
    if sum(widths) <= most:
        return [list(words) for words in product(*(range(2 ** w) for w in widths))]
    corners = [list(words) for words in product(*((0, 2 ** w - 1) for w in widths))]
    return corners + [[chance.randrange(2 ** w) for w in widths] for _ in range(60)]


def starts_of(thin, chance):
    """Starts of the design with valuations of the module: least words, greatest, others that fit, and others."""
    widths = [p.width for p in thin.ports]
    chosen = [chance.randrange(2 ** w) for w in widths]
    far = {within(member(0), 7): 5, member(len(widths)): 9}
    return [
        ({}, [0 for w in widths]),
        ({member(i): 2 ** w - 1 for i, w in enumerate(widths)}, [2 ** w - 1 for w in widths]),
        ({member(i): x for i, x in enumerate(chosen)}, [chance.randrange(2 ** w) for w in widths]),
        # other locations hold anything; a valuation isn't bound to widths
        ({**far, **{member(i): x for i, x in enumerate(chosen)}}, [2 ** w + 1 for w in widths]),
    ]


def same(thin, m, most):
    """The numbers of inputs and of observations. Each input is in a step without an edge and in one with an edge."""
    chance, count = random.Random(1), 0
    matches(thin, m)
    inputs, starts = inputs_of([p.width for p in thin.ports if not p.output], most, chance), starts_of(thin, chance)
    for i in range(0, len(inputs), 256):
        steps = [(words, edge) for words in inputs[i:i + 256] for edge in (None, [])]
        # a run from each start, where there are few runs, else from one after the other
        for words, x in starts if len(inputs) <= 1024 else [starts[i // 256 % len(starts)]]:
            count += same_run(thin, m, words, x, steps)
    return len(inputs), count


# ---- the texts

ORDER = """#include <systemc.h>
SC_MODULE(Order){sc_in<sc_uint<1>>read;sc_out<sc_uint<64>>wide,same;
sc_in<sc_uint<12> >b,unread;sc_out<sc_uint<3>>less;
void write(){less.write(b.read());wide.write(read.read()|b.read());same.write(b.read()^b.read());}
SC_CTOR(Order){SC_METHOD(write);sensitive<<b<<read;}};
"""
# inputs and what is to be seen, worked by hand: less has the low 3 bits of b
SEEN = {"And": ([0xf0, 0x3c], [0x30]), "Order": ([1, 0xabc, 0xfff], [0xabd, 0, 4])}


def of_widths(v, w):
    """Two inputs of these widths; each operator on them, and each of them alone, for outputs of each width."""
    writes = ["a.read() & b.read()", "a.read() | b.read()", "b.read() ^ a.read()", "a.read()", "b.read()"]
    outs = [(f"y{t}_{i}", t, e) for t in (1, 3, 12, 64) for i, e in enumerate(writes)]
    lines = ["#include <systemc.h>", f"SC_MODULE(Widths_{v}_{w}) {{", f"  sc_in<sc_uint<{v}> > a;", f"  sc_in<sc_uint<{w}> > b;"]
    lines += [f"  sc_out<sc_uint<{t}> > {y};" for y, t, _ in outs]
    lines += ["  void f() {"] + [f"    {y}.write({e});" for y, _, e in outs] + ["  }"]
    return "\n".join(lines + [f"  SC_CTOR(Widths_{v}_{w}) {{ SC_METHOD(f); sensitive << a << b; }}", "};", ""])


# what makes a wrong module of the one of And; each is found to differ
WRONG = {
    "another operator": (" & ", " | "),
    "another operand": ("64'(b)", "64'(a)"),
    "a port of another width": ("[7:0] y", "[6:0] y"),
    "a narrow result": ("8'((", "7'(("),
    "a narrow operand": ("64'(a)", "7'(a)"),
    "an output that is left as 0": ("y = 8'((64'(a) & 64'(b)));", ""),
    "an output that keeps what it was": ("y = 8'h00;\n    y = 8'((64'(a) & 64'(b)));", "y = (y & a);"),
    "an output that never settles": ("y = 8'h00;\n    y = 8'((64'(a) & 64'(b)));", "y = (y ^ 8'h01);"),
}


def compiled(top, file):
    """The text that the program emits."""
    done = subprocess.run([*compiler(), "compile", top, str(file)], stdout=subprocess.PIPE, text=True)
    if done.returncode != 0:
        raise Different(f"the program ended with status {done.returncode}")
    return done.stdout


def check_seen(thin, m):
    """Both sides show what was worked by hand."""
    inputs, wanted = SEEN[thin.top]
    design = source_of(thin)
    _, shown = design_step(len(thin.puts), design, inputs, [], start_of(design, {}))
    _, valuations = module_step(m, inputs, True, [0] * len(m.vars))
    for seen in shown + [outputs(m, y) for y in valuations]:
        if seen != wanted:
            raise Different(f"{inputs}: {wanted} is to be seen, and not {seen}")


def check_wrong(thin, text):
    """A wrong module differs, so what is found equal could have differed."""
    for name, (old, new) in WRONG.items():
        if old not in text:
            raise Different(f"no {old!r} in the module, to make a wrong one")
        wrong = read_module(text.replace(old, new))
        try:
            same(thin, wrong, 0)
        except Different:
            continue
        raise Different(f"with {name} the module is found equal")


def check(top, source, file, most):
    thin, text = read_thin(source), compiled(top, file)
    m = read_module(text)
    if top == "And":
        check_wrong(thin, text)
    if top in SEEN:
        check_seen(thin, m)
    inputs, count = same(thin, m, most)
    kind = "pairs of inputs" if len([p for p in thin.ports if not p.output]) == 2 else "lists of inputs"
    print(f"{top}: {inputs} {kind}, {count} observations, all equal", flush=True)


def main():
    example = REPOSITORY / "examples" / "and" / "and.cpp"
    texts = [("Order", ORDER)] + [(f"Widths_{v}_{w}", of_widths(v, w)) for v in (1, 3, 12, 64) for w in (1, 3, 12, 64)]
    top = "And"
    try:
        check(top, example.read_text(), example, 16)
        with tempfile.TemporaryDirectory() as folder:
            for top, source in texts:
                file = Path(folder) / f"{top}.cpp"
                file.write_text(source)
                check(top, source, file, 6)
    except Different as difference:
        print(f"{top}: {difference}", file=sys.stderr)
        sys.exit(1)


if __name__ == "__main__":
    main()
