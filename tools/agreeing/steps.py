"""A stimulus to begin with, from the emitted text of a design."""
import random
import re

BLOCK = re.compile(r"^  always_comb begin\n(.*?)^  end$", re.M | re.S)
RESET = re.compile(r"^    if \((\S+|\(!\S+\))\) begin\n(.*?)^    end else begin$", re.M | re.S)
CONSTANT = re.compile(r"\d+'s?h[0-9a-f]+")


def resets_of(module, text):
    """The inputs that reset, each with its active level: those of asynchronous resets, and those by whose level alone a block
    gives its registers constants."""
    found = {r.name: r.active for r in module.resets}
    inputs = {p.spelling.strip(): p.name for p in module.inputs() if p.width == 1}
    inputs.update((p.name, p.name) for p in module.inputs() if p.width == 1)
    for block in BLOCK.findall(text):
        it = RESET.search(block)
        name = it and it.group(1).strip("()").removeprefix("!")
        if not it or name not in inputs or "$$n = " not in it.group(2):
            continue
        # what comes before the first `if` are the values that registers keep
        before = block[: it.start()].splitlines()
        values = [line.partition(" = ")[2].rstrip(";") for line in it.group(2).splitlines()]
        if all(line.endswith(";") for line in before) and all(CONSTANT.fullmatch(v) for v in values):
            found.setdefault(inputs[name], not it.group(1).startswith("(!"))
    return found


def stimulus(module, resets, clocks_are_named, steps, seed, held):
    """Its lines. With several clocks all have an edge while the resets are active, and then some."""
    chance = random.Random(seed)
    clocks, ports = [c.name for c in module.clocks], module.inputs()
    lines = ["scc-stim 3", " ".join(["clocks", *clocks])] if clocks_are_named else ["scc-stim 1"]
    lines.append(" ".join(["ports", *(p.name for p in ports)]))
    for number in range(steps):
        values = [f"{chance.getrandbits(p.width):x}" for p in ports]
        for k, p in enumerate(ports):
            if p.name in resets:
                values[k] = str(int(resets[p.name] == (number < held)))
        edges = (1 << len(clocks)) - 1 if number < held else chance.getrandbits(len(clocks) or 1)
        lines.append(" ".join(["step", *([f"{edges:x}"] if clocks_are_named else []), *values]))
    return "\n".join([*lines, ""])


def described(module, resets):
    """What is said of it: the inputs with their widths, the clocks, and what was taken for a reset."""
    ports = ", ".join(f"{p.name} ({p.width})" for p in module.inputs()) or "none"
    clocks = ", ".join(c.name for c in module.clocks) or "none"
    active = ", ".join(f"{name} (active {int(level)})" for name, level in resets.items()) or "none found"
    return f"inputs with their widths: {ports}; clocks: {clocks}; resets: {active}"
