"""What an emitted text is (scc_svtext: ModuleText; scc_svtree: Term, Code), and what that module shows (scc_svtree:
Sizes, Running, Settled, Steps)."""
from itertools import product
from typing import Callable, NamedTuple

from observing.texts import Cursor, Different, Port
from observing.words import EXACT, low, reading


class Literal(NamedTuple):
    width: int
    word: int


class Part(NamedTuple):
    variable: int


class Operation(NamedTuple):
    op: str
    left: object
    right: object


class Cast(NamedTuple):
    width: int
    of: object


class Module(NamedTuple):
    """Variables as ports; each block of code is a list of assignments (variable, right side)."""
    name: str
    vars: list
    blocks: list


def read_module(text):
    at, variables, blocks = Cursor(text, r"[0-9]+'h[0-9a-f]+|[0-9]+'|[A-Za-z0-9_]+|[()\[\]:;,=&|^]"), [], []

    def variable():
        return at.one_of({v.name: i for i, v in enumerate(variables)})

    def expression():
        if "'" not in at.tokens[0] and at.tokens[0] != "(":
            return Part(variable())
        token = at.word()
        if "'h" in token:
            width, digits = token.split("'h")
            if int(digits, 16) >= 2 ** int(width):
                raise Different(f"a literal that does not fit: {token}")
            return Literal(int(width), int(digits, 16))
        if token.endswith("'"):
            at.take("(")
            operand = expression()
            at.take(")")
            return Cast(int(token[:-1]), operand)
        left, op, right = expression(), at.one_of({"&": "&", "|": "|", "^": "^"}), expression()
        at.take(")")
        return Operation(op, left, right)

    at.take("module")
    name = at.word()
    at.take("(")
    while True:
        output, width = at.one_of({"input": False, "output": True}), 1
        at.take("logic")
        if at.has("["):
            width = at.number() + 1
            at.take(": 0 ]")
        variables.append(Port(at.word(), width, output))
        if not at.has(","):
            break
    at.take(") ;")
    while at.has("always_comb"):
        at.take("begin")
        code = []
        while not at.has("end"):
            target = variable()
            at.take("=")
            code.append((target, expression()))
            at.take(";")
        blocks.append(code)
    at.take("endmodule")
    if at.tokens != [""]:
        raise Different("text behind the module")
    return Module(name, variables, blocks)


# ---- what it shows
# A valuation is the list of the variables' words.


class Sized(NamedTuple):
    """Length and sign by itself, and the word in a context of a length and a sign (IEEE 1800-2017, 11.6, 11.8)."""
    len: int
    signed: bool
    word: Callable


def fixed(w, signed, x):
    return Sized(w, signed, lambda n, s: low(n, reading(s, w, low(w, x))))


def sized_context(op, a, b):
    def word(n, s):
        return low(n, EXACT[op](reading(s, n, a.word(n, s)), reading(s, n, b.word(n, s))))

    return Sized(max(a.len, b.len), a.signed and b.signed, word)


def sized_cast(w, e):
    """A size cast takes its operand by itself."""
    return fixed(w, e.signed, low(w, reading(e.signed, e.len, e.word(e.len, e.signed))))


def sized(m, x, e):
    if isinstance(e, Literal):
        return fixed(e.width, False, e.word)
    if isinstance(e, Part):
        return fixed(m.vars[e.variable].width, False, x[e.variable])
    if isinstance(e, Operation):
        return sized_context(e.op, sized(m, x, e.left), sized(m, x, e.right))
    return sized_cast(e.width, sized(m, x, e.of))


def assigned(w, e):
    """The right side has the greater length, and is cut."""
    return low(w, e.word(max(w, e.len), e.signed))


def run_code(m, code, x):
    for v, e in code:
        x = x[:v] + [assigned(m.vars[v].width, sized(m, x, e))] + x[v + 1:]
    return x


def leaves(m, x):
    return all(run_code(m, code, x) == x for code in m.blocks)


def targets(m):
    return {v for code in m.blocks for v, _ in code}


def settled(m, given):
    """A settled valuation, with what no block assigns as given; that it is one is looked at, not believed."""
    x = given
    for _ in m.blocks:
        for code in m.blocks:
            x = run_code(m, code, x)
    if not leaves(m, x):
        raise Different("no settled valuation is found")
    if any(x[v] != given[v] for v in range(len(x)) if v not in targets(m)):
        raise Different("settling changed what no block assigns")
    return x


def settles_once(m, x):
    """Of all valuations with the words of x outside of the blocks' targets only x is settled."""
    free = sorted(targets(m))
    for words in product(*(range(2 ** m.vars[v].width) for v in free)):
        y = list(x)
        for v, word in zip(free, words):
            y[v] = word
        if leaves(m, y) != (y == x):
            raise Different(f"{y} is settled as {x} is")


def module_step(m, inputs, has_edge, x):
    words = iter(inputs)
    x = settled(m, [old if v.output else next(words) for v, old in zip(m.vars, x)])
    if not has_edge:
        return x, [x]
    # no register is there, so an edge leaves all as it is
    z = settled(m, x)
    return z, [x, z]


def outputs(m, x):
    return [word for v, word in zip(m.vars, x) if v.output]
