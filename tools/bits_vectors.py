#!/usr/bin/env python3
"""Writes the test vectors of the operator table, crates/scc_bits_tests/src/vectors.rt.

Each vector is an operator, two kinds with a word of each, and the kind and word of the answer. The words are
computed here on exact whole numbers, from the rules in docs/DEFINITIONS.md, and share nothing with the crate.

    python3 tools/bits_vectors.py > crates/scc_bits_tests/src/vectors.rt
"""
from dataclasses import dataclass
from fractions import Fraction
from math import floor, trunc


@dataclass(frozen=True)
class Kind:
    name: str
    bits: int
    signed: bool

    def width(self):
        return min(self.bits, 128)

    def rust(self):
        if self.name == "Bool":
            return "Kind::Bool"
        if self.name in ("Native", "Wide"):
            sign = "true" if self.signed else "false"
            return f"Kind::{self.name} {{ bits: {self.bits}, signed: {sign} }}"
        return f"Kind::{self.name}({self.bits})"


BOOL = Kind("Bool", 1, False)


def native(bits, signed):
    return Kind("Native", bits, signed)


def wide(bits, signed):
    return Kind("Wide", min(bits, 255), signed)


def small(k):
    return k.name in ("Bool", "Native", "Int", "Uint")


def large(k):
    return k.name in ("Big", "BigInt", "Wide")


def number(k, word):
    top = 2 ** k.width()
    return word - top if k.signed and 2 * word >= top else word


def store(k, n):
    return int(n != 0) if k == BOOL else n % 2 ** k.width()


def convert(k, n):
    return number(k, store(k, n))


def promote(k):
    if k.name == "Bool" or (k.name == "Native" and k.bits < 32):
        return native(32, True)
    if k.name in ("Int", "Uint"):
        return native(64, k.signed)
    return k


def common(a, b):
    a, b = promote(a), promote(b)
    bits = max(a.bits, b.bits)
    return native(bits, all(k.signed for k in (a, b) if k.bits == bits))


def room(a, b):
    signed = a.signed or b.signed
    return max(k.bits + (signed and not k.signed) for k in (a, b)), signed


ARITHMETIC = ["Add", "Sub", "Mul", "Div", "Rem"]
BITWISE = ["And", "Or", "Xor"]
COMPARE = ["Eq", "Ne", "Lt", "Le", "Gt", "Ge"]
SHIFT = ["Shl", "Shr"]
LOGICAL = ["LogAnd", "LogOr"]
UNARY = ["Plus", "Neg", "Not", "LogNot", "AndReduce", "OrReduce", "XorReduce"]
OPERATORS = ARITHMETIC + BITWISE + COMPARE + SHIFT + LOGICAL + UNARY


def answer_kind(op, a, b):
    """The kind of the answer; None where there is no row or more than 128 bits are lost."""
    bits = "Bv" in (a.name, b.name)
    if op in UNARY:
        if op == "LogNot":
            return BOOL if small(a) else None
        if op.endswith("Reduce"):
            return BOOL if a.name in ("Int", "Uint", "Big", "BigInt", "Bv") else None
        if small(a):
            return promote(a)
        if op == "Not":
            return a if bits else wide(a.bits + (not a.signed), True)
        if bits:
            return None
        return wide(a.bits, a.signed) if op == "Plus" else wide(a.bits + 1, True)
    if op in SHIFT:
        if not small(b):
            return None
        if small(a):
            return promote(a)
        if bits:
            return a
        if op == "Shl":
            return wide(255, a.signed)
        return wide(a.bits, a.signed) if a.bits <= 128 else None
    if op in LOGICAL:
        return BOOL if small(a) and small(b) else None
    if bits:
        if a != b or op not in BITWISE + ["Eq", "Ne"]:
            return None
        return a if op in BITWISE else BOOL
    if small(a) and small(b):
        return BOOL if op in COMPARE else common(a, b)
    most, signed = room(a, b)
    if op in COMPARE:
        return BOOL if most <= 128 else None
    if op == "Add":
        return wide(most + 1, signed)
    if op == "Sub":
        return wide(most + 1, True)
    if op == "Mul":
        return wide(a.bits + b.bits, signed)
    if op in BITWISE:
        return wide(most, signed)
    return wide(most + signed, signed) if most + signed <= 128 else None


def exact(op, x, y, width):
    if op == "Add":
        return x + y
    if op == "Sub":
        return x - y
    if op == "Mul":
        return x * y
    if op == "Div":
        return trunc(Fraction(x, y))
    if op == "Rem":
        return x - y * trunc(Fraction(x, y))
    if op == "And":
        return x & y
    if op == "Or":
        return x | y
    if op == "Xor":
        return x ^ y
    if op == "Shl":
        return x << y if y < 1024 else 0
    if op == "Shr":
        return floor(Fraction(x, 2 ** y)) if y < 1024 else (-1 if x < 0 else 0)
    if op == "Plus":
        return x
    if op == "Neg":
        return -x
    if op == "Not":
        return -x - 1
    if op.endswith("Reduce"):
        ones = bin(x % 2 ** width).count("1")
        return int({"AndReduce": ones == width, "OrReduce": ones > 0, "XorReduce": ones % 2 == 1}[op])
    return int({
        "Eq": x == y, "Ne": x != y, "Lt": x < y, "Le": x <= y, "Gt": x > y, "Ge": x >= y,
        "LogAnd": x != 0 and y != 0, "LogOr": x != 0 or y != 0, "LogNot": x == 0,
    }[op])


def answer(op, a, x, b, y):
    kind = answer_kind(op, a, b)
    p, q = number(a, x), number(b, y)
    if op in SHIFT:
        p, q = (convert(promote(a), p) if small(a) else p), y
    elif op in UNARY and small(a) and not op.endswith("Reduce"):
        p = convert(promote(a), p)
    elif small(a) and small(b) and op not in LOGICAL + UNARY:
        p, q = convert(common(a, b), p), convert(common(a, b), q)
    return store(kind, exact(op, p, q, a.width()))


KINDS = (
    [BOOL]
    + [native(bits, signed) for bits in (8, 16, 32, 64) for signed in (True, False)]
    + [Kind("Int", w, True) for w in (1, 63, 64)]
    + [Kind("Uint", w, False) for w in (1, 63, 64)]
    + [Kind("Big", w, False) for w in (1, 63, 64, 65, 127, 128)]
    + [Kind("BigInt", w, True) for w in (1, 63, 64, 65, 127, 128)]
    + [Kind("Bv", w, False) for w in (1, 63, 64, 65, 127, 128)]
    + [wide(b, s) for b in (1, 64, 127, 128, 129, 255) for s in (True, False)]
)


def edges(k):
    """The words of 0, 1, the greatest number, the least, and -1 or the one below the greatest."""
    top = 2 ** k.width()
    return sorted({0, 1 % top, top - 1, top // 2, max(top // 2 - 1, 0)})


def vectors(op, wanted):
    """So many vectors of an operator, spread over its kinds and their edges."""
    pairs = [(a, b) for a in KINDS for b in ([a] if op in UNARY else KINDS) if answer_kind(op, a, b)]
    every = [
        (a, x, b, y)
        for a, b in pairs
        for x in edges(a)
        for y in ([0] if op in UNARY else edges(b))
        if not (op in ("Div", "Rem") and y == 0)
    ]
    step = max(1, len(every) // wanted)
    while len(every) % step == 0 and step > 1:
        step += 1
    return [every[i * step % len(every)] for i in range(min(wanted, len(every)))]


def main():
    rows = []
    for op in OPERATORS:
        for a, x, b, y in dict.fromkeys(vectors(op, 20)):
            kind, word = answer_kind(op, a, b), answer(op, a, x, b, y)
            rows.append(f"    {op}: {a.rust()}, {x:#x}, {b.rust()}, {y:#x} => {kind.rust()}, {word:#x};")
    print(f"""//! Vectors of the operator table. Written by tools/bits_vectors.py; don't edit.
use scc_bits::{{Kind, Op}};

/// An operator's operands and its answer.
#[derive(Clone, Copy, Debug)]
pub struct Vector {{
    pub op: Op,
    pub a: Kind,
    pub x: u128,
    pub b: Kind,
    pub y: u128,
    pub kind: Kind,
    pub word: u128,
}}

macro_rules! vectors {{
    ($($op:ident: $a:expr, $x:literal, $b:expr, $y:literal => $kind:expr, $word:literal;)*) => {{
        [$(Vector {{ op: Op::$op, a: $a, x: $x, b: $b, y: $y, kind: $kind, word: $word }}),*]
    }};
}}

pub static VECTORS: [Vector; {len(rows)}] = vectors!(""")
    print("\n".join(rows))
    print(");")


if __name__ == "__main__":
    main()
