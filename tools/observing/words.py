"""Numbers, words and the kinds of a thin text (scc_bits: Numbers, Operators, Kinds, Counts, Values)."""
from typing import NamedTuple


def low(w, z):
    return z % 2 ** w


def reading(signed, w, x):
    return x if not signed or 2 * x < 2 ** w else x - 2 ** w


def both(x, y):
    return x & y


def either(x, y):
    return x + y - both(x, y)


def differing(x, y):
    return either(x, y) - both(x, y)


EXACT = {"&": both, "|": either, "^": differing}


class Kind(NamedTuple):
    """An `sc_uint`, or the integer of 64 bits as which it computes; a thin text has no others."""
    name: str
    width: int
    signed: bool


def uint(w):
    return Kind("Uint", w, False)


def number_of(k, x):
    return reading(k.signed, k.width, x)


def stored(k, z):
    return low(k.width, z)


def converted(k, z):
    return number_of(k, stored(k, z))


def promoted(k):
    return Kind("Native", 64, k.signed)


def common_of(j, k):
    """The common kind: of two with 64 bits it is signed where both are."""
    return Kind("Native", 64, promoted(j).signed and promoted(k).signed)


def applied(op, j, x, k, y):
    common = common_of(j, k)
    return stored(common, EXACT[op](converted(common, number_of(j, x)), converted(common, number_of(k, y))))
