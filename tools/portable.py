#!/usr/bin/env python3
"""Writes a text of `scc compile` so that Icarus Verilog 11 and Yosys 0.23 read it as IEEE 1800-2017 has it.

    tools/portable.py IN.sv > OUT.sv          without IN.sv, or with -, of standard input

Two changes, and no other:
- `always_comb` becomes `always @*` where the block reads anything. In Icarus 11 an `always_comb` that writes a variable twice
  wakes the blocks before it, so that some chains of blocks never settle. A block that reads nothing stays, since `always @*`
  would never run; what stands in a choice that a literal decides, and isn't chosen, isn't read;
- a cast behind `~`, `-`, `!` or a reduction gets brackets: `(~16'(a))` becomes `(~(16'(a)))`. Yosys 0.23 takes `~16` for its size.
"""
import argparse
import re
import sys
from pathlib import Path

BLOCK = re.compile(r"^  always_comb begin\n(.*?)^  end$", re.M | re.S)
# a literal, a sign cast, or a name that is assigned
UNREAD = re.compile(r"\d+'s?h[0-9a-f]+|(?<![\w$])\$(?:un)?signed|^ *(?:\\\S+ |[A-Za-z_][\w$]*) = ", re.M)
NAME = re.compile(r"[A-Za-z_\\]")
# brackets with none inside; those that were gone through are written as «»
INNERMOST = re.compile(r"\(([^()]*)\)")
CHOICE = re.compile(r"1'h([01]) \? ")
DECIDED = re.compile(r"^1'h(?:0 &&|1 \|\|) |(?:&& 1'h0|\|\| 1'h1)$")
UNARY = re.compile(r"(?<=\()[~!&|^-](?=\d+'\()")


def at_choice(text):
    """Where the ` : ` of a choice stands that has no brackets around it."""
    depth = 0
    for k, sign in enumerate(text):
        depth += (sign == "«") - (sign == "»")
        if not depth and text.startswith(" : ", k):
            return k
    return len(text)


def met(found):
    """What is met of a bracket: of a choice that a literal decides, the one side."""
    inside = found.group(1)
    choice = CHOICE.match(inside)
    if choice:
        sides = inside[choice.end():]
        k = at_choice(sides)
        inside = sides[:k] if choice.group(1) == "1" else sides[k + 3:]
    elif DECIDED.search(inside):
        inside = "1'h0"
    return f"«{inside}»"


def read(statements):
    """The statements without what is never read."""
    count = 1
    while count:
        statements, count = INNERMOST.subn(met, statements)
    return statements


def block(found):
    reads = NAME.search(UNREAD.sub("", read(found.group(1))))
    return found.group(0).replace("always_comb", "always @*", 1) if reads else found.group(0)


def line_with_brackets(line):
    starts = {it.end() for it in UNARY.finditer(line)}
    if not starts:
        return line
    # for each bracket that is open whether it is that of such a cast
    written, opened, is_cast = [], [], False
    for k, sign in enumerate(line):
        if k in starts:
            written.append("(")
            is_cast = True
        written.append(sign)
        if sign == "(":
            opened.append(is_cast)
            is_cast = False
        elif sign == ")" and opened.pop():
            written.append(")")
    return "".join(written)


def portable(text):
    """The text with both changes."""
    return "".join(map(line_with_brackets, BLOCK.sub(block, text).splitlines(keepends=True)))


def main():
    parser = argparse.ArgumentParser(description=__doc__, formatter_class=argparse.RawDescriptionHelpFormatter)
    parser.add_argument("text", metavar="IN.sv", nargs="?", default="-")
    name = parser.parse_args().text
    try:
        text = sys.stdin.read() if name == "-" else Path(name).read_text()
    except OSError as fault:
        sys.exit(f"{name}: {fault.strerror}")
    sys.stdout.write(portable(text))


if __name__ == "__main__":
    main()
