#!/usr/bin/env python3
"""Wraps paragraphs and items of documents in which a line is longer than 120 columns.

    tools/wrap_docs.py FILE ..

Headings, tables and code stay as they are, and so do paragraphs whose lines are short enough.
"""
import re
import sys
from pathlib import Path

COLUMNS = 120
ITEM = re.compile(r"( *)([-*]|\d+\.) +")


def wrapped(words, first, rest):
    """The words in lines; a piece of code with blanks in it stays in one line."""
    lines, line = [], first
    for word in words:
        if len(line) + len(word) + 1 > COLUMNS and line.strip() and line not in (first, rest):
            lines.append(line.rstrip())
            line = rest
        line += ("" if line in (first, rest) else " ") + word
    return [*lines, line.rstrip()]


def words_of(text):
    """Words, with a link or a piece of code as one word where it has blanks."""
    return re.findall(r"(?:`[^`]*`|\[[^\]]*\]\([^)]*\)|\S)+", text)


def flush(paragraph):
    if all(len(line) <= COLUMNS for line in paragraph):
        return paragraph
    item = ITEM.match(paragraph[0])
    first = item.group(0) if item else ""
    text = " ".join([paragraph[0][len(first):], *(line.strip() for line in paragraph[1:])])
    return wrapped(words_of(text), first, " " * len(first))


def wrap(text):
    lines, paragraph, in_code = [], [], False
    for line in text.splitlines():
        starts = line.startswith(("#", "|", "```")) or not line.strip() or (line.startswith("    ") and not paragraph)
        if in_code or starts or ITEM.match(line):
            lines += flush(paragraph)
            paragraph = []
        if line.startswith("```"):
            in_code = not in_code
        if in_code or starts:
            lines.append(line)
        else:
            paragraph.append(line)
    return "\n".join([*lines, *flush(paragraph)]) + "\n"


def main():
    for name in sys.argv[1:]:
        Path(name).write_text(wrap(Path(name).read_text()))


if __name__ == "__main__":
    main()
