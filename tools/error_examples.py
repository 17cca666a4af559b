#!/usr/bin/env python3
"""Runs the examples of docs/errors, and prints where a refusal isn't the one on the page.

    tools/error_examples.py [PAGE ..] [--scc CMD] [--write] [--data]
    tools/error_examples.py --copy | --check

A page has, below the heading of a code, blocks of files and blocks of commands:

    ```cpp                          the file a.cpp; another name may follow the language
    SC_MODULE(T) { .. };
    ```

    ```console
    $ scc compile T a.cpp           a command over the files since the last command
    a.cpp:1:3: E304 mismatch        what it prints on standard error
    ```

In a file `{{N*text}}` is N times the text, in which `{#}` is the number of the time, from 0. --write puts in the
place of each refusal what the program prints; --data prints all examples as JSON, one a line: its code, words, files and
refusal. CMD is another program in the place of `./scc`, as is the environment's SCC.

The gate runs copies of these pages and of docs/WRITING.md, with the program scc_drive_cases. --copy writes the copies, and --check
prints which differ: neither needs a built program.
"""
import argparse
import json
import re
import shlex
import subprocess
import sys
import tempfile
from pathlib import Path

from agreeing.compiler import compiler

REPOSITORY = Path(__file__).resolve().parent.parent
PAGES = sorted((REPOSITORY / "docs" / "errors").glob("[0-9]-*.md"))
FENCE = re.compile(r"^```(\S+)(?: (\S+))?\n(.*?)^```$", re.M | re.S)
HEADING = re.compile(r"^## E(\d+) (.*)$", re.M)
REPEAT = re.compile(r"\{\{(\d+)\*(.*?)\}\}", re.S)
DATA = REPOSITORY / "crates" / "scc_drive_cases" / "data"
# each page that the gate runs, and its copy
COPIES = {page: DATA / "errors" / page.name for page in PAGES}
COPIES[REPOSITORY / "docs" / "WRITING.md"] = DATA / "writing.md"


def expanded(text):
    def copies(match):
        return "".join(match.group(2).replace("{#}", str(k)) for k in range(int(match.group(1))))

    return REPEAT.sub(copies, text)


class Example:
    def __init__(self, page, code, name, files, words, refusal, span):
        self.page, self.code, self.name, self.files = page, code, name, files
        self.words, self.refusal, self.span = words, refusal, span

    def run(self, scc):
        with tempfile.TemporaryDirectory() as folder:
            for name, text in self.files.items():
                Path(folder, name).write_text(expanded(text))
            done = subprocess.run(scc + self.words, cwd=folder, capture_output=True, text=True, timeout=600)
            return done.returncode, done.stderr.rstrip("\n")


def examples_of(page):
    text = page.read_text()
    headings = [(m.start(), int(m.group(1)), m.group(2)) for m in HEADING.finditer(text)]
    files = {}
    for fence in FENCE.finditer(text):
        language, name, body = fence.groups()
        if language != "console":
            # the last line feed belongs to the fence
            files[name or "a.cpp"] = body[:-1] if language == "cpp" else body
            continue
        _, code, title = [h for h in headings if h[0] < fence.start()][-1]
        command, *said = body.splitlines()
        words = shlex.split(command.removeprefix("$ scc "))
        yield Example(page, code, title, files, words, "\n".join(said), fence.span(3))
        files = {}


def write(page, scc):
    text, changes = page.read_text(), []
    for e in examples_of(page):
        command = text[e.span[0]:e.span[1]].splitlines()[0]
        changes.append((e.span, f"{command}\n{e.run(scc)[1]}\n"))
    for (start, end), new in reversed(changes):
        text = text[:start] + new + text[end:]
    page.write_text(text)


def wrong(example, scc):
    """What is wrong with an example, or None."""
    if f": E{example.code} {example.name}" not in example.refusal:
        return f"the page says '{example.refusal}'"
    status, said = example.run(scc)
    if (status, said) != (1, example.refusal):
        return f"status {status}, '{said}' in place of '{example.refusal}'"
    return None


def settled(page, copy, write):
    """Whether a page differs from what the gate runs; said, and mended if asked."""
    text = page.read_text()
    if copy.exists() and copy.read_text() == text:
        return False
    if write:
        copy.write_text(text)
        return False
    print(f"{copy.relative_to(REPOSITORY)} isn't {page.name}: tools/error_examples.py --copy writes it")
    return True


def main():
    parser = argparse.ArgumentParser(description=__doc__, formatter_class=argparse.RawDescriptionHelpFormatter)
    parser.add_argument("pages", metavar="PAGE", nargs="*", type=Path)
    parser.add_argument("--scc")
    parser.add_argument("--write", action="store_true")
    parser.add_argument("--data", action="store_true")
    parser.add_argument("--copy", action="store_true")
    parser.add_argument("--check", action="store_true")
    a = parser.parse_args()
    if a.copy or a.check:
        sys.exit(any([settled(page, copy, a.copy) for page, copy in COPIES.items()]))
    scc = None if a.data else compiler(a.scc)
    passed = failed = 0
    for page in a.pages or PAGES:
        if a.write:
            write(page, scc)
        for e in examples_of(page):
            if a.data:
                print(json.dumps({"code": e.code, "words": e.words, "files": e.files, "refusal": e.refusal}))
                continue
            fault = wrong(e, scc)
            passed, failed = passed + (fault is None), failed + (fault is not None)
            if fault:
                print(f"{page.name}: E{e.code}: {fault}")
    if not a.data:
        print(f"{passed} as on their pages, {failed} not")
    sys.exit(failed > 0)


if __name__ == "__main__":
    main()
