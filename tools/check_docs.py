#!/usr/bin/env python3
"""Finds what documents cite and isn't there: files, crates, clauses; and lines of more than 120 columns.

    tools/check_docs.py [FILE ..]           without files: README, CONTRIBUTING, CHANGELOG and all of docs and examples

What is looked at:
- a link to a file beside the document, and to a heading in it;
- a word `scc_..` in backticks is a crate of crates.txt, unless its line says `not yet` or [CHECK;
- a word `NAME.rt` in backticks is a file of the crate of the heading, or of any crate where the heading names none;
- a word `specs/NAME` or `proofs/NAME` in backticks is a file of some crate;
- below a heading of a crate, names in round brackets, as (`ok`, `err`), are clauses or public functions of it, and so are
  those in the second column of a table of docs/PROMISES.md; the last column there is a mark;
- a path in backticks that begins with a folder of the repository, but what is built, below `out`;
- docs/ARCHITECTURE.md says of each crate of crates.txt what it does, in a line of a list;
- where README.md or docs/PROMISES.md says how many answers the pages of cases have, it is the sum of their counts;
- docs/MAP.md is what tools/map.py writes.
Lines of tables and of code aren't measured. The status is 1 where something is wrong.
"""
import functools
import os
import re
import subprocess
import sys
from pathlib import Path

REPOSITORY = Path(__file__).resolve().parent.parent
CRATES = {line.split(":")[0].strip() for line in (REPOSITORY / "crates.txt").read_text().splitlines() if ":" in line}
FOLDERS = ("crates/", "docs/", "examples/", "tools/", "bench/", ".ci/")
PARTS = ("src", "specs", "proofs")
COLUMNS = 120

LINK = re.compile(r"\]\(([^)#\s]*)(?:#([^)\s]*))?\)")
CODE = re.compile(r"`([^`]+)`")
CLAUSES = re.compile(r"\(((?:`[a-z_]+`, )*`[a-z_]+`)\)")
MARKS = {"mark", "proved", "tested", "open", "not claimed"}
LATER = re.compile(r"not yet|\[CHECK")
DECLARED = re.compile(r"\b(?:ensures|requires|fn|mod|ghost) +([a-z_]\w*)")


@functools.lru_cache(maxsize=None)
def sources(crate):
    found = []
    for folder, names, files in os.walk(REPOSITORY / "crates" / crate):
        # what a check builds comes and goes
        names[:] = [name for name in names if name != "out"]
        found += [Path(folder) / name for name in files if name.endswith((".rt", ".antt"))]
    return found


@functools.lru_cache(maxsize=None)
def declared(crate):
    """The names of clauses and functions of a crate's code and definitions."""
    names = set()
    for f in sources(crate):
        text = f.read_text()
        names.update(DECLARED.findall(text))
        if f.suffix == ".antt":
            names.update(re.findall(r"^\s*(?:\w+ )*([a-z_]\w*) +:", text, re.M))
    return names


def has_file(crates, name):
    return any(f.name == Path(name).name and str(f).endswith("/" + name) for crate in crates for f in sources(crate))


@functools.lru_cache(maxsize=None)
def anchors(document):
    """What links call the headings of a document: small letters, no signs, `-` for a blank."""
    lines = re.sub(r"^```.*?^```$", "", document.read_text(), flags=re.M | re.S).splitlines()
    return {re.sub(r"[^\w -]", "", line.lstrip("# ").lower()).replace(" ", "-") for line in lines if line.startswith("#")}


def faults_of_line(document, line, heading):
    for target, anchor in LINK.findall(line):
        if "://" in target:
            continue
        linked = document.parent / target if target else document
        if not linked.exists():
            yield f"no file {target}"
        elif anchor and anchor not in anchors(linked):
            yield f"no heading {anchor} in {target or 'this document'}"
    for word in CODE.findall(line):
        if re.fullmatch(r"scc_[a-z_]+", word) and word not in CRATES and not LATER.search(line):
            yield f"no crate {word}"
        elif re.fullmatch(r"[a-z_/]+\.rt", word) and not has_file(heading or CRATES, word) and not has_file(CRATES, word):
            yield f"no file {word} in {', '.join(heading) or 'any crate'}"
        elif re.fullmatch(r"(specs|proofs)/[A-Za-z]+", word) and not has_file(CRATES, word + ".antt"):
            yield f"no file {word} in any crate"
        elif word.startswith(FOLDERS) and re.fullmatch(r"[a-z0-9_./-]+", word) and "/out/" not in word \
                and not (REPOSITORY / word).exists():
            yield f"no file {word}"
    groups = CLAUSES.findall(line) if heading else []
    if heading and document.name == "PROMISES.md" and line.startswith("| ") and not line.startswith("|-"):
        clauses, mark = [cell.strip() for cell in re.split(r"(?<!\\)\|", line)[-3:-1]]
        groups.append(", ".join(f"`{name}`" for name in re.findall(r"`([a-z_]+)`", clauses)))
        if mark not in MARKS:
            yield f"no mark {mark}"
    for group in groups:
        for name in CODE.findall(group):
            if name not in CRATES and name not in PARTS and not any(name in declared(crate) for crate in heading):
                yield f"no clause {name} in {', '.join(heading)}"


def faults_of(document):
    heading, in_code = [], False
    for number, line in enumerate(document.read_text().splitlines(), 1):
        if line.startswith("```"):
            in_code = not in_code
            continue
        if in_code or line.startswith("    "):
            continue
        if line.startswith("#"):
            heading = [c for c in re.findall(r"scc_?[a-z_]*", line) if c in CRATES]
        if len(line) > COLUMNS and not line.startswith("|"):
            yield f"{document.relative_to(REPOSITORY)}:{number}: {len(line)} columns"
        for fault in faults_of_line(document, line, heading):
            yield f"{document.relative_to(REPOSITORY)}:{number}: {fault}"


def crates_without_line():
    page = REPOSITORY / "docs" / "ARCHITECTURE.md"
    named = re.findall(r"((?:`scc\w*`(?:,\s+)?)+)(?=:| reads)", page.read_text())
    for crate in sorted(CRATES - set(re.findall(r"`(scc\w*)`", " ".join(named)))):
        yield f"{page.relative_to(REPOSITORY)}: no line for {crate}"


def wrong_counts():
    counts = (REPOSITORY / "crates" / "scc_drive_cases" / "stdout").read_text()
    answers = sum(int(number) for number in re.findall(r": (\d+) as told", counts))
    for page in (REPOSITORY / "README.md", REPOSITORY / "docs" / "PROMISES.md"):
        for number in re.findall(r"([\d,]+) answers of\s+the\s+command", page.read_text()):
            if int(number.replace(",", "")) != answers:
                yield f"{page.relative_to(REPOSITORY)}: {number} answers, the pages of cases have {answers}"


def map_faults():
    made = subprocess.run([REPOSITORY / "tools" / "map.py", "--check"], capture_output=True, text=True)
    return made.stderr.splitlines()


def main():
    names = [Path(n).resolve() for n in sys.argv[1:]]
    documents = names or [*REPOSITORY.glob("*.md"), *sorted((REPOSITORY / "docs").rglob("*.md")),
                          *sorted((REPOSITORY / "examples").rglob("*.md"))]
    faults = [fault for document in documents for fault in faults_of(document)]
    faults += [] if names else [*crates_without_line(), *wrong_counts(), *map_faults()]
    for fault in faults:
        print(fault)
    print(f"{len(documents)} documents, {len(faults)} faults")
    sys.exit(bool(faults))


if __name__ == "__main__":
    main()
