"""What the compiler says when it refuses, and how people are shown it."""
import json
import re
from dataclasses import dataclass

from helping.commands import near
from helping.pages import page_of
from helping.sources import bytes_of, includers, line_of, modules

REFUSAL = re.compile(r"^(.*):(\d+):(\d+): (E\d{3}) (.*?)(?: \(see (.*):(\d+):(\d+)\))?$")
MISSING = "scc: missing "


@dataclass
class Place:
    file: str
    line: int
    column: int

    def shown(self):
        """The source line with a caret below the place; nothing where the line isn't there."""
        line = line_of(self.file, self.line)
        if line is None:
            return []
        before = line[: self.column - 1].decode(errors="replace")
        gap = "".join("\t" if c == "\t" else " " for c in before) + " " * max(0, self.column - 1 - len(line))
        number = f"{self.line:5}"
        return [f"{number} | {line.decode(errors='replace')}", f"{' ' * len(number)} | {gap}^"]

    def is_end(self):
        """Whether it is where its file ends."""
        text = bytes_of(self.file)
        if text is None:
            return False
        lines = text.split(b"\n")
        return (self.line, self.column) == (len(lines), len(lines[-1]) + 1)


@dataclass
class Refusal:
    text: str
    place: Place
    code: str
    name: str
    see: Place

    def json(self):
        page, see = page_of(self.code), self.see
        return json.dumps({"file": self.place.file, "line": self.place.line, "column": self.place.column, "code": self.code,
                           "name": self.name, "see": see and {"file": see.file, "line": see.line, "column": see.column},
                           "page": page and page.link})


def read_refusal(said):
    found = REFUSAL.match(said.strip("\n"))
    if not found:
        return None
    file, line, column, code, name, other, other_line, other_column = found.groups()
    see = Place(other, int(other_line), int(other_column)) if other is not None else None
    return Refusal(found.group(0), Place(file, int(line), int(column)), code, name, see)


def about_top(refusal, top, files):
    """Where no module has the name that was given as TOP: which there are."""
    if refusal.code != "E301" or not files or refusal.place.file != files[-1] or not refusal.place.is_end():
        return []
    there = modules(files)
    if top in there:
        return []
    return [f"The files have no module {top}{near(top, there)}",
            f"Their modules: {', '.join(sorted(there))}." if there else "They have no module at all."]


def shown(refusal, top, files):
    """The refusal with its source lines, and what its page says; where TOP isn't there, which modules are."""
    own = about_top(refusal, top, files)
    if own:
        return "\n".join([refusal.text, *own])
    lines, see, page = [refusal.text, *refusal.place.shown()], refusal.see, page_of(refusal.code)
    if see:
        lines += [f"see {see.file}:{see.line}:{see.column}", *see.shown()]
    if page:
        lines += [*page.paragraphs(), f"(tools/scc explain {refusal.code} prints the page, {page.link})"]
    return "\n".join(lines)


def about_missing(said, files):
    """The lines that include a file that is missing."""
    missing = said.strip().removeprefix(MISSING)
    lines = [said.strip()]
    for name, line, written in includers(files, missing):
        lines += [f'{name}:{line} includes "{written}"']
    if len(lines) > 1:
        lines.append("An include is looked for beside the file that has it.")
    return "\n".join(lines)
