"""The files of a command as people see them: their lines, what they include, the modules that they declare."""
import os
import re
from pathlib import Path

INCLUDE = re.compile(rb'^[ \t]*#[ \t]*include[ \t]*"([^"\n]+)"', re.M)
MODULE = re.compile(r"\bSC_MODULE\s*\(\s*(\w+)\s*\)"
                    r"|\b(?:class|struct)\s+(\w+)\s*:\s*(?:public\s+)?(?:sc_core\s*::\s*)?sc_module\b")
COMMENT = re.compile(r"//[^\n]*|/\*.*?\*/", re.S)


def bytes_of(name):
    try:
        return Path(name).read_bytes()
    except OSError:
        return None


def line_of(name, number):
    """A line of a file, without its end; None where it isn't there."""
    lines = (bytes_of(name) or b"").split(b"\n")
    return lines[number - 1].rstrip(b"\r") if 0 < number <= len(lines) else None


def included(name):
    """(line, name as it is written, file) for each include of a file of one's own."""
    text = bytes_of(name) or b""
    for found in INCLUDE.finditer(text):
        written = found.group(1).decode(errors="replace")
        folder = os.path.dirname(name)
        yield text.count(b"\n", 0, found.start(1)) + 1, written, f"{folder}/{written}" if folder else written


def all_files(names):
    """The files and what they include."""
    found, left = [], list(names)
    while left:
        name = left.pop(0)
        if name not in found:
            found.append(name)
            left += [it for _, _, it in included(name)]
    return found


def modules(names):
    """The names of the modules that the files and their includes declare."""
    found = []
    for name in all_files(names):
        text = COMMENT.sub(" ", (bytes_of(name) or b"").decode(errors="replace"))
        found += [a or b for a, b in MODULE.findall(text) if (a or b) not in found]
    return found


def includers(names, missing):
    """(file, line, name as it is written) for each include of the file that is missing."""
    return [(name, line, written) for name in all_files(names) for line, written, it in included(name)
            if os.path.normpath(it) == os.path.normpath(missing)]
