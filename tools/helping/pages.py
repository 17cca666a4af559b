"""What docs/errors says of a code."""
import re
from dataclasses import dataclass
from pathlib import Path

FOLDER = Path(__file__).resolve().parents[2] / "docs" / "errors"
HEADING = re.compile(r"^## E(\d{3}) (.*)$", re.M)
ROW = re.compile(r"^\| \[(E\d{3})\]\([^)]*\) \| (.*?) \| (.*?) \|$", re.M)


@dataclass
class Page:
    code: str
    name: str
    file: Path
    text: str

    @property
    def link(self):
        """The page in the repository, with its heading."""
        anchor = re.sub(r"[^\w -]", "", f"{self.code} {self.name}".lower()).replace(" ", "-")
        return f"docs/errors/{self.file.name}#{anchor}"

    def paragraphs(self):
        """What it means and how it is mended, without the examples of what is refused and without tables."""
        kept, meaning, mending = [], True, False
        for part in re.split(r"\n\n+", re.sub(r"^```.*?^```$", "```", self.text, flags=re.M | re.S)):
            if part.startswith("```"):
                meaning = False
            elif part.startswith("Fix:"):
                mending = True
                kept.append(part)
            elif mending and part.startswith("    "):
                kept.append(part)
            elif meaning and part.strip() and not part.startswith(("    ", "|", "#")):
                kept.append(part)
        return kept


def pages():
    for file in sorted(FOLDER.glob("[0-9]-*.md")):
        text = file.read_text()
        found = list(HEADING.finditer(text))
        for k, it in enumerate(found):
            end = found[k + 1].start() if k + 1 < len(found) else len(text)
            yield Page(f"E{it.group(1)}", it.group(2), file, text[it.end():end].strip("\n"))


def page_of(word):
    """The page of a code or of its name; None where there is none."""
    word = word.strip().lower()
    return next((it for it in pages() if word in (it.code.lower(), it.code[1:], it.name)), None)


def index():
    """A line for each code."""
    rows = ROW.findall((FOLDER / "README.md").read_text())
    return "\n".join(f"{code}  {name:22} {short.replace('`', '')}" for code, name, short in rows)
