"""What both sides need: the tokens of a text, ports, and a difference."""
import re
from typing import NamedTuple


class Different(Exception):
    """What differs."""


class Port(NamedTuple):
    name: str
    width: int
    output: bool


class Cursor:
    """The tokens of a text, of which the front is taken."""

    def __init__(self, text, pattern):
        self.tokens, at = [], 0
        while at < len(text):
            found = re.compile(r"[ \t\r\n]+|" + pattern).match(text, at)
            if not found:
                raise Different(f"text that is not read: {text[at:at + 20]!r}")
            if not found[0].isspace():
                self.tokens.append(found[0])
            at = found.end()
        self.tokens.append("")

    def word(self):
        """The front token, which is empty at the end of the text."""
        return self.tokens.pop(0) if len(self.tokens) > 1 else ""

    def number(self):
        token = self.word()
        if not token.isdigit():
            raise Different(f"found {token!r} where a number is wanted")
        return int(token)

    def take(self, wanted):
        for token in wanted.split():
            found = self.word()
            if found != token:
                raise Different(f"found {found!r} where {token!r} is wanted")

    def has(self, token):
        """Takes this token if it is at the front."""
        return self.tokens[0] == token and self.word() == token

    def one_of(self, meanings):
        token = self.word()
        if token not in meanings:
            raise Different(f"found {token!r} where one of {list(meanings)} is wanted")
        return meanings[token]
