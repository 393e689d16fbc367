"""The tokens of a world's text, with their places. Any text has some: what begins none is one of the kind `bad`.

A text is taken as bytes, each as one character (Latin-1), so that columns count bytes as the program does.
"""

from __future__ import annotations

import re
from typing import NamedTuple

RESERVED = ("type", "pred", "bwd", "fact", "stage", "context", "qui")
RESERVED_WORDS = frozenset(RESERVED)

# The words by which a predicate is declared.
KINDS = ("pred", "bwd", "fact")

# What an argument may be, but for a term in parentheses.
VALUES = ("name", "variable", "blank")

# One alternative for each kind of token; what none of them takes is a byte that begins no token.
TOKEN = re.compile(
    r"[ \t\r]*(?:(?P<name>[a-z][A-Za-z0-9_/']*)"
    r"|(?P<variable>[A-Z][A-Za-z0-9_/']*)"
    r"|(?P<mark>[:.,*$=(){}])"
    r"|(?P<lines>\n[ \t\r\n]*)"
    r"|(?P<arrow>-o|<-)"
    r"|(?P<blank>_)"
    r"|(?P<comment>%[^\n]*)"
    r"|(?P<number>[0-9]+)"
    r"|(?P<directive>#[A-Za-z]+)"
    r"|(?P<bad>[^ \t\r\n]))"
)


class Token(NamedTuple):
    """A token with its place: lines and columns count from 1, and columns count bytes; `start` is how many bytes
    stand before it. Kinds: name, variable, number, directive, arrow, blank, mark, reserved, bad, comment and end."""

    kind: str
    text: str
    line: int
    column: int
    start: int

    @property
    def end(self) -> int:
        """How many bytes stand before what comes after it."""
        return self.start + len(self.text)


def tokens_and_comments(text: str) -> tuple[list[Token], list[Token]]:
    """All tokens of a text, and all comments, each up to the end of its line."""
    found: list[Token] = []
    comments: list[Token] = []
    words: dict[str, str] = {}
    line, before = 1, -1
    for match in TOKEN.finditer(text):
        kind = match.lastgroup
        if kind is None:
            continue
        word = match[kind]
        start = match.end() - len(word)
        if kind == "lines":
            line += word.count("\n")
            before = start + word.rindex("\n")
        elif kind == "comment":
            comments.append(Token(kind, word, line, start - before, start))
        else:
            kind = "reserved" if word in RESERVED_WORDS else kind
            word = words.setdefault(word, word)
            found.append(Token(kind, word, line, start - before, start))
    return found, comments


def tokens(text: str) -> list[Token]:
    """All tokens of a text."""
    return tokens_and_comments(text)[0]


def in_one_line(text: str) -> str:
    """A part of a text in one line, without comments."""
    return " ".join(re.sub(r"%[^\n]*", " ", text).split())
