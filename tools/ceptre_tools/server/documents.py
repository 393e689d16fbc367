"""Documents that are open in the editor: their texts, and places as the editor, Python and the program count them.

An editor counts lines that end with a line feed, a carriage return or both, and in a line units of UTF-16 or bytes of
UTF-8. The program counts bytes. An offset is a number of bytes from the beginning.
"""

from __future__ import annotations

import os
import re
from bisect import bisect_right
from itertools import accumulate
from typing import Any, Optional
from urllib.parse import quote, unquote, urlsplit

from ceptre_tools.tokens import Token
from ceptre_tools.world import World

from .protocol import Json

LINE = re.compile(r"\r\n|\n|\r")

# A text up to so many bytes is read at once when it was changed, so that all that is asked of it is up to date.
SMALL = 40_000


def bytes_of(text: str) -> bytes:
    """A text in UTF-8, half characters too, as some editors send them."""
    return text.encode("utf-8", "surrogatepass")


def path_of(uri: str) -> str:
    """The path of a file by its address, or nothing."""
    parts = urlsplit(uri)
    return unquote(parts.path) if parts.scheme == "file" else ""


def uri_of(path: str) -> str:
    """The address of a file."""
    return "file://" + quote(os.path.abspath(path))


def beginning(row: str, length: int) -> str:
    """The characters that begin in the first so many bytes."""
    place = 0
    while length > 0 and place < len(row):
        length -= len(bytes_of(row[place]))
        place += 1
    return row[:place]


class Lines:
    """Where the lines of a text begin, and what stands where. With `utf8` columns are bytes, else units of UTF-16."""

    def __init__(self, text: str, utf8: bool) -> None:
        self.text = text
        self.is_plain = text.isascii()
        self.utf8 = utf8
        if "\r" in text:
            self.starts = [0, *(match.end() for match in LINE.finditer(text))]
        else:
            self.starts = [0, *accumulate(len(row) + 1 for row in text.split("\n")[:-1])]
        self.offsets = self.starts if self.is_plain else self.byte_starts()

    def byte_starts(self) -> list[int]:
        """Where the lines begin in bytes."""
        ends = [*self.starts[1:], len(self.text)]
        rows = (len(bytes_of(self.text[start:end])) for start, end in zip(self.starts, ends))
        return [0, *accumulate(rows)][: len(self.starts)]

    def row(self, line: int) -> str:
        """A line without its end."""
        end = self.starts[line + 1] if line + 1 < len(self.starts) else len(self.text)
        return self.text[self.starts[line] : end].rstrip("\r\n")

    def width(self, text: str) -> int:
        """How many columns a part of a line has."""
        if self.utf8:
            return len(bytes_of(text))
        return len(text) + sum(letter > "\uffff" for letter in text)

    def index(self, position: Json) -> int:
        """The place of a position in the text: at most the end of its line, and of the text."""
        line, column = int(position["line"]), int(position["character"])
        if line >= len(self.starts):
            return len(self.text)
        row = self.row(line)
        if self.is_plain:
            return self.starts[line] + min(column, len(row))
        place = 0
        while place < len(row) and column >= self.width(row[place]):
            column -= self.width(row[place])
            place += 1
        return self.starts[line] + place

    def offset(self, position: Json) -> int:
        """The same in bytes."""
        index = self.index(position)
        if self.is_plain:
            return index
        line = min(int(position["line"]), len(self.starts) - 1)
        return self.offsets[line] + len(bytes_of(self.text[self.starts[line] : index]))

    def fits(self, position: Json) -> bool:
        """Whether a position is within the text, but for columns after the end of a line."""
        return bool(0 <= position["line"] < len(self.starts) and position["character"] >= 0)

    def position(self, offset: int) -> Json:
        """The position of an offset."""
        line = max(0, bisect_right(self.offsets, offset) - 1)
        column = offset - self.offsets[line]
        if not self.is_plain and not self.utf8:
            column = self.width(beginning(self.row(line), column))
        return {"line": line, "character": column}

    def range(self, start: int, end: int) -> Json:
        """The range between two offsets."""
        return {"start": self.position(start), "end": self.position(end)}


class Document:
    """An open document. Its world may be that of an earlier text while a large one is being typed; then offsets are
    moved by what was edited since."""

    def __init__(self, uri: str, text: str, version: int, utf8: bool) -> None:
        self.uri = uri
        self.version = version
        self.utf8 = utf8
        self.edits: list[tuple[int, int, int]] = []
        self.read: Optional[World] = None
        self.set(text)

    def set(self, text: str) -> None:
        """Takes a text in place of the present one."""
        self.text = text
        self.lines = Lines(text, self.utf8)

    @property
    def source(self) -> str:
        """The text as the program takes it: each byte as a character."""
        return self.text if self.lines.is_plain else bytes_of(self.text).decode("latin-1")

    @property
    def path(self) -> str:
        """Its file, or nothing."""
        return path_of(self.uri)

    @property
    def is_log(self) -> bool:
        """Whether it is a transcript."""
        return self.uri.endswith(".log")

    def change(self, change: Json) -> bool:
        """Takes a change, and answers whether it fits the text: one that does not is taken at the nearest place."""
        if "range" not in change:
            self.read, self.edits = None, []
            self.set(change["text"])
            return True
        start, end = change["range"]["start"], change["range"]["end"]
        first, last = sorted((self.lines.index(start), self.lines.index(end)))
        fits = self.lines.fits(start) and self.lines.fits(end) and first == self.lines.index(start)
        offset = self.lines.offset(start if first == self.lines.index(start) else end)
        removed, put = self.text[first:last], change["text"]
        self.edits.append((offset, len(bytes_of(removed)), len(bytes_of(put))))
        self.set(self.text[:first] + put + self.text[last:])
        return fits

    def take(self, world: World, version: int) -> None:
        """Takes the world of the text of a version, if that is still the present one."""
        if version == self.version:
            self.read, self.edits = world, []

    @property
    def world(self) -> World:
        """The world of the text, or of an earlier one of a large text."""
        if self.read is None or (self.edits and len(self.text) <= SMALL):
            self.read, self.edits = World(self.source), []
        return self.read

    def to_world(self, offset: int) -> int:
        """An offset of the text in the world's."""
        for start, removed, put in reversed(self.edits):
            if offset >= start + put:
                offset += removed - put
            elif offset > start:
                offset = start
        return offset

    def from_world(self, offset: int) -> int:
        """An offset of the world's text in the present one."""
        for start, removed, put in self.edits:
            if offset >= start + removed:
                offset += put - removed
            elif offset > start:
                offset = start
        return offset

    def range(self, start: int, end: int) -> Json:
        """The range between two offsets of the world's text."""
        return self.lines.range(self.from_world(start), self.from_world(end))

    def range_of(self, token: Token) -> Json:
        """The range of a token of the world."""
        return self.range(token.start, token.end)

    def location(self, token: Token) -> Json:
        """The location of a token of the world."""
        return {"uri": self.uri, "range": self.range_of(token)}

    def offset(self, params: Any) -> int:
        """The offset in the world of the position that a request names."""
        return self.to_world(self.lines.offset(params["position"]))


def place_in(text: str, line: int, column: int) -> int:
    """The offset of a line and a column as the program counts them."""
    start = 0
    for _ in range(line - 1):
        end = text.find("\n", start)
        if end < 0:
            return len(text)
        start = end + 1
    return min(start + column - 1, len(text))
