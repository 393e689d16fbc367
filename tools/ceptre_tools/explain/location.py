"""The place at which a text is refused, and what stands around it."""

from __future__ import annotations

from bisect import bisect_left
from copy import copy
from typing import Optional

from ceptre_tools.items import Declaration
from ceptre_tools.tokens import VALUES, Token
from ceptre_tools.world import World

# Marks after which an item begins, and with which it ends.
BEFORE, AFTER = (".", "{", "}"), (".", "}")


class Location:
    """Where a text is refused, or another token of it: `index` is the number of the first token that does
    not stand before it."""

    def __init__(self, text: str, reason: str, line: int, column: int, number: int = 0) -> None:
        self.text, self.reason, self.number, self.line, self.column = text, reason, number, line, column
        world = World(text)
        self.tokens, self.declared = world.tokens, world.declarations
        self.start = offset(text, line, column)
        self.index = bisect_left([token.start for token in self.tokens], self.start)

    @classmethod
    def of(cls, text: str, line: str) -> Location:
        """The place that the program names by a line such as `refused 3:4 6 Unknown`."""
        reason, number, row, column = parts_of(line)
        return cls(text, reason, row, column, number)

    def moved(self, token: Token) -> Location:
        """The place of another token of the same text."""
        there = copy(self)
        there.line, there.column, there.start = token.line, token.column, token.start
        there.index = bisect_left([other.start for other in self.tokens], token.start)
        return there

    @property
    def end(self) -> int:
        """Where the token ends that is refused; a byte that begins none is one byte long."""
        token = self.token(0)
        return token.end if token and token.start == self.start else self.start + 1

    def token(self, ahead: int) -> Optional[Token]:
        """The token so many places after the refused one, or None."""
        place = self.index + ahead
        return self.tokens[place] if 0 <= place < len(self.tokens) else None

    def word(self, ahead: int = 0) -> str:
        """The text of that token, or nothing."""
        token = self.token(ahead)
        return token.text if token else ""

    def kind(self, ahead: int = 0) -> str:
        """Its kind."""
        token = self.token(ahead)
        return token.kind if token else "end"

    def source(self, length: int) -> str:
        """The bytes at the place."""
        return self.text[self.start : self.start + length]

    def before(self, length: int) -> str:
        """The bytes before the place."""
        return self.text[max(0, self.start - length) : self.start]

    def begins_line(self, ahead: int) -> bool:
        """Whether a token is the first of its line, and others stand before it."""
        token, last = self.token(ahead), self.token(ahead - 1)
        return token is not None and last is not None and last.line < token.line

    def bounds(self) -> tuple[int, int]:
        """Where the item or rule at the place begins and ends among the tokens, its dot included."""
        first = last = self.index
        while first > 0 and self.tokens[first - 1].text not in BEFORE:
            first -= 1
        while last < len(self.tokens) and self.tokens[last].text not in AFTER:
            last += 1
        return first, min(last + 1, len(self.tokens))

    def item(self) -> list[Token]:
        """The tokens from the beginning of the item or rule at the place up to its dot."""
        first, last = self.bounds()
        return self.tokens[first:last]

    def words(self) -> list[str]:
        """The texts of these tokens."""
        return [token.text for token in self.item()]

    def open_braces(self) -> list[tuple[str, Token]]:
        """The braces that are open at the place: each with what it belongs to (`stage`, `context`,
        `#trace` or nothing)."""
        found: list[tuple[str, Token]] = []
        for i, token in enumerate(self.tokens[: self.index]):
            if token.text == "{":
                owners = [t.text for t in self.tokens[max(0, i - 3) : i]]
                found.append((next((o for o in owners if o in ("stage", "context", "#trace")), ""), token))
            elif token.text == "}" and found:
                found.pop()
        return found

    def braces(self) -> str:
        """What the innermost open brace belongs to, or nothing."""
        found = self.open_braces()
        return found[-1][0] if found else ""

    def on_right_side(self) -> bool:
        """Whether an arrow stands before the place in its rule."""
        return any(token.text == "-o" and token.start < self.start for token in self.item())

    def atom(self) -> list[Token]:
        """The tokens of the atom or term at the place, its name first."""
        found: list[Token] = []
        depth = 0
        for token in self.tokens[self.index :]:
            depth += (token.text == "(") - (token.text == ")")
            if depth < 0 or not is_of_atom(token):
                break
            found.append(token)
        return found

    def arguments(self) -> list[list[Token]]:
        """The arguments of the atom or term at the place, each as its tokens."""
        found: list[list[Token]] = []
        depth = 0
        for token in self.atom()[1:]:
            if depth == 0:
                found.append([])
            found[-1].append(token)
            depth += (token.text == "(") - (token.text == ")")
        return found

    def head(self) -> Optional[Token]:
        """The name of the atom or term among whose arguments the place is, or None."""
        depth = 0
        for ahead in range(-1, -self.index - 1, -1):
            token, earlier = self.tokens[self.index + ahead], self.token(ahead - 1)
            depth += (token.text == ")") - (token.text == "(")
            if depth < 0:
                return self.token(ahead + 1) if ahead < -1 else None
            if not is_of_atom(token):
                return None
            if depth == 0 and not (earlier and is_of_atom(earlier)):
                return token if token.kind == "name" else None
        return None

    def of_kind(self, name: str, *kinds: str) -> Optional[Declaration]:
        """The first declaration of a name as one of these kinds, or None."""
        return next((d for d in self.declared if d.name == name and d.kind in kinds), None)

    def is_backward(self, name: str) -> bool:
        """Whether a name is declared as a backward predicate."""
        declared = self.of_kind(name, "predicate")
        return declared is not None and declared.word == "bwd"

    def in_rule(self) -> bool:
        """Whether the item at the place is a rule, as far as its marks tell."""
        words = self.words()
        return self.braces() == "stage" or "-o" in words or "qui" in words


def parts_of(line: str) -> tuple[str, int, int, int]:
    """What a line such as `refused 3:4 6 Unknown` says: the reason, its number, and the line and column."""
    where, number, reason = line.removeprefix("refused ").split()
    row, _, column = where.partition(":")
    return reason, int(number), int(row), int(column)


def offset(text: str, line: int, column: int) -> int:
    """How many bytes stand before a place."""
    return sum(len(row) + 1 for row in text.split("\n", line - 1)[: line - 1]) + column - 1


def is_of_atom(token: Token) -> bool:
    """Whether a token may stand in an atom: a name, what stands for one, or a parenthesis."""
    return token.kind in VALUES or token.text in ("(", ")")
