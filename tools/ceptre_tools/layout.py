"""The one layout of a world's text. Tokens and their order stay, and comments stay where they are: after the same
token, or on a line of their own between the same two.

An item has a line of its own, or shares one with others where it did. A rule that is too long for a line is broken
before `-o` and after `*`, a clause before `<-`. Between braces a stage has a line for each rule, and a context the
lines that it had. What has a comment within keeps its lines.
"""

from __future__ import annotations

from bisect import bisect_left
from typing import Optional

from ceptre_tools.items import Bag, Clause, Item, Rule, Stage
from ceptre_tools.tokens import Token
from ceptre_tools.world import World

# The most columns of a line, where it can be broken.
WIDTH = 100

# How much further to the right a line begins that is within braces, or that goes on with a rule.
STEP = 2


def formatted(text: str) -> str:
    """The text in the one layout. A text that does not fit the grammar stays as it is."""
    world = World(text)
    if world.unread:
        return text
    newline = "\r\n" if "\r\n" in text else "\n"
    return "".join(line + newline for line in Layout(world).lines())


def spaced(tokens: list[Token]) -> str:
    """Tokens in one line."""
    words = [token.text for token in tokens]
    parts = words[:1]
    for before, word in zip(words, words[1:]):
        tight = before in ("$", "(") or word in (")", ".", ",") or before + word == "{}"
        parts += [word] if tight else [" ", word]
    return "".join(parts)


def filled(parts: list[str], first: int, indent: int) -> list[str]:
    """Parts in lines that are not too long, if a part is not; `first` columns of the first line are taken, and the
    others begin after so many spaces."""
    lines, used = [""], first
    for part in parts:
        if lines[-1].strip() and used + 1 + len(part) > WIDTH:
            lines.append(" " * indent + part)
            used = indent + len(part)
        else:
            lines[-1] += " " + part if lines[-1].strip() else part
            used += len(part) + (lines[-1] != part)
    return lines


def split_after(tokens: list[Token], marks: tuple[str, ...]) -> list[list[Token]]:
    """Tokens in parts of which each but the last ends with a mark."""
    parts: list[list[Token]] = [[]]
    for token in tokens:
        parts[-1].append(token)
        if token.text in marks:
            parts.append([])
    return [part for part in parts if part]


class Layout:
    """Writes the lines of a world, one item after another."""

    def __init__(self, world: World) -> None:
        self.world = world
        self.comment_starts = [comment.start for comment in world.comments]
        self.token_lines = {token.line for token in world.tokens}
        self.written: list[str] = []
        self.source_line = 0
        self.may_join = False

    def lines(self) -> list[str]:
        """All lines."""
        place = 0
        for item in self.world.items:
            self.comments(place, item.start, 0)
            self.item(item)
            place = item.end
        self.comments(place, len(self.world.text), 0)
        return self.written

    def comments_in(self, start: int, end: int) -> list[Token]:
        """The comments that begin in a part of the text."""
        first, last = bisect_left(self.comment_starts, start), bisect_left(self.comment_starts, end)
        return self.world.comments[first:last]

    def comments(self, start: int, end: int, indent: int) -> None:
        """Writes the comments between two items: each after the line that it ended, or on a line of its own."""
        for comment in self.comments_in(start, end):
            if comment.line in self.token_lines:
                self.written[-1] = self.with_comment(self.written[-1], comment)
                self.source_line = comment.line
            else:
                self.put([" " * indent + comment.text.rstrip()], comment.line, comment.line)
            self.may_join = False

    def with_comment(self, line: str, comment: Token) -> str:
        """A line and the comment that ends it, in its column where there is room for that."""
        room = max(STEP, comment.column - 1 - len(line)) if line else 0
        return line + " " * room + comment.text.rstrip()

    def put(self, lines: list[str], first: int, last: int, may_join: bool = False) -> None:
        """Writes lines that stood from a line of the source to another: after a blank one where there was one."""
        opened = self.written[-1:] and self.written[-1].endswith("{")
        if self.written and first > self.source_line + 1 and not opened:
            self.written.append("")
        self.written += lines
        self.source_line, self.may_join = last, may_join

    def item(self, item: Item) -> None:
        """Writes an item."""
        last = item.tokens[-1].line
        opening = next((token for token in item.tokens if token.text == "{"), None)
        comments = self.comments_in(item.start, item.end)
        if opening is None or not isinstance(item, (Stage, Bag)):
            lines = self.kept(item, 0) if comments else self.broken(item, 0)
            self.whole(item, lines)
        elif item.line == last and len(spaced(item.tokens)) <= WIDTH:
            self.whole(item, [spaced(item.tokens)])
        elif self.is_commented_apart(item, opening):
            self.put(self.kept(item, 0), item.line, last)
        elif isinstance(item, Stage):
            self.stage(item, opening)
        else:
            self.bag(item, opening)

    def is_commented_apart(self, item: Item, opening: Token) -> bool:
        """Whether a comment stands in an item outside of its braces, or within an atom of a context."""
        if self.comments_in(item.start, opening.start) or self.comments_in(self.closing(item).end, item.end):
            return True
        parts = split_after(self.inside(item, opening), (",", "*")) if isinstance(item, Bag) else []
        return any(self.comments_in(part[0].start, part[-1].start) for part in parts)

    def whole(self, item: Item, lines: list[str]) -> None:
        """Writes a whole item, after the one before it where they shared a line and there is room."""
        last = item.tokens[-1].line
        joined = f"{self.written[-1]}  {lines[0]}" if self.written else ""
        if self.may_join and item.line == self.source_line and len(lines) == 1 and len(joined) <= WIDTH:
            self.written[-1] = joined
            self.source_line = last
        else:
            self.put(lines, item.line, last, len(lines) == 1)

    def closing(self, item: Item) -> Token:
        """The brace that ends an item."""
        return item.tokens[-1] if item.tokens[-1].text == "}" else item.tokens[-2]

    def inside(self, item: Item, opening: Token) -> list[Token]:
        """The tokens between the braces of an item."""
        tokens = item.tokens
        return tokens[tokens.index(opening) + 1 : tokens.index(self.closing(item))]

    def stage(self, item: Stage, opening: Token) -> None:
        """Writes a stage with a line for each rule."""
        closing = self.closing(item)
        number = item.tokens.index(opening)
        empty = not item.rules and not self.comments_in(opening.end, closing.start)
        if empty:
            self.whole(item, [spaced(item.tokens)])
            return
        self.put([spaced(item.tokens[: number + 1])], item.line, opening.line)
        place = opening.end
        for rule in item.rules:
            self.comments(place, rule.start, STEP)
            commented = self.comments_in(rule.start, rule.end)
            lines = self.kept(rule, STEP) if commented else self.broken(rule, STEP)
            self.put(lines, rule.line, rule.tokens[-1].line)
            place = rule.end
        self.comments(place, closing.start, STEP)
        self.close(item, closing)

    def close(self, item: Item, closing: Token) -> None:
        """Writes the brace that ends an item, and its dot."""
        last = item.tokens[-1]
        self.source_line = closing.line
        self.put(["}" if last is closing else "}."], closing.line, last.line)

    def bag(self, item: Bag, opening: Token) -> None:
        """Writes a context or a start, with the lines that it has between its braces."""
        tokens, closing, inside = item.tokens, self.closing(item), self.inside(item, opening)
        if not inside and not self.comments_in(opening.end, closing.start):
            self.whole(item, [spaced(tokens)])
            return
        self.put([spaced(tokens[: tokens.index(opening) + 1])], item.line, opening.line)
        place = opening.end
        row: list[list[Token]] = []
        for part in split_after(inside, (",", "*")):
            if row and part[0].line != row[0][0].line:
                self.row(row, place)
                place, row = row[-1][-1].end, []
            row.append(part)
        if row:
            self.row(row, place)
            place = row[-1][-1].end
        self.comments(place, closing.start, STEP)
        self.close(item, closing)

    def row(self, parts: list[list[Token]], place: int) -> None:
        """Writes the atoms that begin in one line, with the comments before them and within."""
        self.comments(place, parts[0][0].start, STEP)
        words = [spaced(part) for part in parts]
        lines = [" " * STEP + line.strip() for line in filled(words, STEP, STEP)]
        self.put(lines, parts[0][0].line, parts[-1][-1].line)
        self.comments(parts[0][0].start, parts[-1][-1].end, STEP)

    def broken(self, item: Item, indent: int) -> list[str]:
        """The lines of an item without comments within: one, where that is not too long."""
        margin, tokens = " " * indent, item.tokens
        whole = margin + spaced(tokens)
        if len(whole) <= WIDTH:
            return [whole]
        if isinstance(item, Rule):
            arrow = tokens.index(item.arrow)
            left = [spaced(part) for part in split_after(tokens[:arrow], ("*",))]
            right = [spaced(part) for part in split_after(tokens[arrow:], ("*",))]
            lines = filled(left, indent, indent + 2 * STEP)
            further = filled(right, indent + STEP, indent + 2 * STEP)
            return [margin + lines[0], *lines[1:], margin + " " * STEP + further[0], *further[1:]]
        if isinstance(item, Clause):
            parts = split_before(tokens, "<-")
            further = filled([spaced(part) for part in parts], indent, indent + STEP)
            return [margin + further[0], *further[1:]]
        return [whole]

    def kept(self, item: Item, indent: int) -> list[str]:
        """The lines of an item that has comments within: as they are, but for spaces."""
        rows: dict[int, list[Token]] = {}
        comments = {comment.line: comment for comment in self.comments_in(item.start, item.end)}
        for token in item.tokens:
            rows.setdefault(token.line, []).append(token)
        lines: list[str] = []
        depth, before = 0, ""
        for line in sorted({*rows, *comments}):
            row = rows.get(line, [])
            within = depth - (row[:1] != [] and row[0].text == "}")
            goes_on = before not in ("", "{", ".", "}") and (not row or row[0].text != "}")
            text = " " * (indent + STEP * (within + goes_on)) + spaced(row)
            lines.append(self.with_comment(text, comments[line]) if line in comments and row else text)
            if not row:
                lines[-1] += comments[line].text.rstrip()
            depth += sum((token.text == "{") - (token.text == "}") for token in row)
            before = row[-1].text if row else before
        return lines


def split_before(tokens: list[Token], mark: str) -> list[list[Token]]:
    """Tokens in parts of which each but the first begins with a mark."""
    parts: list[list[Token]] = [[]]
    for token in tokens:
        if token.text == mark:
            parts.append([])
        parts[-1].append(token)
    return parts


def is_formatted(text: str) -> Optional[bool]:
    """Whether a text is in the one layout, or None where it does not fit the grammar."""
    return None if World(text).unread else formatted(text) == text
