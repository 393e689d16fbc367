"""Refusals of the program as values: the place, what the reason means, what is likely, and the mends."""

from __future__ import annotations

import csv
import functools
import os
from typing import NamedTuple, Optional

from ceptre_tools.explain import conflicts
from ceptre_tools.explain.causes import likely_cause
from ceptre_tools.explain.limits import limit
from ceptre_tools.explain.location import Location
from ceptre_tools.explain.names import near_names
from ceptre_tools.explain.repairs import Edit, Judge, borne_out
from ceptre_tools.items import Item
from ceptre_tools.program import refusal_of as refusal_by_the_program
from ceptre_tools.text import shown

# How often the program is asked for one more refusal of a text.
MOST_ASKED = 40

# After these the rest of the text is not judged: it is no text of the language, or too long.
LAST = ("NoTrace", "TooLong")


@functools.lru_cache(maxsize=None)
def table(name: str) -> dict[str, list[str]]:
    """A table of this folder: the cells of each row by the first one."""
    with open(os.path.join(os.path.dirname(__file__), name), encoding="utf-8", newline="") as file:
        return {first: cells for first, *cells in list(csv.reader(file))[1:]}


def reasons() -> dict[str, list[str]]:
    """What each refusal means in plain words, and what to do, by its name."""
    return table("reasons.csv")


def mends() -> dict[str, str]:
    """How each likely cause is mended, by its name."""
    return {cause: mend for cause, (_, mend) in table("causes.csv").items()}


class Mend(NamedTuple):
    """A change that would mend a refusal, in words, and whether the program accepts the text with it;
    else it goes on to another refusal, or was not asked."""

    title: str
    edit: Edit
    accepted: bool


class Refusal:
    """A refusal: its place, what is likely meant there, the edit that the program bears out, and the line by
    which it refuses what comes after that, or None where it accepts the text then."""

    def __init__(self, location: Location, cause: str, edit: Optional[Edit], next_line: Optional[str]) -> None:
        self.location, self.cause, self.edit, self.next_line = location, cause, edit, next_line
        self.reason, self.number = location.reason, location.number
        self.meaning, advice = reasons()[self.reason]
        variables = " and ".join(conflicts.unknown_variables(location)) if "which X" in advice else ""
        self.advice = mends()[cause] if cause else advice.replace("which X", f"which {variables or 'X'}")

    @classmethod
    def of(cls, text: str, line: str, refusal_of: Judge = refusal_by_the_program) -> Refusal:
        """The refusal of a text by a line of the program."""
        here = Location.of(text, line)
        repair = borne_out(here, refusal_of)
        return cls(here, *repair) if repair else cls(here, likely_cause(here), None, None)

    @property
    def tried(self) -> str:
        """What came of the edit, in words."""
        if self.edit is None:
            return ""
        line = self.next_line
        outcome = f"the program goes on to {line.split()[1]}" if line else "the text is accepted"
        return f"{self.edit.described(self.location.text)} {outcome}"

    @property
    def near(self) -> list[tuple[str, str]]:
        """Names that are spelt nearly so, each with what it is."""
        return [] if self.edit else near_names(self.location)

    @property
    def mends(self) -> list[Mend]:
        """The edit that the program bears out, and names that may be meant."""
        here, found = self.location, []
        if self.edit:
            title = self.edit.described(here.text).removeprefix("with ")
            found.append(Mend(title, self.edit, self.next_line is None))
        named = ((name, Edit(here.start, here.end, name)) for name, _ in self.near)
        return found + [Mend(f"write `{name}`", edit, False) for name, edit in named]

    @property
    def message(self) -> str:
        """What it says in one line."""
        said = self.meaning
        if self.reason == "OverLimit":
            said += f"; {limit(self.location)}"
        return said + (f"; likely {self.cause}" if self.cause else "")

    def notes(self, refusal_of: Judge = refusal_by_the_program) -> list[str]:
        """The other places that it speaks of, and the limit that is passed, each with a word before it."""
        here, lines = self.location, []
        if here.reason == "OverLimit":
            lines.append(f"limit:  {limit(here)}")
        if here.reason == "TypeClash":
            lines += [f"see:    {line}" for line in conflicts.type_places(here)]
        if here.reason == "Ungrounded":
            lines += [f"blame:  {line}" for line in conflicts.blamed(here, refusal_of)]
        if self.cause == "a missing brace":
            owners = here.open_braces()[-1:]
            opened = [f"line {brace.line}: the brace of this {owner or 'item'}" for owner, brace in owners]
            lines += [f"see:    {line} is open" for line in opened]
        return lines + [f"see:    {line}" for line in declared(here)]


def declared(here: Location) -> list[str]:
    """The lines of the declarations that a refusal speaks of."""
    if here.reason not in ("Twice", "WrongKind", "WrongArity", "TypeClash"):
        return []
    head = here.head() if here.reason == "TypeClash" else None
    names = {here.word(), head.text if head else ""}
    tokens = (declaration.token for declaration in here.declared if declaration.name in names)
    numbers = sorted({token.line for token in tokens if token.start != here.start})
    lines = here.text.split("\n")
    return [f"line {number}: {shown(lines[number - 1].rstrip()).strip()}" for number in numbers]


def refusals(
    text: str, line: Optional[str], refusal_of: Judge = refusal_by_the_program, most: int = 10
) -> list[Refusal]:
    """The refusals of a text, the first by this line of the program: each is mended or taken out, and the
    program asked again."""
    found: list[Refusal] = []
    gone: set[str] = set()
    for _ in range(MOST_ASKED):
        if not line or len(found) == most:
            break
        here, edit = Location.of(text, line), None
        # What was taken out may be missed elsewhere, and a line is named once.
        if here.word() not in gone and here.line not in [other.location.line for other in found]:
            found.append(Refusal.of(text, line, refusal_of))
            edit, line = found[-1].edit, found[-1].next_line
        if edit:
            text = edit.of(text)
            continue
        before, text = text, passed_over(text, here, gone)
        if here.reason in LAST or text == before:
            break
        line = refusal_of(text)
    return found


def passed_over(text: str, here: Location, gone: set[str]) -> str:
    """The text without the item at the place, or without what is no token in its line; the name that
    stood first in the item is noted."""
    if here.reason == "BadByte":
        bad = {token.start for token in here.tokens if token.kind == "bad" and token.line == here.line}
        return "".join(" " if at in bad else letter for at, letter in enumerate(text))
    first, last = here.bounds()
    last -= last > first and here.tokens[last - 1].text == "}"
    if first == last:
        return text
    gone.add(here.tokens[first].text)
    return conflicts.without(text, [Item("", here.tokens, first, last)])
