"""Repairs of a token or two, each as the edits that would make it, to be tried with the program.

An edit that makes the program accept a text shows better than any rule of thumb what was meant. So
each repair only has to say where its token may be missing; whether it is there the program decides.
"""

from __future__ import annotations

from collections.abc import Callable, Iterable, Iterator
from itertools import islice
from typing import NamedTuple, Optional

from ceptre_tools.explain.location import Location, offset, parts_of
from ceptre_tools.terminal import followed
from ceptre_tools.tokens import KINDS, RESERVED, VALUES, Token

# How many edits of a repair are tried at most.
MOST = 40

# Marks after which an atom of a side, a context or a clause stands.
JOINTS = (":", "*", "-o", "<-", ",", "{", "}", ".", "$")

# What says by which line the program refuses a text, or None where it accepts it.
Judge = Callable[[str], Optional[str]]


class Edit(NamedTuple):
    """A change of a text: what stands from `start` to `end` is replaced."""

    start: int
    end: int
    put: str

    def of(self, text: str) -> str:
        """The text with it."""
        return text[: self.start] + self.put + text[self.end :]

    def described(self, text: str) -> str:
        """The edit in words, with its line and column."""
        before = text[: self.start]
        where = f"{before.count(chr(10)) + 1}:{self.start - before.rfind(chr(10))}"
        old, new = text[self.start : self.end], self.put.strip()
        if not old:
            return f"with `{new}` put in at {where}"
        if not new:
            return f"without the `{old}` at {where}"
        return f"with `{new}` in place of the `{old}` at {where}"


def after(here: Location, number: int, put: str) -> Iterator[Edit]:
    """Puts a mark after a token, or after the last one where there is no such token."""
    number = min(number, len(here.tokens) - 1)
    if number >= 0:
        yield Edit(here.tokens[number].end, here.tokens[number].end, put)


def before(here: Location, number: int, put: str) -> Iterator[Edit]:
    """Puts a word before a token, or at the end."""
    if number >= len(here.tokens):
        return after(here, number, " " + put)
    return instead_of(here.tokens[number].start, 0, put)


def instead(token: Optional[Token], put: str) -> Iterator[Edit]:
    """Puts something in place of a token."""
    return instead_of(token.start, len(token.text), put) if token else iter(())


def instead_of(start: int, length: int, put: str) -> Iterator[Edit]:
    """Puts something in place of so many bytes."""
    yield Edit(start, start + length, put)


def names_before(here: Location) -> int:
    """The number of the first of the names that stand in a row before the place."""
    number = here.index
    while number > 0 and here.tokens[number - 1].kind == "name":
        number -= 1
    return number


def unjoined(here: Location) -> Iterator[int]:
    """The numbers of the tokens in the item that begin an atom, with no mark before them."""
    first, last = here.bounds()
    atoms = ("predicate", "context") if here.braces() == "#trace" else ("predicate",)
    for number in range(first + 1, last):
        token, previous = here.tokens[number], here.tokens[number - 1]
        if previous.text in JOINTS or previous.text in ("(", "stage"):
            continue
        unit = token.text == "(" and here.text[token.end :].lstrip().startswith(")")
        begins = token.text in ("$", "qui", "stage") or here.of_kind(token.text, *atoms)
        if begins or unit or (number == here.index and token.kind == "name"):
            yield number


def missing_dot(here: Location) -> Iterator[Edit]:
    """At the place, before the names that lead to it, where a line begins, or before a predicate."""
    yield from after(here, here.index - 1, ".")
    first, last = here.bounds()
    start = names_before(here)
    numbers = [n for n in range(first + 1, last) if here.tokens[n].line > here.tokens[n - 1].line]
    numbers += range(max(start, first + 1), here.index)
    if here.reason != "Unexpected":
        numbers += unjoined(here)
    for number in sorted(set(numbers)):
        if here.tokens[number - 1].text not in (":", "*", "-o", "<-", ","):
            yield from after(here, number - 1, ".")


def semicolon(here: Location) -> Iterator[Edit]:
    if here.word() == ";":
        yield from instead(here.token(0), ".")


def missing_star(here: Location) -> Iterator[Edit]:
    if here.in_rule():
        for number in unjoined(here):
            yield from before(here, number, "* ")


def comma_in_rule(here: Location) -> Iterator[Edit]:
    """Each comma of the rule at once: who writes one writes them all."""
    if here.word() == "," and here.in_rule():
        start, commas = here.start, [t for t in here.item() if t.text == ","]
        end = commas[-1].end
        yield Edit(start, end, here.text[start:end].replace(",", " *"))
        yield from instead(here.token(0), " *")


def star_in_clause(here: Location) -> Iterator[Edit]:
    if here.word() == "*" and "-o" not in here.words():
        yield from instead(here.token(0), ",")


def missing_comma(here: Location) -> Iterator[Edit]:
    """Not before a line that has an arrow of its own: that is the next clause."""
    first, last = here.bounds()
    if first and here.tokens[first - 1].text == ".":
        yield from instead(here.tokens[first - 1], ",")
    if here.word() == ".":
        yield from instead(here.token(0), ",")
    if not here.in_rule():
        for number in unjoined(here):
            begins_line = here.tokens[number].line > here.tokens[number - 1].line
            if not (begins_line and any(token.text == "<-" for token in here.tokens[number:last])):
                yield from after(here, number - 1, ",")


def missing_arrow(here: Location) -> Iterator[Edit]:
    words = here.words()
    if here.in_rule() and "-o" not in words and "<-" not in words:
        for number in unjoined(here):
            yield from before(here, number, "-o ")


def missing_clause_arrow(here: Location) -> Iterator[Edit]:
    """Between a head and a goal, where these stand in one line: a head with variables says nothing
    alone."""
    first, last = here.bounds()
    if not here.in_rule() and not here.braces():
        for number in unjoined(here):
            token, previous = here.tokens[number], here.tokens[number - 1]
            has_variable = any(t.kind == "variable" for t in here.tokens[first:number])
            if has_variable and token.line == previous.line and number < last:
                yield from before(here, number, "<- ")


def clause_arrow_in_rule(here: Location) -> Iterator[Edit]:
    if here.in_rule() or "stage" in here.words():
        for token in here.item():
            if token.text == "<-":
                yield from instead(token, "-o")


def rule_arrow_in_clause(here: Location) -> Iterator[Edit]:
    item = here.item()
    for token in item:
        if token.text == "-o" and any(here.is_backward(t.text) for t in item):
            yield from instead(token, "<-")


def missing_colon(here: Location) -> Iterator[Edit]:
    first, last = here.bounds()
    words = here.words()
    if words and words[0] == "#":
        return
    for number in range(first + 1, last):
        if here.tokens[number].text in ("type", *KINDS):
            yield from before(here, number, ": ")
    if here.braces() == "stage" or "-o" in words:
        yield from after(here, first, " :")
    elif ":" not in words and last - first > 2:
        yield from before(here, last - 2, ": ")


def missing_close(here: Location) -> Iterator[Edit]:
    """`}` at the place, before its item, or before the names that lead to it."""
    if not here.open_braces():
        return
    for number in (here.index, here.bounds()[0], names_before(here)):
        yield from before(here, number, "} ")


def missing_open(here: Location) -> Iterator[Edit]:
    first, _ = here.bounds()
    words = here.words()
    if words and words[0] in ("stage", "context", "#trace"):
        yield from before(here, here.index, "{ ")
        yield from before(here, first + 3, "{ ")


def missing_parenthesis(here: Location) -> Iterator[Edit]:
    """`(` or `)` at the place, or somewhere in the atom that ends there."""
    first, _ = here.bounds()
    closes = here.word() == ")"
    if not closes:
        yield from after(here, here.index - 1, ")")
    for number in range(here.index, first, -1):
        token, previous = here.tokens[number - 1], here.tokens[number - 2]
        if closes:
            yield from before(here, number, "(")
        elif token.kind in VALUES or token.text in ("(", ")"):
            yield from after(here, number - 2, ")")
        if token.text in JOINTS or (number >= 2 and previous.text in JOINTS and not closes):
            break


def spare_parenthesis(here: Location) -> Iterator[Edit]:
    if here.word() == ")":
        yield from instead(here.token(0), "")


def missing_equals(here: Location) -> Iterator[Edit]:
    if here.word(-2) in ("stage", "context"):
        if here.word() == ":":
            yield from instead(here.token(0), "=")
        else:
            yield from before(here, here.index, "= ")


def missing_qui(here: Location) -> Iterator[Edit]:
    """`qui` where an outer rule names a stage on its left and has none."""
    first, _ = here.bounds()
    words = here.words()
    if "qui" in words or "stage" not in words or "=" in words or here.braces():
        return
    yield from before(here, here.index, "qui ")
    yield from before(here, here.index, "qui * ")
    start = first + 2 if words[1:2] == [":"] else first
    yield from before(here, start, "qui * ")


def missing_stage(here: Location) -> Iterator[Edit]:
    """`stage` before the name of one, in an outer rule or at the beginning of an item."""
    first, last = here.bounds()
    if here.braces():
        return
    for number in range(first, last):
        token, previous = here.tokens[number], here.tokens[number - 1]
        if here.of_kind(token.text, "stage") and (number == first or previous.text != "stage"):
            yield from before(here, number, "stage ")


def unmarked_block(here: Location) -> Iterator[Edit]:
    """`main = { .. }` without its word."""
    first, _ = here.bounds()
    if here.word() == "=" and here.index == first + 1:
        yield from before(here, first, "stage ")
        yield from before(here, first, "context ")


def missing_hash(here: Location) -> Iterator[Edit]:
    first, _ = here.bounds()
    if first < len(here.tokens) and here.tokens[first].text in ("trace", "interactive"):
        yield from before(here, first, "#")


def missing_kind(here: Location) -> Iterator[Edit]:
    if here.word(-1) == ":" and here.word() == ".":
        yield from before(here, here.index, "type")
        yield from before(here, here.index, "pred")


def capital_word(here: Location) -> Iterator[Edit]:
    for token in here.item():
        small = token.text[:1].lower() + token.text[1:].lower()
        if token.kind == "variable" and small in RESERVED:
            yield from instead(token, small)
        if token.kind == "directive" and token.text != token.text.lower():
            yield from instead(token, token.text.lower())


# The repairs, the likelier ones first: each with the name of its cause.
REPAIRS: list[tuple[str, Callable[[Location], Iterator[Edit]]]] = [
    ("a word of the language with a capital letter", capital_word),
    ("a directive without its `#`", missing_hash),
    ("a missing dot", semicolon),
    ("a comma between atoms of a rule", comma_in_rule),
    ("a star between the goals of a clause", star_in_clause),
    ("an arrow of clauses in a rule", clause_arrow_in_rule),
    ("an arrow of rules in a clause", rule_arrow_in_clause),
    ("a missing equals sign", missing_equals),
    ("a missing `stage` or `context`", unmarked_block),
    ("a parenthesis too many", spare_parenthesis),
    ("a missing parenthesis", missing_parenthesis),
    ("a `qui` rule without both stages", missing_qui),
    ("a `qui` rule without both stages", missing_stage),
    ("a missing arrow", missing_arrow),
    ("a missing star", missing_star),
    ("a missing comma", missing_comma),
    ("a missing arrow", missing_clause_arrow),
    ("a missing dot", missing_dot),
    ("a missing colon", missing_colon),
    ("a declaration without its kind", missing_kind),
    ("a missing brace", missing_close),
    ("a missing brace", missing_open),
]


# The reasons for which repairs are tried. What is no token is known by its bytes, but for a `;`.
TRIED = ("Unexpected", "Twice", "Unknown", "WrongKind", "WrongArity", "BwdInState", "LinearInClause", "BadQui")

# A brace cuts an item in two, so that the program goes on after it says little.
CUTTING = ("a missing brace",)

# The phases in which the program looks at a text, where they are not that of names, the third.
NAMES = 3
PHASES = {"BadByte": 1, "NameLong": 1, "Unexpected": 2, "Nested": 2, "TypeClash": 4, "Unbound": 5, "Ungrounded": 6}


def goes_on(here: Location, edit: Edit, line: str) -> bool:
    """Whether the program, after an edit, refuses something else further on."""
    reason, _, row, column = parts_of(line)
    start = offset(edit.of(here.text), row, column)
    first, last = here.bounds()
    if first == last:
        return False
    further = PHASES.get(reason, NAMES) - PHASES.get(here.reason, NAMES)
    if start > here.tokens[last - 1].end + len(edit.put) - (edit.end - edit.start):
        return further >= 0
    return start < here.tokens[first].start and further > 0


class Repair(NamedTuple):
    """A repair that the program bears out: its cause, its edit, and the line by which the program refuses
    what comes after it, or None where it accepts the text then."""

    cause: str
    edit: Edit
    next_line: Optional[str]


def candidates(here: Location) -> list[tuple[str, Edit]]:
    """The edits that are to be tried, the likelier ones first, each with its cause."""
    if here.reason not in TRIED and here.source(1) != ";":
        return []
    found: dict[Edit, str] = {}
    for cause, edits in REPAIRS:
        for edit in islice(edits(here), MOST):
            found.setdefault(edit, cause)
    return [(cause, edit) for edit, cause in found.items()]


def borne_out(here: Location, refusal_of: Judge) -> Optional[Repair]:
    """The first repair by which the program accepts the text, or else goes on to something else; or None."""
    further = None
    tries = candidates(here)
    lines: Iterable[Optional[str]] = (refusal_of(edit.of(here.text)) for _, edit in tries)
    for (cause, edit), line in zip(tries, followed(lines, len(tries))):
        if line is None:
            return Repair(cause, edit, None)
        if further is None and cause not in CUTTING and goes_on(here, edit, line):
            further = Repair(cause, edit, line)
    return further
