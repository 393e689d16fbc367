"""What is found in a text, as an editor shows it: refusals with their mends, hints, and rules that can never apply."""

from __future__ import annotations

import re
from itertools import accumulate
from typing import NamedTuple, Optional

from ceptre_tools.explain.dead import dead_rules
from ceptre_tools.explain.hints import Hint, hints
from ceptre_tools.explain.refusal import reasons, refusals

from .asking import Asker
from .documents import place_in

# Severities and tags of the protocol.
ERROR, WARNING, INFORMATION, HINT = 1, 2, 3, 4
UNNECESSARY = 1

# How many hints are shown at most.
MOST_HINTS = 100

# The hints of what is there and not used: an editor fades it.
FADED = ("unused", "single", "never-asked")


class Edit(NamedTuple):
    """A change of a text: what stands from `start` to `end`, in bytes, is replaced."""

    start: int
    end: int
    put: str


class Fix(NamedTuple):
    """What mends something: in words, and by edits; `is_preferred` if the program accepts the text so mended."""

    title: str
    edits: tuple[Edit, ...]
    is_preferred: bool = False


class Finding(NamedTuple):
    """Something that is found from `start` to `end`, in bytes."""

    start: int
    end: int
    severity: int
    code: str
    message: str
    fixes: tuple[Fix, ...] = ()
    is_faded: bool = False


class Findings(NamedTuple):
    """All that is found in a text; `fix_all` mends several at once, and `dead` says of rules why they can never
    apply."""

    found: tuple[Finding, ...]
    fix_all: Optional[Fix] = None
    dead: Optional[dict[str, str]] = None


def at_once(text: str, refusal: Optional[str]) -> Findings:
    """What the program says of a text, by its line alone."""
    return Findings((first_finding(text, refusal),) if refusal else ())


def of_world(text: str, refusal: Optional[str], asker: Asker) -> Findings:
    """All that is found in a text that the program refuses so, or accepts."""
    return of_refused(text, refusal, asker) if refusal else of_accepted(text, asker)


def first_finding(text: str, line: str) -> Finding:
    """The program's refusal, by its line alone."""
    where, _, reason = line.removeprefix("refused ").split()
    row, column = (int(number) for number in where.split(":"))
    start = place_in(text, row, column)
    word = re.compile(r"[#A-Za-z0-9_/']+|.?").match(text, start)
    end = whole(text, word.end() if word else start)
    return Finding(start, end, ERROR, reason, reasons()[reason][0])


def whole(text: str, end: int) -> int:
    """An end that is not within a character of several bytes."""
    while "\x80" <= text[end : end + 1] <= "\xbf":
        end += 1
    return end


class Moved:
    """Offsets in a text that was edited, in the text as it was."""

    def __init__(self) -> None:
        self.edits: list[Edit] = []

    def back(self, offset: int) -> int:
        """The place of an offset before all edits."""
        for start, end, put in reversed(self.edits):
            if offset >= start + len(put):
                offset += end - start - len(put)
            elif offset > start:
                offset = start
        return offset


def of_refused(text: str, line: str, asker: Asker) -> Findings:
    """All refusals of a text, with the mends that the program bears out."""
    moved, found, all_edits = Moved(), [], []
    for refusal in refusals(text, line, asker.refusal_of):
        fixes = []
        for mend in refusal.mends:
            edit = Edit(moved.back(mend.edit.start), moved.back(mend.edit.end), mend.edit.put)
            was = refusal.location.text[mend.edit.start : mend.edit.end]
            if text[edit.start : edit.end] == was:
                fixes.append(Fix(mend.title, (edit,), mend.accepted))
        if refusal.edit and fixes:
            all_edits.append(fixes[0].edits[0])
        here = refusal.location
        start, end = moved.back(here.start), whole(text, moved.back(here.end))
        message = f"{refusal.message}\n{refusal.advice}"
        found.append(Finding(start, max(start, end), ERROR, refusal.reason, message, tuple(fixes)))
        if refusal.edit:
            moved.edits.append(Edit(*refusal.edit))
    return Findings(tuple(found), fix_of_all(text, all_edits, asker))


def edited(text: str, edits: list[Edit]) -> str:
    """A text with several edits that do not overlap."""
    for start, end, put in sorted(edits, reverse=True):
        text = text[:start] + put + text[end:]
    return text


def fix_of_all(text: str, edits: list[Edit], asker: Asker) -> Optional[Fix]:
    """The edits of several refusals at once, where they are independent of one another."""
    ordered = sorted(set(edits))
    if len(ordered) < 2 or any(after.start < before.end for before, after in zip(ordered, ordered[1:])):
        return None
    line = asker.refusal_of(edited(text, ordered))
    outcome = f"the program goes on to {line.split()[1]}" if line else "the text is accepted"
    return Fix(f"Mend all {len(ordered)}: {outcome}", tuple(ordered), line is None)


def of_accepted(text: str, asker: Asker) -> Findings:
    """The hints of an accepted text, and its rules that can never apply."""
    starts = [0, *accumulate(len(row) + 1 for row in text.split("\n"))]
    shown = hints(text)[:MOST_HINTS]
    found = [of_hint(text, starts[hint.line - 1] + hint.column - 1, hint) for hint in shown]
    dead = {}
    for rule, why in dead_rules(text, asker.run("dead", asker.written(text, "asked.cep"))):
        token = rule.label or rule.source[rule.first]
        dead[rule.name] = why
        found.append(Finding(token.start, token.end, WARNING, "dead", f"`{rule.name}` can never apply: {why}"))
    return Findings(tuple(sorted(found)), None, dead)


def of_hint(text: str, start: int, hint: Hint) -> Finding:
    """A hint that stands at an offset, with what silences it."""
    end = start + hint.length
    row_end = text.find("\n", start)
    row_end = len(text) if row_end < 0 else row_end
    row_end -= text[start:row_end].endswith("\r")
    comment = " meant" if "%" in text[text.rfind("\n", 0, start) + 1 : row_end] else "  % meant"
    fixes = [Fix(f"Write that it is meant, `{comment.strip()}`", (Edit(row_end, row_end, comment),))]
    if hint.name == "single":
        fixes.insert(0, Fix("Write `_`: any will do", (Edit(start, end, "_"),)))
    faded = hint.name in FADED
    return Finding(start, end, HINT if faded else WARNING, hint.name, hint.said, tuple(fixes), faded)
