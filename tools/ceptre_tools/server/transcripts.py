"""Transcripts: what the program says of them, what a step does, and which world they are of."""

from __future__ import annotations

import os
import re
from typing import NamedTuple, Optional

from ceptre_tools.explain.transcripts import MEANINGS
from ceptre_tools.items import Item, Rule
from ceptre_tools.transcript import Derivation, values_of, words_of
from ceptre_tools.world import World

from .asking import Asker
from .describing import decoded
from .documents import Document
from .findings import ERROR, Finding, Findings

# How many levels of a derivation are shown.
MOST_LEVELS = 8

# The beginnings of lines that name a rule, and those of atoms.
OF_A_RULE = re.compile(r"(?:step|\? [0-9]+|\? blocked [0-9]+) ")
OF_AN_ATOM = re.compile(r"have [0-9]+ ")


def world_of(path: str) -> str:
    """The path of the world of a transcript: the file of the same name."""
    return os.path.splitext(path)[0] + ".cep"


def transcripts_of(path: str) -> list[str]:
    """The paths of the transcripts beside a world: of the same name, or with a word after it."""
    folder, name = os.path.split(path)
    stem = os.path.splitext(name)[0]
    try:
        names = sorted(os.listdir(folder or "."))
    except OSError:
        return []
    return [os.path.join(folder, other) for other in names if re.fullmatch(re.escape(stem) + r"([.-].*)?\.log", other)]


def findings(world: str, log: str, asker: Asker) -> Findings:
    """What the program says of a transcript, at its line."""
    said = asker.verdict(world, log)
    words = said.split(" ")
    if words[0] != "refused" or ":" in words[1]:
        return Findings(())
    number, cause = int(words[1]), words[2]
    rows = log.split("\n")
    line = min(max(number, 1), len(rows))
    start = sum(len(row) + 1 for row in rows[: line - 1])
    meaning = MEANINGS.get(cause, cause)
    detail = " ".join(words[3:])
    message = f"{meaning} ({detail})" if detail else meaning
    return Findings((Finding(start, start + len(rows[line - 1].rstrip("\r")), ERROR, cause, decoded(message)),))


def verdict(world: str, path: str, asker: Asker) -> str:
    """What is said of a transcript beside a world: accepted, or refused and where."""
    try:
        with open(path, "rb") as file:
            log = file.read().decode("latin-1")
    except OSError as error:
        return error.strerror or "it cannot be read"
    said = asker.verdict(world, log).split(" ")
    if said[0] == "accepted":
        return f"accepted, {said[1]} steps"
    return f"refused at line {said[1]}" if said[0] == "refused" and ":" not in said[1] else "the world is refused"


class Named(NamedTuple):
    """A name in a line of a transcript, with its place in the line."""

    space: str
    name: str
    start: int
    end: int


def named_at(row: str, column: int) -> Optional[Named]:
    """The name at a column of a line."""
    for match in re.finditer(r"[a-z][A-Za-z0-9_/']*", row):
        if match.start() <= column <= match.end() and match.start() > 0:
            return Named(space_of(row, match.start()), match[0], match.start(), match.end())
    return None


def space_of(row: str, start: int) -> str:
    """The space of a name that begins at a column."""
    if row.startswith("stage "):
        return "stage"
    rule = OF_A_RULE.match(row)
    if rule and rule.end() == start:
        return "rule"
    atom = OF_AN_ATOM.match(row)
    return "predicate" if atom and atom.end() == start else "constructor"


def declared_at(log: Document, world: World, line: int, column: int) -> Optional[Item]:
    """The item of the world that declares the name at a place of a transcript."""
    named = named_at(log.lines.row(line), column) if line < len(log.lines.starts) else None
    return world.find(named.space, named.name) if named else None


def step_at(log: Document, line: int) -> tuple[str, list[str]]:
    """The offer of a step at a line, or of one that is listed there, and the derivations after it."""
    row = log.lines.row(line) if line < len(log.lines.starts) else ""
    match = OF_A_RULE.match(row)
    derivations = []
    number = line + 1
    while match and number < len(log.lines.starts) and log.lines.row(number).startswith("by "):
        derivations.append(log.lines.row(number).removeprefix("by "))
        number += 1
    return (row[match.end() :] if match else ""), derivations


def step_number(log: Document, line: int) -> int:
    """How many steps there are up to a line."""
    return sum(log.lines.row(number).startswith("step ") for number in range(line + 1))


def told_step(log: Document, world: World, line: int) -> str:
    """What a step does, as `follow` says it, or nothing."""
    offer, derivations = step_at(log, line)
    words = words_of(offer)
    rule = world.rules.get(words[0])
    if rule is None:
        return ""
    row = log.lines.row(line)
    title = f"Step {step_number(log, line)}" if row.startswith("step ") else "An offer"
    values = values_of(words[1:])
    lines = [world.text_of(rule), *deeds(rule, values)]
    for atom, text in zip(rule.asked, derivations):
        lines += derived(world, read_derivation(text), atom.bare(values), 1)
    return f"{title}: `{offer}`\n\n```ceptre\n{decoded(chr(10).join(lines))}\n```"


def deeds(rule: Rule, values: dict[str, str]) -> list[str]:
    """What a rule takes, keeps and puts with these values."""
    marked = (("-", rule.taken), ("$", rule.kept), ("+", rule.put))
    return [f"  {mark} {atom.bare(values)}" for mark, atoms in marked for atom in atoms]


def read_derivation(text: str) -> Optional[Derivation]:
    """A derivation, or None where it is malformed."""
    try:
        return Derivation.of(text)
    except (ValueError, IndexError, RecursionError):
        return None


def derived(world: World, derivation: Optional[Derivation], atom: str, depth: int) -> list[str]:
    """The clauses of a derivation, each with its goals below it."""
    if derivation is None or depth > MOST_LEVELS or not 0 < derivation.clause <= len(world.clauses):
        return []
    clause = world.text_of(world.clauses[derivation.clause - 1])
    values = " ".join(f"{name}={value}" for name, value in derivation.values.items())
    head = f"by {atom}: " if atom else ""
    lines = ["  " * depth + f"{head}{derivation.clause}. {clause}" + (f"  with {values}" if values else "")]
    for goal in derivation.goals:
        lines += derived(world, goal, "", depth + 1)
    return lines
