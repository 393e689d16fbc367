"""Hints for a world that the program accepts: what may not be as its writer meant it."""

import re
from collections import Counter
from collections.abc import Iterator
from typing import NamedTuple

from ceptre_tools.explain.doubts import doubts
from ceptre_tools.items import Item, Rule
from ceptre_tools.play.prose import Prose
from ceptre_tools.text import shown
from ceptre_tools.tokens import Token
from ceptre_tools.world import World

# A comment with this word, in the line of a hint or in the line before, silences it.
MEANT = re.compile(r"%.*\bmeant\b")

# Where an atom is needed, and where one is made: by rules, or by a clause or the start too.
NEEDED, MADE, PUT = {"taken", "kept", "asked", "goal"}, {"made", "head", "start"}, {"made"}


class Hint(NamedTuple):
    """A hint: its place, its name, what it says, and how long the word is of which it speaks."""

    line: int
    column: int
    name: str
    said: str
    length: int

    @classmethod
    def at(cls, token: Token, name: str, said: str) -> "Hint":
        """A hint on a token."""
        return cls(token.line, token.column, name, said, len(token.text))


def roles(world: World, name: str) -> set[str]:
    """What a predicate is used for."""
    return {use.role for use in world.by_name.get(("predicate", name), [])}


def single_variables(item: Item) -> Iterator[Hint]:
    """Variables that stand once in a rule or a clause."""
    variables = [token for token in item.tokens if token.kind == "variable"]
    counts = Counter(token.text for token in variables)
    for token in variables:
        if counts[token.text] == 1:
            yield Hint.at(token, "single", f"`{token.text}` stands once: write `_` if any will do")


def kept_and_taken(rule: Rule) -> Iterator[Hint]:
    """A predicate of which a rule keeps one atom and takes another without putting it back."""
    kept = {premise.term.name for premise in rule.premises if premise.kept} - {term.name for term in rule.put}
    for term in rule.taken:
        if term.name in kept:
            said = f"this `{term.name}` is taken, where the other is kept with `$`"
            yield Hint.at(term.token, "kept-and-taken", said)


def unused_predicates(world: World) -> Iterator[Hint]:
    """Predicates that nothing makes or nothing needs."""
    for name, declared in world.predicates.items():
        used, backward = roles(world, name), declared.word == "bwd"
        needed, made = used & NEEDED, used & MADE
        if not needed and not made:
            yield Hint.at(declared.token, "unused", f"`{name}` is never used")
        elif not made:
            said = "asked, and no clause says it" if backward else "needed, and nothing makes it"
            yield Hint.at(declared.token, "never-made", f"`{name}` is {said}")
        elif not needed and (backward or not used & PUT):
            said = "said by clauses and never asked" if backward else "there from the start, and nothing needs it"
            yield Hint.at(declared.token, "never-needed", f"`{name}` is {said}")


def unused_things(world: World) -> Iterator[Hint]:
    """Types, constructors and contexts that stand nowhere else."""
    for declared in world.declarations:
        if declared.kind in ("type", "constructor", "context"):
            uses = world.by_name.get((declared.kind, declared.name), [])
            what = "the context " if declared.kind == "context" else ""
            if all(use.role == "declared" for use in uses):
                yield Hint.at(declared.token, "unused", f"{what}`{declared.name}` is never used")


def unreached_stages(world: World) -> Iterator[Hint]:
    """Stages to which no rule leads from where the world begins."""
    reached = [world.trace.stage.text] if world.trace and world.trace.stage else []
    for stage in reached:
        ways = [rule.next_stage for rule in world.rules.values() if rule.from_stage == stage]
        reached += [other for other in dict.fromkeys(ways) if other and other not in reached]
    for name, item in world.stages.items():
        if name not in reached and item.label:
            yield Hint.at(item.label, "unreached-stage", f"no rule leads to the stage `{name}`")


def faulty_templates(world: World) -> Iterator[Hint]:
    """Templates of prose that do not fit the world."""
    for fault in Prose.of(world.text, world).faults:
        yield Hint(fault.line, fault.column, "template", shown(fault.said), fault.length)


def goals(text: str) -> list[str]:
    """The predicates that rules make and nothing needs: such atoms show how a run ended, or a rule was
    forgotten."""
    world = World(text)
    return [name for name in world.predicates if roles(world, name) & PUT and not roles(world, name) & NEEDED]


def hints(text: str) -> list[Hint]:
    """The hints for a text that is accepted, in the order of their places."""
    world = World(text)
    found = [*unused_predicates(world), *unused_things(world), *unreached_stages(world), *faulty_templates(world)]
    found += [Hint.at(doubt.token, doubt.name, doubt.said) for doubt in doubts(world)]
    for item in world.parts():
        if item.kind in ("rule", "clause"):
            found += single_variables(item)
        if isinstance(item, Rule):
            found += kept_and_taken(item)
    lines = text.split("\n")

    def is_meant(hint: Hint) -> bool:
        return any(MEANT.search(line) for line in lines[max(0, hint.line - 2) : hint.line])

    return sorted(hint for hint in found if not is_meant(hint))
