"""Goals: atoms of the last state of a run, and what they count."""

import os
import re
from collections.abc import Mapping
from typing import NamedTuple

from ceptre_tools.items import Term
from ceptre_tools.parser import read_atom
from ceptre_tools.program import REFUSED, run, written
from ceptre_tools.text import bytes_of, printable
from ceptre_tools.tokens import tokens
from ceptre_tools.world import World


BLANK = re.compile(r"(?<![^ (])_(?![^ )])")


def matches(pattern: Term, term: Term) -> bool:
    """Whether a term is what a pattern says, in which `_` stands for any."""
    if pattern.name[:1] == "_":
        return True
    if pattern.name != term.name or len(pattern.arguments) != len(term.arguments):
        return False
    return all(map(matches, pattern.arguments, term.arguments))


class Goal(NamedTuple):
    """An atom of the last state, in which `_` stands for any term: with so many copies, with any, or with
    none; and what it counts."""

    atom: str
    copies: str
    points: int

    @classmethod
    def of(cls, words: str) -> "Goal":
        """What `ATOM`, `have N ATOM` or `none ATOM`, each perhaps with `=POINTS` at its end, asks for."""
        form = r"(?:have +([1-9][0-9]*) +|(none) +)?([^=]+?)(?: *= *([0-9]+))?"
        match = re.fullmatch(form, bytes_of(words).strip())
        atom = read_atom(match[3]) if match else None
        variables = [term.name for term in atom.parts() if term.is_variable] if atom else []
        if not match or not atom or any(name[:1] != "_" for name in variables):
            raise ValueError(f"`{printable(words)}` is no atom, nor `have N ATOM` or `none ATOM`")
        blanks = dict.fromkeys(variables, "_")
        return cls(atom.bare(blanks), "0" if match[2] else match[1] or "", int(match[4]) if match[4] else 1)

    @property
    def name(self) -> str:
        if self.copies == "0":
            return f"none {self.atom}"
        return f"have {self.copies} {self.atom}" if self.copies else self.atom

    @property
    def has_blanks(self) -> bool:
        """Whether it names more than one atom."""
        return BLANK.search(self.atom) is not None

    def names(self, text: str) -> bool:
        """Whether an atom of a state is one that it names."""
        if not self.has_blanks:
            return text == self.atom
        pattern, atom = read_atom(self.atom), read_atom(text)
        return bool(pattern and atom and matches(pattern, atom))

    def is_met(self, copies: int) -> bool:
        """Whether so many copies of what it names are enough."""
        return copies == int(self.copies) if self.copies else copies > 0

    def reached(self, last: Mapping[str, str]) -> bool:
        """Whether the last state, copies by atoms, has it."""
        if not self.has_blanks:
            return self.is_met(int(last.get(self.atom, "0")))
        return self.is_met(sum(int(copies) for atom, copies in last.items() if self.names(atom)))


def fault_of(goal: Goal, world_text: str) -> str:
    """Why the world has no such atom, in the program's word, or nothing.

    The program is asked: it reads the world with a context more, which has the atom, or where that has a `_`
    with a rule more, which asks for it.
    """
    names = {token.text for token in tokens(world_text)}
    name = next(f"goal/{i}" for i in range(len(names) + 1) if f"goal/{i}" not in names)
    rule = f"stage {name} = {{ {name} : {goal.atom} -o (). }}"
    item = rule if goal.has_blanks else f"context {name} = {{ {goal.atom} }}."
    with written(f"{world_text}\n{item}\n", ".cep") as path:
        answer = run("check", path, os.devnull)
    reason = answer.line.split(" ")[-1]
    if answer.status == REFUSED and reason != "TooLong":
        return reason
    declared = World(world_text).predicates.get(goal.atom.split(" ")[0])
    return "BwdInState" if declared and declared.word == "bwd" else ""


def goals_of(all_words: list[str], world_text: str) -> list[Goal]:
    """The goals that words ask for; a ValueError names the first that the world has not."""
    goals = [Goal.of(words) for words in all_words]
    for goal in goals:
        fault = fault_of(goal, world_text)
        if fault:
            raise ValueError(f"the world has no goal `{goal.atom}`: {fault}")
    return goals
