"""A transcript as the page shows it: its steps, what each changes, and on which earlier ones it rests."""

from __future__ import annotations

import re
from collections import Counter
from typing import Any, NamedTuple, Optional

from ceptre_tools.follow.graph import causes_asked
from ceptre_tools.play.replay import Differs, again
from ceptre_tools.program import DONE, REFUSED, REJECTED, CannotRun, run, written
from ceptre_tools.publish.page import Run
from ceptre_tools.transcript import Transcript, listing
from ceptre_tools.world import World


class Again(NamedTuple):
    """What is typed to do steps again, how many of them can be done so, and why no more."""

    typed: list[int]
    steps: int
    why: str


def verdict(world: str, log: str) -> Optional[str]:
    """Why a transcript is refused, or None where it is accepted."""
    answer = run("check", world, log).of(DONE, REJECTED, REFUSED)
    return None if answer.status == DONE else answer.line


def up_to(text: str, steps: int) -> str:
    """A transcript that stops before the step after so many."""
    places = [match.start() for match in re.finditer(r"^step ", text, re.MULTILINE)]
    return text[: places[steps]] if steps < len(places) else text


def done_again(words: list[str], text: str, steps: int) -> Again:
    """How so many steps of a legal transcript are done again by the program, or the first of them."""
    why = ""
    while steps >= 0:
        try:
            with written(up_to(text, steps), ".log") as log:
                return Again(again(words, log, may_be_cut=True).typed, steps, why)
        except Differs as error:
            found = re.search(r": step ([0-9]+): (.*)", str(error))
            why = f"Nobody can go on from step {found[1]} or a later one: {found[2]}." if found else str(error)
            steps = min(steps, int(found[1])) - 1 if found else -1
        except CannotRun as error:
            return Again([], -1, f"Nobody can go on from here: {error}.")
    return Again([], -1, why)


def changes_of(log: Transcript, world: World) -> list[dict[str, int]]:
    """The state before the first step, and what each step changes: atoms, and how many copies more there are."""
    found, before = [], Counter[str]()
    for _, state in log.states(world):
        atoms = {**state, **before}
        found.append({atom: state[atom] - before[atom] for atom in atoms if state[atom] != before[atom]})
        before = state
    return found


def walk_of(text: str, world: str, log_text: str, log: str, run_of: Run) -> tuple[dict[str, Any], Run]:
    """The data of a legal transcript's page, and the options by which it is gone on with."""
    read, known = Transcript.of(log_text), World(text)
    run_of = run_of._replace(height=int(read.height))
    done = done_again([world, f"seed={run_of.seed}", *run_of.options], log_text.replace("\r\n", "\n"), len(read.steps))
    changes = changes_of(read, known)
    every = {atom: 1 for changed in changes for atom in changed}
    atoms = [line.split(" ", 2)[2] for line in listing(known, every)]
    number = {atom: n for n, atom in enumerate(atoms)}
    start, *later = [sorted([number[atom], more] for atom, more in changed.items()) for changed in changes]
    steps = [
        {"offer": step.offer, "stage": step.stage, "changes": changed, "after": cause.after, "leaves": cause.leaves}
        for step, changed, cause in zip(read.steps, later, causes_asked(world, log, len(read.steps)))
    ]
    data = {"atoms": atoms, "start": start, "steps": steps, "end": read.end}
    return {**data, "typed": done.typed, "again": done.steps, "why": done.why}, run_of
