"""Which steps of a transcript come after which, as the program's command `cause` says it, in lines and drawn."""

import re
from collections.abc import Iterator
from typing import NamedTuple

from ceptre_tools.program import DONE, USAGE, CannotRun, run
from ceptre_tools.transcript import words_of

LINE = re.compile(r"step ([1-9][0-9]*)( all)?(?: after((?: [1-9][0-9]*)+))?")

# How much of a value is drawn.
WIDTH = 40


class Causes(NamedTuple):
    """The earlier steps that a step rests on, by their numbers, and whether it leaves a stage: then it
    comes after all earlier steps, and before all later ones."""

    after: tuple[int, ...]
    leaves: bool


def causes_of(lines: list[str]) -> list[Causes]:
    """The causes of each step, from the lines of `cause`."""
    found = []
    for number, line in enumerate(lines, 1):
        match = LINE.fullmatch(line)
        after = tuple(int(word) for word in (match[3] or "").split()) if match else ()
        if not match or int(match[1]) != number or any(earlier >= number for earlier in after):
            raise CannotRun(f"line {number} of what `cause` writes says no causes of step {number}: {line}")
        found.append(Causes(after, bool(match[2])))
    return found


def causes_asked(world: str, log: str, steps: int) -> list[Causes]:
    """The causes of each of so many steps of a legal transcript, as the program says them."""
    answer = run("cause", world, log)
    if answer.status == USAGE:
        raise CannotRun("this program has no command `cause`")
    causes = causes_of(answer.of(DONE).lines if steps else [])
    if len(causes) != steps:
        raise CannotRun(f"`cause` tells {len(causes)} of {steps} steps")
    return causes


def stages_left(causes: list[Causes]) -> list[int]:
    """For each step the last one before it that leaves a stage, or 0."""
    found: list[int] = []
    last = 0
    for number, step in enumerate(causes, 1):
        found.append(last)
        last = number if step.leaves else last
    return found


def lines_of_causes(offers: list[str], causes: list[Causes], number: int) -> list[str]:
    """The lines that say what a step rests on, and what these steps rest on in turn, up to the start."""
    left, wanted, lines = stages_left(causes), {number}, []
    for at in range(number, 0, -1):
        if at in wanted:
            step = causes[at - 1]
            lines += [f"step {at}: {offers[at - 1]}", *lines_of_step(offers, step, left[at - 1])]
            wanted.update(step.after)
    return lines


def lines_of_step(offers: list[str], step: Causes, left: int) -> list[str]:
    """What one of these steps rests on, and which step before it, if any, left a stage."""
    lines = [f"  rests on step {earlier}: {offers[earlier - 1]}" for earlier in step.after]
    lines += [] if step.after else ["  rests on the start alone"]
    if step.leaves:
        return lines + ["  leaves a stage, so it comes after all steps before it"]
    if left and not any(earlier >= left for earlier in step.after):
        return lines + [f"  comes after step {left}, which leaves a stage"]
    return lines


def edges(causes: list[Causes]) -> Iterator[tuple[int, int, bool]]:
    """The edges of the picture: an earlier step, a later one, and whether that rests on it. Of the edges
    from and to a step that leaves a stage those that follow from others are left out."""
    for number, (step, left) in enumerate(zip(causes, stages_left(causes)), 1):
        yield from ((earlier, number, True) for earlier in step.after)
        between = range(left + 1, number) if step.leaves else range(0)
        before = {earlier for at in between for earlier in causes[at - 1].after} | set(step.after)
        yield from ((at, number, False) for at in between if at not in before)
        if left and not between and not any(earlier >= left for earlier in step.after):
            yield left, number, False


def label(number: int, offer: str) -> str:
    """The text of a step in the picture: its number and its rule, and a line for each value."""
    lines = [word if len(word) <= WIDTH else word[: WIDTH - 2] + ".." for word in words_of(offer)]
    return "\\n".join([f"{number} {lines[0]}", *lines[1:]])


def drawn(offers: list[str], causes: list[Causes]) -> list[str]:
    """The lines of a picture in the language of Graphviz: a box for each step, bold where it leaves a
    stage, an arrow to each step that rests on it, and a dashed one where a stage alone keeps the order."""
    lines = ["digraph steps {", "  node [shape=box];"]
    for number, (offer, step) in enumerate(zip(offers, causes), 1):
        style = ", style=bold" if step.leaves else ""
        lines.append(f'  {number} [label="{label(number, offer)}"{style}];')
    for earlier, later, rests in edges(causes):
        lines.append(f"  {earlier} -> {later}{'' if rests else ' [style=dashed]'};")
    return lines + ["}"]
