"""The script `follow`."""

import sys
from argparse import Namespace
from typing import NamedTuple, Optional

from ceptre_tools.follow.context import context_lines
from ceptre_tools.follow.graph import causes_asked, drawn, lines_of_causes
from ceptre_tools.program import DONE, MOST_LOG, MOST_WORLD, REFUSED, REJECTED, opened, run, verdict
from ceptre_tools.terminal import FAILED, USAGE, script
from ceptre_tools.text import shown
from ceptre_tools.transcript import Derivation, Step, Transcript, legal_prefix, listing
from ceptre_tools.world import World

SHOWN, NOT_ACCEPTED, CUT = 0, 1, 4

# Terms may be nested 512 deep, and writing one takes some calls for each.
CALLS = 10_000


def derived(world: World, derivation: Derivation, atom: str, depth: int) -> list[str]:
    """The lines of a derivation: each clause with its number and its values, its goals below it."""
    values = " ".join(f"{name}={value}" for name, value in derivation.values.items())
    text = f"{derivation.clause}. {world.text_of(world.clauses[derivation.clause - 1])}"
    head = f"by {atom}: " if atom else ""
    lines = ["  " * depth + head + text + (f"  with {values}" if values else "")]
    for goal in derivation.goals:
        lines += derived(world, goal, "", depth + 1)
    return lines


def lines_of_step(world: World, number: int, step: Step) -> list[str]:
    """The lines of a step."""
    rule, values = world.rules[step.rule], step.values
    lines = [f"step {number}: {step.offer}", f"  {world.text_of(rule)}"]
    for mark, atoms in (("-", rule.taken), ("$", rule.kept), ("+", rule.put)):
        lines += [f"  {mark} {atom.bare(values)}" for atom in atoms]
    for atom, derivation in zip(rule.asked, step.derivations):
        lines += derived(world, derivation, atom.bare(values), 1)
    return lines + ([f"  stage {step.stage}"] if step.stage else [])


def lines_of(world: World, log: Transcript) -> list[str]:
    """The lines of a whole transcript, or of one that was cut."""
    lines = [f"stage {log.stage}, height {log.height}"] + listing(world, log.start)
    for number, step in enumerate(log.steps, 1):
        lines += lines_of_step(world, number, step)
    if log.end:
        return lines + [f"end {log.end}"] + listing(world, log.last)
    return lines + [f"cut after step {len(log.steps)}"] + state_at(world, log, len(log.steps))


def state_at(world: World, log: Transcript, number: int) -> list[str]:
    """The stage and the listing after a step; 0 is the start."""
    for done, (stage, state) in enumerate(log.states(world)):
        if done == number:
            return [f"stage {stage}"] + listing(world, state)
    return []


def no_such_step(words: Namespace, steps: int) -> str:
    """What is said of a step that is asked about and not there, or nothing."""
    if words.at is not None and not 0 <= words.at <= steps:
        return f"{words.log}: it has the steps 1 to {steps}, and the start 0"
    if words.causes is not None and not 1 <= words.causes <= steps:
        return f"{words.log}: it has the steps 1 to {steps}"
    return ""


class Shown(NamedTuple):
    """The status, the lines that are shown, and what is said of them."""

    status: int
    lines: list[str]
    said: str


def part_asked(words: Namespace, world_text: str, log: Transcript, world: str, path: str) -> list[str]:
    """The lines of the part of a transcript that the words ask for."""
    if words.dot or words.causes is not None:
        offers, causes = [step.offer for step in log.steps], causes_asked(world, path, len(log.steps))
        return drawn(offers, causes) if words.dot else lines_of_causes(offers, causes, words.causes)
    read = World(world_text)
    if words.context and words.at is not None:
        return context_lines(read, log, words.at)
    return lines_of(read, log) if words.at is None else state_at(read, log, words.at)


def shown_part(words: Namespace, world_text: str, world: str, text: str, path: str) -> Shown:
    """What is shown of a transcript."""
    answer = run("check", world, path).of(DONE, REJECTED, REFUSED)
    if answer.status == REFUSED:
        return Shown(FAILED, [], f"{words.world}: {answer.line}")
    prefix: Optional[str] = text
    if answer.status == REJECTED:
        whole = words.dot or words.causes is not None
        prefix = None if whole else legal_prefix(text, answer.line, lambda part: verdict(world, part).line)
    if prefix is None:
        return Shown(NOT_ACCEPTED, [], f"{words.log}: {answer.line}")
    log = Transcript.of(prefix)
    if words.context and words.at is None:
        return Shown(USAGE, [], "--context needs --at K")
    said = no_such_step(words, len(log.steps))
    if said:
        return Shown(NOT_ACCEPTED, [], said)
    lines = part_asked(words, world_text, log, world, path)
    if answer.status == DONE:
        return Shown(SHOWN, lines, "")
    return Shown(CUT, lines, f"{words.log}: {answer.line}: it was cut, and is shown as far as it goes")


def follow(words: Namespace) -> int:
    sys.setrecursionlimit(CALLS)
    with opened(words.world, MOST_WORLD) as world, opened(words.log, MOST_LOG) as log:
        status, lines, said = shown_part(words, *world, *log)
    for line in lines:
        print(shown(line))
    if said:
        print(shown(said), file=sys.stderr)
    return status


def main() -> int:
    return script("follow", follow)
