"""Why a rule is or is not offered in a state, as the program says it of small worlds.

Each world has the types, predicates and clauses of the real one, the state as its start, and one
rule with the first premises of the rule that is asked about: its offers are the ways to meet these.
"""

from __future__ import annotations

import re
import sys
from argparse import Namespace
from collections.abc import Mapping, Sequence

from ceptre_tools.explain.conflicts import without
from ceptre_tools.items import Element, Rule
from ceptre_tools.program import DONE, MOST_LOG, MOST_WORLD, REFUSED, REJECTED, CannotRun, opened, run, written
from ceptre_tools.terminal import USAGE, complain, script
from ceptre_tools.text import bytes_of, printable, shown
from ceptre_tools.transcript import Transcript, Values, values_of, words_of
from ceptre_tools.world import World

OFFERED, NOT_OFFERED = 0, 1

# How many ways are shown.
MOST = 3

# Terms may be nested 512 deep, and writing one takes some calls for each.
CALLS = 10_000


class Unasked(Exception):
    """What was asked has no answer: there is no such step, rule or variable."""


def argument(value: str) -> str:
    """A value as an argument."""
    return f"({value})" if " " in value and value[0] != "(" else value


def more(ways: Sequence[object]) -> list[str]:
    return [f"  .. and {len(ways) - MOST} more ways"] if len(ways) > MOST else []


class Question:
    """A world, a stage and a state of it, the height of derivations, and values that are given."""

    def __init__(self, text: str, stage: str, state: Mapping[str, int], height: str, values: Values) -> None:
        self.text, self.stage, self.state, self.height = text, stage, state, height
        self.world = World(text)
        self.values = {name: argument(value) for name, value in values.items()}

    def start(self, stage: str) -> str:
        """A `#trace` with the state as the start."""
        atoms = [atom for atom, copies in self.state.items() for _ in range(copies)]
        return "#trace 1 %s { %s }.\n" % (stage, ",\n".join(atoms))

    def offers(self, text: str) -> list[str]:
        """What the program offers in the first turn of a world."""
        with written(text, ".cep") as path:
            answer = run("play", path, f"height={self.height}", "turns=1")
        if answer.line.startswith("refused ") and self.values:
            raise Unasked(f"with these values the rule is refused: {answer.line}")
        if not answer.line.startswith("ceptre "):
            raise CannotRun(answer.line)
        ends = (i for i, line in enumerate(answer.lines) if line.startswith(("step ", "end ", "? choose")))
        turn = answer.lines[: next(ends, None)]
        return [line.split(" ", 2)[2] for line in turn if line.startswith("? ")]

    def turn(self) -> list[str]:
        """The offers of the turn that is asked about."""
        traces = [item for item in self.world.items if item.kind == "trace"]
        return self.offers(f"{without(self.text, traces)}\n{self.start(self.stage)}")

    def ways(self, premises: Sequence[Element]) -> list[Values]:
        """The values by which the state meets these premises."""
        kinds = ("stage", "rule", "interactive", "trace")
        text = without(self.text, [item for item in self.world.items if item.kind in kinds])
        atoms = (re.sub(r"\b_\d+", "_", premise.term.bare(self.values)) for premise in premises)
        asked = [self.world.predicates[premise.term.name].word == "bwd" for premise in premises]
        left = " * ".join(atom if backward else "$" + atom for atom, backward in zip(atoms, asked))
        rule = f"\nstage why = {{ why : {left} -o (). }}\n#interactive why.\n"
        return [values_of(words_of(offer)[1:]) for offer in self.offers(text + rule + self.start("why"))]

    def premises(self, rule: Rule) -> list[Element]:
        """The premises of a rule in the order in which they are asked: those of clauses last."""
        return sorted(rule.premises, key=lambda premise: rule.role(premise) == "asked")

    def answer(self, name: str) -> tuple[bool, list[str]]:
        """Whether the rule is offered, and the lines that say why."""
        rule = self.world.rules.get(name)
        if rule is None:
            raise Unasked(f"the world has no rule `{name}`")
        self.check_values(rule)
        text, turn = f"  {self.world.text_of(rule)}", self.turn()
        offers = [offer for offer in turn if self.is_asked(name, offer)]
        if offers:
            lines = [f"{name} is offered in the stage {self.stage}:", text]
            return True, lines + [f"  {offer}" for offer in offers[:MOST]] + more(offers)
        lines = [f"{name} is not offered in the stage {self.stage}:", text]
        return False, lines + self.other_stage(rule, turn) + self.unmet(rule)

    def check_values(self, rule: Rule) -> None:
        known = {term.name for premise in rule.premises for term in premise.term.parts()}
        for variable in self.values:
            if variable not in known:
                raise Unasked(f"the left side of the rule has no variable {variable}")

    def is_asked(self, name: str, offer: str) -> bool:
        """Whether an offer is one of the rule with the values that are given."""
        words = words_of(offer)
        values = values_of(words[1:])
        return words[0] == name and all(values[v] == wanted for v, wanted in self.values.items())

    def other_stage(self, rule: Rule, turn: list[str]) -> list[str]:
        """Lines for a rule of another stage, or one that waits until nothing else applies."""
        stage = rule.stage or rule.from_stage
        if stage != self.stage:
            return [f"  it belongs to the stage {stage}"]
        first = turn[0] if turn else ""
        if not rule.stage and first and self.world.rules[words_of(first)[0]].stage == self.stage:
            return [f"  it waits until no rule of the stage applies, and one does: {first}"]
        return []

    def unmet(self, rule: Rule) -> list[str]:
        """Lines that say how far the premises of a rule are met, and which one is not."""
        premises = self.premises(rule)
        ways: list[Values] = [{}]
        # The blanks of the small world's rule are counted in its own order.
        blanks = (term.name for premise in premises for term in premise.term.parts() if term.name[0] == "_")
        names = {f"_{number}": name for number, name in enumerate(blanks, 1)}
        for number, premise in enumerate(premises):
            found = self.ways(premises[: number + 1])
            if not found:
                return self.first_unmet(premises[:number], premise, ways)
            ways = [{**self.values, **{names.get(n, n): value for n, value in way.items()}} for way in found]
        lines = [self.met(premises, way) for way in ways[:MOST]]
        return ["  all premises are met:", *lines, *more(ways)]

    def first_unmet(self, met: Sequence[Element], premise: Element, ways: list[Values]) -> list[str]:
        """Lines that show the ways to meet the premises before one, and what is wanted then."""
        lines = []
        for way in ways[:MOST]:
            wanted = re.sub(r"\b_\d+", "_", premise.term.bare({**self.values, **way}))
            there = f"  there:  {self.there(premise, wanted)}"
            lines += [self.met(met, way), f"  wanted: {wanted}", there]
        return lines + more(ways)

    def met(self, premises: Sequence[Element], way: Values) -> str:
        """The line that says by which atoms premises are met."""
        atoms = [premise.term.bare(way) for premise in premises]
        return f"  met:    {', '.join(atoms) or 'nothing before it'}"

    def there(self, premise: Element, wanted: str) -> str:
        """What there is in place of a premise."""
        name = premise.term.name
        if self.world.predicates[name].word == "bwd":
            return f"no derivation of it within the height {self.height}"
        found = [atom for atom in self.state if atom.split(" ")[0] == name]
        if wanted in found:
            return f"{self.state[wanted]} {wanted}, which another premise needs"
        return ", ".join(found[:10]) + (", .." if found[10:] else "") or f"no {name} at all"


def accepted(words: Namespace, world: str, log: str) -> None:
    """Sees to it that the program accepts the transcript."""
    answer = run("check", world, log).of(DONE, REJECTED, REFUSED)
    if answer.status != DONE:
        raise CannotRun(f"{words.world if answer.status == REFUSED else words.log}: {shown(answer.line)}")


def values_given(words: list[str]) -> Values:
    """The values that are given, by their variables."""
    given = {}
    for word in words:
        match = re.fullmatch(r"([A-Z][\w/']*)=(.+)", word)
        if not match:
            raise Unasked(f"{word}: a value is given as X=ann or N='(s z)'")
        given[match[1]] = bytes_of(match[2].strip())
    return given


def answer(words: Namespace) -> tuple[bool, list[str]]:
    """Whether the rule is offered, and the lines that say why."""
    with opened(words.world, MOST_WORLD) as (text, world), opened(words.log, MOST_LOG) as (log_text, path):
        accepted(words, world, path)
        log = Transcript.of(log_text)
        states = list(log.states(World(text)))
        if not 0 <= words.k < len(states):
            raise Unasked(f"{words.log}: it has the steps 1 to {len(states) - 1}, and the start 0")
        stage, state = states[words.k]
        return Question(text, stage, state, log.height, values_given(words.values)).answer(words.rule)


def why(words: Namespace) -> int:
    sys.setrecursionlimit(CALLS)
    words.values = getattr(words, "x=value")
    try:
        offered, lines = answer(words)
    except Unasked as error:
        return complain("why", printable(str(error)), USAGE)
    for line in lines:
        print(shown(line))
    return OFFERED if offered else NOT_OFFERED


def main() -> int:
    return script("why", why)
