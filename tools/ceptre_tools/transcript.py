"""Transcripts of either version: their record, what each step takes and puts, and the states between
the steps. One that is malformed or was cut is read as far as it goes."""

import re
from collections import Counter
from collections.abc import Callable, Iterator, Mapping
from typing import NamedTuple, Optional

from ceptre_tools.parser import read_atom
from ceptre_tools.world import World

Values = dict[str, str]

# The lines that say what was done.
DEED = re.compile(r"^(?:step|stage|end) .*", re.MULTILINE)


def words_of(text: str) -> list[str]:
    """The words of a line, where a space within parentheses or brackets parts nothing."""
    if "(" not in text and "[" not in text:
        return text.split(" ")
    words, depth, word = [], 0, ""
    for letter in text:
        depth += (letter in "([") - (letter in ")]")
        if letter == " " and depth == 0:
            words.append(word)
            word = ""
        else:
            word += letter
    return words + [word]


def values_of(words: list[str]) -> Values:
    """The values of variables, from words such as `A=hall`."""
    return {name: value for name, _, value in (word.partition("=") for word in words)}


class Derivation(NamedTuple):
    """A clause by its number, counted from 1, with its values, and a derivation of each goal."""

    clause: int
    values: Values
    goals: list["Derivation"]

    @classmethod
    def of(cls, text: str) -> "Derivation":
        words = words_of(text[1:-1])
        goals = [cls.of(word) for word in words[1:] if word.startswith("[")]
        return cls(int(words[0]), values_of([w for w in words[1:] if not w.startswith("[")]), goals)


class Step:
    """A step: its offer, a derivation for each backward premise, the stage that it leads to, and the
    state after it where that is listed."""

    def __init__(self, offer: str) -> None:
        self.offer = offer
        self.derivations: list[Derivation] = []
        self.stage = ""
        self.after: Counter[str] = Counter()

    @property
    def rule(self) -> str:
        return self.offer.split(" ", 1)[0]

    @property
    def values(self) -> Values:
        return values_of(words_of(self.offer)[1:])


class Transcript:
    """The record of a run."""

    def __init__(self) -> None:
        self.height = self.stage = self.end = ""
        self.start: Counter[str] = Counter()
        self.steps: list[Step] = []
        self.last: Counter[str] = Counter()

    @classmethod
    def of(cls, text: str) -> "Transcript":
        """What the lines of a transcript say."""
        found = cls()
        for line in record(text):
            word, _, rest = line.partition(" ")
            found.take(word, rest)
        return found

    def take(self, word: str, rest: str) -> None:
        """Takes in a line of the record: its first word, and what stands after it."""
        if word == "height":
            self.height = rest
        elif word == "stage" and self.steps:
            self.steps[-1].stage = rest
        elif word == "stage":
            self.stage = rest
        elif word == "have":
            count, _, atom = rest.partition(" ")
            self.open_listing()[atom] = int(count) if count.isdigit() else 0
        elif word == "step":
            self.steps.append(Step(rest))
        elif word == "by" and self.steps:
            self.steps[-1].derivations.append(Derivation.of(rest))
        elif word == "end":
            self.end = rest

    def open_listing(self) -> "Counter[str]":
        """The listing that a `have` line goes on with."""
        if self.end:
            return self.last
        return self.steps[-1].after if self.steps else self.start

    def states(self, world: World) -> Iterator[tuple[str, "Counter[str]"]]:
        """The stage and the state before the first step, and after each."""
        stage, state = self.stage, Counter(self.start)
        yield stage, Counter(state)
        for step in self.steps:
            rule, values = world.rules[step.rule], step.values
            state.subtract(atom.bare(values) for atom in rule.taken)
            state.update(atom.bare(values) for atom in rule.put)
            state = held(world, state)
            stage = step.stage or stage
            yield stage, Counter(state)


def record(text: str) -> list[str]:
    """The lines of a transcript without the conversation."""
    lines = text.replace("\r\n", "\n").split("\n")
    return [line.removesuffix("\r") for line in lines if not line.startswith("?")]


def deeds(text: str) -> list[str]:
    """What was done: the lines of the steps, of the stages and of the end."""
    return DEED.findall(text.replace("\r\n", "\n"))


def steps_of(text: str) -> list[str]:
    """The offers that were done."""
    return [line.removeprefix("step ") for line in deeds(text) if line.startswith("step ")]


def last_listing(text: str) -> dict[str, str]:
    """The atoms of the state after the end, each with its copies as they are written."""
    listed = (line.split(" ", 2) for line in record(text[text.find("\nend ") :]) if line.startswith("have "))
    return {atom: copies for _, copies, atom in listed}


def held(world: World, state: Mapping[str, int]) -> "Counter[str]":
    """The atoms of a state with their copies, each fact once."""
    facts = {name for name, declared in world.predicates.items() if declared.word == "fact"}
    copies = {text: count for text, count in state.items() if count > 0}
    return Counter({text: 1 if text.split(" ")[0] in facts else count for text, count in copies.items()})


def listing(world: World, state: Mapping[str, int]) -> list[str]:
    """The `have` lines of a state, in the order of the program."""
    numbers = {name: number for number, name in enumerate((*world.predicates, *world.constructors))}

    def place(text: str) -> list[int]:
        atom = read_atom(text)
        return [numbers[term.name] for term in atom.parts()] if atom else []

    return [f"have {state[atom]} {atom}" for atom in sorted(state, key=place)]


def prefixes(text: str) -> Iterator[str]:
    """What a text that was cut may have whole: all of its lines, those before its end, or those
    before its last step."""
    whole = text[: text.rfind("\n") + 1]
    yield whole
    for word in ("end ", "step "):
        at = whole.rfind("\n" + word)
        if at >= 0:
            yield whole[: at + 1]


def may_be_cut(text: str, verdict: str) -> bool:
    """Whether what is wrong with a transcript may be that it stops too early."""
    _, number, cause = verdict.split(" ")[:3]
    within_a_listing = cause in ("MidState", "EndState") and " said 0 is " in verdict
    stops = cause == "Line" and int(number) > text.count("\n")
    return not text.endswith("\n") or stops or within_a_listing


def legal_prefix(text: str, verdict: str, judge: Callable[[str], str]) -> Optional[str]:
    """What is whole and legal of a transcript that was cut, by what the program says of a text; or
    nothing where it is refused for something else."""
    if verdict.endswith(" NotEnded"):
        return text
    if may_be_cut(text, verdict):
        return next((part for part in prefixes(text) if judge(part).endswith(" NotEnded")), None)
    return None
