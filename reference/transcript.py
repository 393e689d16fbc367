"""A transcript and what it says: FORMATS, The transcript and The grammar of what is read; MODEL, A transcript."""
from dataclasses import dataclass, field
from typing import Callable, List, Optional, Tuple, TypeVar

from reference.derive import Derivation
from reference.program import Program, State
from reference.steps import Offer
from reference.terms import MOST_COPIES
from reference.texts import Misread, Reader, Texts, number_of

MOST_LOG = 67_108_864
Value = TypeVar("Value")
END_WORDS = ("quiet", "input", "turns", "offers", "typed", "atom", "state")


class Unread(Exception):
    """FORMATS, What is reported of a transcript: the line, and `Line`, `NoRule` or `TooLong`."""

    def __init__(self, line: int, word: str) -> None:
        super().__init__(line, word)
        self.text = f"refused {line} {word}"


@dataclass
class Listing:
    """A listing: the number of the line before it, and the atoms with their copies."""
    line: int
    state: State = field(default_factory=dict)


@dataclass
class Step:
    """A step: its line, its offer, the derivations, the stage that is named below it, and the listing after it."""
    line: int
    offer: Offer
    proofs: List[Derivation]
    stage: Optional[int] = None
    middle: Optional[Listing] = None


@dataclass
class Log:
    """What a transcript says."""
    version: int
    height: int
    stage: int
    start: Listing
    steps: List[Step]
    word: str = ""
    end: Optional[Listing] = None
    after: int = 0


def lines_of(text: str) -> List[Tuple[int, str]]:
    """FORMATS, The grammar of what is read: the lines by their numbers. A last line without a line feed keeps its
    carriage return."""
    lines = text.split("\n")
    ended = [line[:-1] if line.endswith("\r") else line for line in lines[:-1]] + lines[-1:]
    return list(enumerate(ended if lines[-1] else ended[:-1], 1))


class LogReader:
    """Reads a transcript of a program, line by line."""

    def __init__(self, program: Program, text: str) -> None:
        self.program = program
        if len(text) > MOST_LOG:
            raise Unread(0, "TooLong")
        self.lines = [(number, line) for number, line in lines_of(text) if not line.startswith("?")]
        self.after = text.count("\n") + (not text.endswith("\n") and text != "") + 1
        self.next = 0

    def peek(self) -> str:
        """The next line, or nothing."""
        return self.lines[self.next][1] if self.next < len(self.lines) else ""

    def line(self) -> int:
        """The number of the next line, or of the one after the last."""
        return self.lines[self.next][0] if self.next < len(self.lines) else self.after

    def take(self, word: str) -> str:
        """What stands after this word in the next line, which begins with it; else the line does not fit."""
        if not self.peek().startswith(word + " "):
            raise Unread(self.line(), "Line")
        self.next += 1
        return self.lines[self.next - 1][1][len(word) + 1:]

    def number(self, word: str, least: int, most: int) -> int:
        """A line of a word and a number within bounds."""
        line = self.line()
        number = number_of(self.take(word), least, most)
        if number is None:
            raise Unread(line, "Line")
        return number

    def stage(self) -> int:
        """A line of `stage` and one of the program's."""
        line, name = self.line(), self.take("stage")
        if name not in self.program.stages:
            raise Unread(line, "Line")
        return self.program.stages.index(name)

    def listing(self, line: int) -> Listing:
        """The lines of a listing, whose atoms strictly increase."""
        found = Listing(line)
        while self.peek().startswith("have "):
            at = self.line()
            number, _, atom = self.take("have").partition(" ")
            copies = number_of(number, 1, MOST_COPIES)
            value = self.read(at, atom, Reader.atom)
            if copies is None or any(value <= other for other in list(found.state)[-1:]):
                raise Unread(at, "Line")
            found.state[value] = copies
        return found

    def read(self, line: int, text: str, form: Callable[[Reader], Value]) -> Value:
        """The atom, the offer or the derivation that a text spells."""
        reader = Reader(self.program, text)
        try:
            value = form(reader)
            reader.ends()
        except Misread:
            raise Unread(line, "Line") from None
        return value

    def log(self) -> Log:
        """The header, the start, the steps and the end, if there is one."""
        version = self.number("ceptre", 1, 2)
        height = self.number("height", 1, 512)
        line, stage = self.line(), self.stage()
        log = Log(version, height, stage, self.listing(line), [], after=self.after)
        while self.peek().startswith("step "):
            self.step(log)
        if self.next < len(self.lines):
            line, log.word = self.line(), self.take("end")
            if log.word not in END_WORDS:
                raise Unread(line, "Line")
            log.end = self.listing(line)
        if self.next < len(self.lines):
            raise Unread(self.line(), "Line")
        return log

    def step(self, log: Log) -> None:
        """A step, with as many derivations as its rule has backward premises, a stage if and only if its rule leaves
        one, and in version 2 a listing after each hundredth."""
        line, text = self.line(), self.take("step")
        if text.split(" ")[0] not in [rule.name for rule in self.program.rules]:
            raise Unread(line, "NoRule")
        offer = self.read(line, text, Reader.offer)
        rule = self.program.rules[offer.rule]
        step = Step(line, offer, [])
        for _ in rule.backward:
            line, text = self.line(), self.take("by")
            step.proofs.append(self.read(line, text, Reader.proof))
        if rule.leads is not None:
            step.stage = self.stage()
        log.steps.append(step)
        if log.version == 2 and len(log.steps) % 100 == 0:
            line = self.line()
            self.number("state", len(log.steps), len(log.steps))
            step.middle = self.listing(line)


def log_text(program: Program, log: Log, steps: List[Step], states: List[State]) -> str:
    """FORMATS, What is reported of a transcript: a legal one in version 2, without the conversation, with these steps
    and the states after them."""
    texts = Texts(program)
    lines = texts.header(log.height, log.stage, log.start.state)
    for number, (step, state) in enumerate(zip(steps, states), 1):
        lines += texts.step(step.offer, step.proofs, step.stage, state, number)
    lines += [f"end {log.word}"] + texts.listing(log.end.state if log.end else {})
    return "".join([line + "\n" for line in lines])
