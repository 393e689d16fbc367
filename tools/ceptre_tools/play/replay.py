"""The steps of a transcript, done again by a run of the program: what a player would type for them."""

import sys
from argparse import Namespace

from ceptre_tools.play.run import Run
from ceptre_tools.program import (
    DONE,
    MOST_LOG,
    MOST_WORLD,
    REJECTED,
    CannotRun,
    opened,
    options,
    refusal,
    run,
    verdict,
)
from ceptre_tools.terminal import complain, script
from ceptre_tools.text import printable, shown
from ceptre_tools.transcript import legal_prefix, record, steps_of

WRITTEN, DIFFERS = 0, 1


class Differs(CannotRun):
    """The transcript is refused, or the run does not do its steps: the file, the step and why."""

    def __init__(self, name: str, step: int, why: str) -> None:
        super().__init__(f"{printable(name)}: step {step}: {shown(why)}")


class Replay(Run):
    """A run that is given, wherever it asks, the number of the offer that the transcript's next step
    has done. What it does by itself has to be the transcript's next step."""

    def __init__(self, words: list[str], name: str, steps: list[str]) -> None:
        super().__init__(words)
        self.name, self.steps = name, steps
        self.heard = self.done = 0
        # The first step that the run does by itself after those of the transcript.
        self.further = ""

    def do(self) -> None:
        """Does the steps again."""
        self.play()
        if self.lines[:1] != ["ceptre 2"]:
            raise self.stopped()
        self.compare()
        while self.done < len(self.steps):
            self.choose(self.number())
            self.compare()

    def number(self) -> int:
        """The number by which the next step's offer is chosen."""
        step = self.steps[self.done]
        if not self.offers and not self.end:
            raise self.stopped()
        if not self.offers:
            raise self.differs(f"the transcript has {step}, and the run ends there by {self.end}")
        if step not in self.offers:
            raise self.differs(f"the transcript has {step}, and the run does not offer it")
        return self.offers.index(step) + 1

    def compare(self) -> None:
        """Compares what the run did since it was last asked of."""
        did = [line.removeprefix("step ") for line in self.lines[self.heard :] if line.startswith("step ")]
        self.heard = len(self.lines)
        for step in did:
            if self.done == len(self.steps):
                self.further = step
                return
            if step != self.steps[self.done]:
                has = self.steps[self.done]
                raise self.differs(f"the transcript has {has}, and by this seed the run does {step}")
            self.done += 1

    def differs(self, why: str) -> Differs:
        """That the next step cannot be done again, and why."""
        return Differs(self.name, self.done + 1, why)


def step_at(text: str, line: int) -> int:
    """The number of the step that a line of a transcript belongs to, which is 0 before the first."""
    return sum(part.startswith("step ") for part in text.split("\n")[:line])


def again(words: list[str], name: str, may_be_cut: bool = False) -> Replay:
    """The run that does the steps of a transcript again, of these words (the world and options) and of
    the transcript's height where they name none; perhaps of one that was cut, as far as it goes. A Differs
    says where the transcript is refused, or where the run does something else."""
    with opened(name, MOST_LOG) as (text, path):
        answer = run("check", words[0], path).of(DONE, REJECTED)
    if answer.status != DONE:
        cut = legal_prefix(text, answer.line, lambda part: verdict(words[0], part).line) if may_be_cut else None
        if cut is None:
            raise Differs(name, step_at(text, int(answer.line.split()[1])), answer.line)
        text = cut
    height = next(line for line in record(text) if line.startswith("height ")).replace(" ", "=")
    if not any(word.startswith("height=") for word in words[1:]):
        words = [words[0], height, *words[1:]]
    replay = Replay(words, name, steps_of(text))
    try:
        replay.do()
    finally:
        replay.close()
    return replay


def replay_script(words: Namespace) -> int:
    with opened(words.world, MOST_WORLD) as (_, world):
        line = refusal(world)
        if line:
            return complain("replay", f"{words.world}: {line}")
        try:
            run_again = again([world, *options(seed=words.seed, turns=words.turns)], words.log)
            further = run_again.further
            if further:
                raise run_again.differs(f"the transcript has none, and the run goes on by itself: {further}")
        except Differs as error:
            return complain("replay", str(error), DIFFERS)
    if words.words:
        print(" ".join(run_again.words[1:]))
    else:
        sys.stdout.write("".join(f"{choice}\n" for choice in run_again.typed))
    return WRITTEN


def main() -> int:
    return script("replay", replay_script)
