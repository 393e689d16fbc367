"""Playing: FORMATS, The command to What the seed draws, and Rounds; MODEL, A run, A choice and Dialogues in rounds."""
from typing import List, NamedTuple, Optional, Tuple, Union

from reference.program import Program, State
from reference.steps import Machine, Offer, contained
from reference.texts import Texts, number_of

MOST_TYPED, MOST_OFFERS = 16_777_216, 65_536


class Settings(NamedTuple):
    """The options of a run."""
    seed: int
    height: int
    turns: int
    players: Optional[int]


class Seed:
    """FORMATS, What the seed draws: PCG's generator (XSH RR 64/32), started with the seed on stream 54."""
    FACTOR, STREAM, WORD = 6364136223846793005, 54 << 1 | 1, 2 ** 64

    def __init__(self, seed: int) -> None:
        self.state = ((seed + self.STREAM) * self.FACTOR + self.STREAM) % self.WORD

    def word(self) -> int:
        """The next word of 32 bits."""
        old, self.state = self.state, (self.state * self.FACTOR + self.STREAM) % self.WORD
        mixed, turn = ((old >> 18 ^ old) >> 27) % 2 ** 32, old >> 59
        return (mixed >> turn | mixed << (32 - turn)) % 2 ** 32

    def place(self, count: int) -> int:
        """The place among so many, from 0. A lone one is taken without a word."""
        return self.word() * count >> 32 if count > 1 else 0


class Typed:
    """FORMATS, What is typed: lines, and how many bytes were taken in the run."""

    def __init__(self, text: str) -> None:
        self.text, self.taken = text, 0

    def line(self) -> Union[str, Tuple[str]]:
        """The next line, or in a tuple the end word: `input` if nothing more comes, `typed` if no further byte may be
        taken."""
        left = self.text[self.taken:]
        end = left.find("\n") + 1
        if MOST_TYPED - self.taken < (end or len(left) + 1):
            self.taken = MOST_TYPED
            return ("typed",)
        if not left:
            return ("input",)
        line = left[:end or len(left)]
        self.taken += len(line)
        line = line[:-1] if end else line
        return line[:-1] if line.endswith("\r") else line


class Ended(Exception):
    """The run ended, by this word."""

    def __init__(self, word: str) -> None:
        super().__init__(word)
        self.word = word


class Run:
    """A run of a program: the lines that are written, and where it is."""

    def __init__(self, program: Program, settings: Settings, typed: str, most_work: int) -> None:
        self.machine = Machine(program, settings.height, most_work)
        self.program, self.settings = program, settings
        self.texts, self.seed, self.typed = Texts(program), Seed(settings.seed), Typed(typed)
        self.stage, self.state = program.stage, program.state
        self.turns = self.offered = 0
        self.lines = self.texts.header(settings.height, self.stage, self.state)

    def play(self) -> str:
        """Turn by turn to the end, and the end word."""
        try:
            while True:
                self.turn()
        except Ended as end:
            self.lines += [f"end {end.word}"] + self.texts.listing(self.state)
            return end.word

    def turn(self) -> None:
        """MODEL, A run: a question and a step, or a round, unless the run ends in quiet, by its turns or by too many
        offers."""
        group, offers = self.machine.asked(self.stage, self.state)
        own, interactive = group == 2 * self.stage, self.stage in self.program.interactive
        if not offers:
            raise Ended("quiet")
        if self.turns == self.settings.turns:
            raise Ended("turns")
        if len(offers) > MOST_OFFERS:
            raise Ended("offers")
        self.lines += [f"? {place} {self.texts.offer(offer)}" for place, offer in enumerate(offers, 1)]
        if own and interactive and self.settings.players:
            self.round(offers, self.settings.players)
        elif interactive and (own or len(offers) > 1):
            self.do(offers[self.heard(len(offers), 1)])
            self.offered += len(offers)
        else:
            self.do(offers[self.seed.place(len(offers))])
            self.offered += len(offers)

    def heard(self, count: int, player: int) -> int:
        """A choice of a player: a line that spells the number of an offer; any other one is answered by `? no`."""
        self.lines.append(f"? choose {player}" if self.settings.players else "? choose")
        while True:
            line = self.typed.line()
            if isinstance(line, tuple):
                raise Ended(line[0])
            chosen = number_of(line, 1, count)
            if chosen is not None:
                return chosen - 1
            self.lines.append("? no")

    def do(self, offer: Offer) -> None:
        """A step, unless it passes a limit, with the lines that say it."""
        passed = self.machine.passed(self.state, offer)
        if passed:
            raise Ended(passed)
        atoms = self.machine.asked_atoms(offer)
        proofs = [self.machine.backward.canonical(atom, self.settings.height) for atom in atoms]
        self.state, self.stage = self.machine.after(self.state, offer), self.machine.next_stage(self.stage, offer)
        self.turns += 1
        self.lines += self.texts.step(offer, proofs, self.program.rules[offer.rule].leads, self.state, self.turns)

    def round(self, offers: List[Offer], players: int) -> None:
        """FORMATS, Rounds: all players choose at once, and who is admitted does so in order of the players."""
        chosen = [offers[self.heard(len(offers), player)] for player in range(1, players + 1)]
        admitted: List[Offer] = []
        used: State = {}
        for player, offer in enumerate(chosen, 1):
            together = self.machine.joined(used, self.machine.left(offer))
            if contained(together, self.state):
                used = together
                admitted.append(offer)
            else:
                self.lines.append(f"? blocked {player} {self.texts.offer(offer)}")
        for offer in admitted:
            if self.turns == self.settings.turns:
                raise Ended("turns")
            self.do(offer)


def world_text(rooms: int) -> str:
    """FORMATS, A generated world: its text."""
    walkers = 1 + rooms // 100
    lines = ["room : type.", "walker : type.", "good : type."]
    lines += [f"r{i} : room." for i in range(rooms)] + [f"w{i} : walker." for i in range(walkers)]
    lines += [f"g{i} : good." for i in range(rooms)]
    lines += ["link room room : pred.", "at walker room : pred.", "lies good room : pred.",
              "holds walker good : pred.", "food walker : pred.", "stage main = {",
              "move : at W R * $link R S * food W -o at W S.", "grab : $at W R * lies G R -o holds W G.", "}",
              "stage rest = {", "eat : holds W G -o food W * food W.", "}", "qui * stage main -o stage rest.",
              "qui * stage rest * $food W -o stage main.", "context start = {"]
    atoms = [f"link r{i} r{goal % rooms}" for i in range(rooms) for goal in (i + 1, 7 * i + 3)]
    for i in range(walkers):
        atoms += [f"at w{i} r{11 * i % rooms}"] + [f"food w{i}"] * 3
    atoms += [f"lies g{i} r{5 * i % rooms}" for i in range(rooms)]
    return "\n".join(lines + [",\n".join(atoms), "}.", "#trace _ main start.", ""])
