"""A search through the states of a world, breadth first: which can be reached, how, and what from there."""

from __future__ import annotations

import os
import time
from collections.abc import Callable, Iterator
from concurrent.futures import ThreadPoolExecutor
from typing import NamedTuple, Optional

from ceptre_tools.grade.goals import Goal
from ceptre_tools.solve.batch import Batches, Offer, Offers
from ceptre_tools.solve.seed import Draws
from ceptre_tools.solve.states import Changing, State
from ceptre_tools.transcript import Transcript
from ceptre_tools.world import World

# The turns of a run that names none, as docs/FORMATS.md has it.
TURNS = 10_000


class Way(NamedTuple):
    """A step of a way: its offer, which of so many it is, counted from 0, and whether it leaves the stage
    in which it is offered, whether a player is asked there, and whether a seed chooses."""

    offer: Offer
    number: int
    of: int
    is_outer: bool
    stage: str
    is_asked: bool
    is_drawn: bool


class Reached(NamedTuple):
    """How a state was first reached: from which, by which step, after how many."""

    parent: int
    way: Optional[Way]
    depth: int


class Limits(NamedTuple):
    """How far a search goes: at most so many states, turns and seconds."""

    states: int = 100_000
    turns: Optional[int] = None
    seconds: Optional[float] = None


class Search:
    """The states that were seen, in the order in which they were, and what is known of each."""

    def __init__(
        self,
        world: World,
        start: Transcript,
        goals: list[Goal],
        limits: Limits,
        height: Optional[int] = None,
        seed: Optional[int] = None,
    ) -> None:
        self.world, self.goals, self.limits = world, goals, limits
        self.changing = Changing(world, start.start)
        self.batches = Batches(world, self.changing, height)
        self.draws = None if seed is None else Draws(seed)
        self.interactive = set(world.interactive)
        self.turns = limits.turns or self.turns_of_the_world()
        self.states: list[State] = []
        self.numbers: dict[State, int] = {}
        self.reached: list[Reached] = []
        self.won: list[int] = []
        # Steps between states by their numbers, kept where it is asked from where a goal can be reached.
        self.edges: Optional[list[tuple[int, int]]] = None
        # What stopped the search, and what a run would have ended by, if anything.
        self.limit = self.cut = ""
        self.quiet: set[int] = set()
        # States of which all steps are known.
        self.known: set[int] = set()
        self.matches: list[dict[int, bool]] = [{} for _ in goals]
        self.fixed_copies = [self.copies_of(goal, self.changing.fixed) for goal in goals]
        self.add(State(start.stage, self.changing.start), Reached(-1, None, 0))

    def turns_of_the_world(self) -> int:
        """How many turns its `#trace` names."""
        trace = self.world.trace
        turns = trace.turns if trace else None
        return int(turns.text) if turns and turns.text.isdigit() else TURNS

    @staticmethod
    def copies_of(goal: Goal, state: dict[str, int]) -> int:
        """How many atoms of a state a goal names."""
        return sum(copies for text, copies in state.items() if goal.names(text))

    def has_goals(self, state: State) -> bool:
        """Whether a state has all goals."""
        texts = self.changing.texts
        for goal, matches, fixed in zip(self.goals, self.matches, self.fixed_copies):
            count = fixed
            for number, copies in state.atoms:
                if number not in matches:
                    matches[number] = goal.names(texts[number])
                count += copies if matches[number] else 0
            if not goal.is_met(count):
                return False
        return bool(self.goals)

    def add(self, state: State, reached: Reached) -> int:
        """The number of a state, which is noted if it was not seen before."""
        found = self.numbers.get(state)
        if found is None:
            found = self.numbers[state] = len(self.states)
            self.states.append(state)
            self.reached.append(reached)
            if self.has_goals(state):
                self.won.append(found)
        return found

    def run(self, jobs: Optional[int] = None, first: bool = True, shown: Callable[[], None] = lambda: None) -> None:
        """Searches until no state is left, a limit is met, or, if the first is enough, a goal is reached."""
        jobs = jobs or os.cpu_count() or 1
        until = time.monotonic() + self.limits.seconds if self.limits.seconds else None
        begun = 0
        with ThreadPoolExecutor(jobs) as pool:
            while begun < len(self.states) and not (first and self.won):
                level = range(begun, len(self.states))
                if self.reached[begun].depth >= self.turns:
                    self.limit = self.limit or f"{self.turns} turns"
                    return
                for numbers, offers in self.asked(level, jobs, pool):
                    self.take(numbers, offers, first)
                    shown()
                    if until and time.monotonic() > until:
                        self.limit = self.limit or f"{self.limits.seconds:g} seconds"
                    if self.limit or (first and self.won):
                        return
                begun = level.stop

    def asked(
        self, level: range, jobs: int, pool: ThreadPoolExecutor
    ) -> Iterator[tuple[list[int], list[Offers]]]:
        """What applies in the states of a level, batch by batch in their order."""
        by_stage: dict[str, list[int]] = {}
        for number in level:
            by_stage.setdefault(self.states[number].stage, []).append(number)
        ordered = [number for numbers in by_stage.values() for number in numbers]
        parts = self.batches.parted([self.states[number] for number in ordered], jobs)
        place = 0
        found = map(self.batches.offers, parts) if len(parts) == 1 else pool.map(self.batches.offers, parts)
        for part, offers in zip(parts, found):
            yield ordered[place : place + len(part)], offers
            place += len(part)

    def take(self, numbers: list[int], all_offers: list[Offers], first: bool) -> None:
        """Takes in what applies in some states."""
        for number, offers in zip(numbers, all_offers):
            if first and self.won:
                return
            if offers.ended:
                self.cut = self.cut or offers.ended
            elif self.expand(number, offers):
                self.known.add(number)

    def expand(self, number: int, offers: Offers) -> bool:
        """Notes the states after each step from a state; answers whether all could be noted."""
        state = self.states[number]
        listed, is_outer = (offers.own, False) if offers.own else (offers.outer, True)
        if not listed:
            self.quiet.add(number)
        is_asked = state.stage in self.interactive and (not is_outer or len(listed) > 1)
        is_drawn = not is_asked and len(listed) > 1
        draws, taken = state.draws, range(len(listed))
        if self.draws and is_drawn:
            choice = self.draws.choice(draws, len(listed))
            taken, draws = range(choice, choice + 1), draws + 1
        depth, is_whole = self.reached[number].depth + 1, True
        for index in taken:
            offer = listed[index]
            atoms = self.changing.after(state.atoms, offer.move, offer.values)
            after = State(offer.move.next_stage or state.stage, atoms, draws)
            way = Way(offer, index, len(listed), is_outer, state.stage, is_asked, is_drawn)
            is_whole &= self.follow(number, after, Reached(number, way, depth))
        return is_whole

    def follow(self, number: int, after: State, reached: Reached) -> bool:
        """Notes the state after a step; answers whether it is within the limits."""
        if after not in self.numbers:
            if self.changing.passes_a_limit(after.atoms):
                self.cut = self.cut or "a step that passes a limit"
                return False
            if len(self.states) >= self.limits.states:
                self.limit = self.limit or f"{self.limits.states} states"
                return False
        found = self.add(after, reached)
        if self.edges is not None:
            self.edges.append((number, found))
        return True

    @property
    def is_whole(self) -> bool:
        """Whether all states that there are were seen, and no run ended by a limit."""
        return len(self.known) == len(self.states)

    @property
    def depth(self) -> int:
        """After how many steps the last state that was seen comes."""
        return self.reached[-1].depth

    def way_to(self, number: int) -> list[Way]:
        """The steps by which a state was first reached."""
        found: list[Way] = []
        while True:
            parent, way, _ = self.reached[number]
            if way is None:
                return found[::-1]
            found.append(way)
            number = parent

    def stuck(self) -> list[int]:
        """The states from which no goal can be reached, and no state of which not all steps are known."""
        before: dict[int, list[int]] = {}
        for number, after in self.edges or ():
            before.setdefault(after, []).append(number)
        waiting = [*self.won, *(number for number in range(len(self.states)) if number not in self.known)]
        able = set(waiting)
        while waiting:
            for number in before.get(waiting.pop(), ()):
                if number not in able:
                    able.add(number)
                    waiting.append(number)
        return [number for number in range(len(self.states)) if number not in able]
