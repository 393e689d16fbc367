"""The script `solve`."""

import sys
import time
from argparse import Namespace
from typing import Optional

from ceptre_tools.grade.goals import goals_of
from ceptre_tools.play.prose import Prose
from ceptre_tools.program import DONE, LIMIT, MOST_WORLD, opened, options, refusal, run
from ceptre_tools.solve.answer import Play, begun, played
from ceptre_tools.solve.search import Limits, Search, Way
from ceptre_tools.terminal import USAGE, complain, script
from ceptre_tools.text import shown
from ceptre_tools.transcript import Transcript
from ceptre_tools.world import World

FOUND, NONE, NOT_WITHIN = 0, 1, 4

# So many states from which no goal can be reached are shown.
SHOWN = 5


class Progress:
    """How far a search came, said once a second at a terminal."""

    def __init__(self, search: Search) -> None:
        self.search, self.begun, self.last, self.is_shown = search, time.monotonic(), time.monotonic(), False

    def __call__(self) -> None:
        now = time.monotonic()
        if now - self.last >= 1 and sys.stderr.isatty():
            self.last, self.is_shown = now, True
            rate = len(self.search.known) / (now - self.begun)
            print(f"\rsolve: {how_far(self.search)}, {rate:.0f} a second\033[K", end="", file=sys.stderr, flush=True)

    def end(self) -> None:
        if self.is_shown:
            print("\r\033[K", end="", file=sys.stderr, flush=True)


def how_far(search: Search) -> str:
    """How far a search came."""
    waiting = len(search.states) - len(search.known)
    return f"{len(search.states)} states seen, {waiting} of them not asked, to a depth of {search.depth} steps"


def steps_shown(way: list[Way], prose: Optional[Prose]) -> list[str]:
    """A way as lines: what is typed, or `-` where nobody is asked, and the step."""
    lines = []
    for number, step in enumerate(way, 1):
        offer = step.offer.move.offer(step.offer.values)
        said = (prose.offered(offer) if prose else "") or offer
        typed = str(step.number + 1) if step.is_asked else "-"
        drawn = f"  (the seed takes {step.number + 1} of {step.of})" if step.is_drawn else ""
        lines.append(f"{number:4}  {typed:>3}  {shown(said)}{drawn}")
    return lines


def typed_line(play: Play) -> list[str]:
    """What is typed, and by which options of `play`."""
    lines = ["typed: " + (" ".join(map(str, play.typed)) or "nothing")]
    if play.options is None:
        return [*lines, "no seed is known by which the world does so by itself"]
    return lines + ([f"options: {' '.join(play.options)}"] if play.options else [])


def write(path: str, text: str) -> None:
    """Writes a file that is asked for."""
    with open(path, "w", encoding="latin-1") as file:
        file.write(text)


def answer(search: Search, words: Namespace, path: str, prose: Optional[Prose]) -> int:
    """Says how a goal is reached, or how far it was looked for in vain."""
    if not search.won:
        return in_vain(search)
    way = search.way_to(search.won[0])
    play = played(search.world, path, way, words.height, words.seed if words.by_seed else None)
    print(f"reached in {len(way)} steps, the fewest; {len(search.states)} states seen; {play.verdict}")
    print("\n".join(steps_shown(way, prose) + typed_line(play)))
    if words.log:
        write(words.log, play.log)
    if words.typed:
        write(words.typed, "".join(f"{number}\n" for number in play.typed))
    return FOUND


def in_vain(search: Search) -> int:
    """Says that no state that was seen has the goals, and whether there are others."""
    if search.is_whole:
        print(f"none: all {len(search.states)} states were seen")
        return NONE
    why = search.limit or search.cut
    print(f"none within {why}: {how_far(search)}")
    return NOT_WITHIN


def stuck(search: Search, words: Namespace, path: str, prose: Optional[Prose]) -> int:
    """Says from which states no goal can be reached."""
    if not search.won:
        return in_vain(search)
    found = search.stuck()
    seen = f"all {len(search.states)} states" if search.is_whole else how_far(search)
    print(f"{seen}; {len(search.won)} have the goal; from {len(found)} no goal can be reached")
    for number in found[:SHOWN]:
        way = search.way_to(number)
        play = played(search.world, path, way, words.height, words.seed if words.by_seed else None)
        end = ", and there it is quiet" if number in search.quiet else ""
        print(f"no goal after {len(way)} steps{end}:")
        print("\n".join(steps_shown(way, prose) + typed_line(play)))
    if len(found) > SHOWN:
        print(f"({len(found) - SHOWN} more)")
    if found:
        return NONE
    return FOUND if search.is_whole else NOT_WITHIN


def solve(words: Namespace) -> int:
    with opened(words.world, MOST_WORLD) as (text, path):
        line = refusal(path)
        if line:
            return complain("solve", f"{words.world}: {line}")
        try:
            goals = goals_of(words.goal, text)
        except ValueError as error:
            return complain("solve", str(error), USAGE)
        run("play", path, *options(height=words.height, turns=words.turns)).of(DONE, LIMIT)
        world = World(text)
        start = Transcript.of("\n".join(begun(path, options(height=words.height))))
        seed = (42 if words.seed is None else words.seed) if words.by_seed else None
        words.seed = seed
        limits = Limits(words.states, words.turns, words.seconds)
        search = Search(world, start, goals, limits, words.height, seed)
        search.edges = [] if words.stuck else None
        try:
            searched(search, words)
        except KeyboardInterrupt:
            complain("solve", f"stopped: {how_far(search)}, and {len(search.won)} of them have the goal")
            raise
        prose = None if words.plain else Prose.of(text, world)
        return (stuck if words.stuck else answer)(search, words, path, prose)


def searched(search: Search, words: Namespace) -> None:
    """Searches, and says how far it came."""
    progress = Progress(search)
    try:
        search.run(words.jobs, not words.stuck, progress)
    finally:
        progress.end()


def main() -> int:
    return script("solve", solve)
