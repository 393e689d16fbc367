"""A way as people take it: what is typed, and the transcript that the program writes and accepts."""

from typing import NamedTuple, Optional

from ceptre_tools.program import DONE, LIMIT, CannotRun, run, verdict, written
from ceptre_tools.solve.search import Way
from ceptre_tools.solve.seed import seed_of
from ceptre_tools.transcript import steps_of
from ceptre_tools.world import World


class Play(NamedTuple):
    """A way that the program has played: the numbers that a player types, the options by which `play` then
    does the same, or None where no seed is known by which the world chooses so; the transcript, and the
    verdict of `check` on it."""

    typed: list[int]
    options: Optional[list[str]]
    log: str
    verdict: str


def with_all_chosen(world: World) -> str:
    """The text of a world in which the player chooses in each stage."""
    others = [name for name in world.stages if name not in world.interactive]
    return world.text + "".join(f"\n#interactive {name}." for name in others) + "\n"


def begun(path: str, options: list[str]) -> list[str]:
    """The lines of a transcript up to the first turn."""
    lines = run("play", path, *options, "turns=1").of(DONE, LIMIT).lines
    first = next(at for at, line in enumerate(lines) if line.startswith(("? ", "step ", "end ")))
    return lines[:first]


def played(world: World, path: str, way: list[Way], height: Optional[int], seed: Optional[int]) -> Play:
    """The way as the program plays it, where the player chooses in each stage; the program then checks the
    transcript against the world itself. A CannotRun says that it does not agree."""
    options = [f"height={height}"] if height else []
    if way:
        chosen = [step.number + 1 for step in way if not step.is_outer or step.of > 1]
        lines = "".join(f"{number}\n" for number in chosen).encode()
        with written(with_all_chosen(world), ".cep") as copy:
            log = run("play", copy, *options, f"turns={len(way)}", typed=lines).of(DONE, LIMIT).lines
    else:
        log = begun(path, options)
        log += ["end input", *(line for line in log if line.startswith("have "))]
    text = "\n".join([*log, ""])
    if steps_of(text) != [step.offer.move.offer(step.offer.values) for step in way]:
        raise CannotRun("the program does not play the way that was found")
    answer = verdict(path, text)
    if answer.status != DONE or answer.line != f"accepted {len(way)}":
        raise CannotRun(f"the program does not accept the way that was found: {answer.line}")
    typed = [step.number + 1 for step in way if step.is_asked]
    return Play(typed, options_of(path, way, typed, options, seed), text, answer.line)


def options_of(
    path: str, way: list[Way], typed: list[int], options: list[str], seed: Optional[int]
) -> Optional[list[str]]:
    """The options by which `play` does a way if this is typed, or None if no seed is known for it: the seed
    where it chooses, and the turns where the world would go on by itself. They are tried."""
    draws = [(step.number, step.of) for step in way if step.is_drawn]
    found = seed_of(draws) if seed is None and draws else seed
    if draws and found is None:
        return None
    words = [*options, *([f"seed={found}"] if draws else [])]
    lines = "".join(f"{number}\n" for number in typed).encode()
    steps = [step.offer.move.offer(step.offer.values) for step in way]
    no_bound: list[str] = []
    for further in (no_bound, [f"turns={max(1, len(way))}"]):
        log = run("play", path, *words, *further, typed=lines).of(DONE, LIMIT).lines
        if steps_of("\n".join(log)) == steps:
            return words + further
    if not way:
        return None
    raise CannotRun("by what would be typed the program does something else")
