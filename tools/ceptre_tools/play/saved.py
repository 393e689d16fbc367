"""Saved games: the choices, and in a first line the world in which they were made."""

import hashlib
import os
import re
from typing import NamedTuple

from ceptre_tools.program import CannotRun
from ceptre_tools.text import bytes_of, printable, unreadable

# The most bytes of a file of choices: as many as the program reads in a run.
MOST = 1 << 24

HEAD = re.compile(r"saved game of (.*), world ([0-9a-f]{16}), seed ([0-9]+)")


class Game(NamedTuple):
    """Whose choices they are: the name of the world's file, a sum of its text, and the seed."""

    name: str
    sum: str
    seed: str

    @classmethod
    def of(cls, path: str, text: str, options: list[str]) -> "Game":
        """The game of a world with these options of the run."""
        seeds = [option[5:] for option in options if option.startswith("seed=")]
        name = printable(bytes_of(os.path.basename(path)))
        return cls(name, hashlib.sha256(text.encode("latin-1")).hexdigest()[:16], (seeds or ["42"])[0])

    @property
    def head(self) -> str:
        return f"saved game of {self.name}, world {self.sum}, seed {self.seed}"


def is_choice(line: str) -> bool:
    return re.fullmatch(r"[1-9][0-9]{0,5}", line) is not None


def read(path: str) -> tuple[str, list[str]]:
    """The first line of a saved game, or nothing where it has none, and its other lines."""
    with open(path, "rb") as file:
        lines = [line.strip() for line in file.read(MOST).decode("latin-1").split("\n")]
    head = lines.pop(0) if HEAD.fullmatch(lines[0]) else ""
    return head, [line for line in lines if line]


def choices(path: str, game: Game) -> tuple[list[int], str]:
    """The choices in a file, each a number in a line, and what is to be said of them."""
    try:
        head, lines = read(path)
    except OSError as error:
        raise CannotRun(unreadable(error)) from error
    name = printable(bytes_of(path))
    if not all(map(is_choice, lines)):
        raise CannotRun(f"{name}: it has other lines than numbers of choices")
    match = HEAD.fullmatch(head)
    if match and match[2] != game.sum:
        raise CannotRun(f"{name}: it was saved in another world, {match[1]}, or in another text of it")
    said = f"It was saved with seed={match[3]}, and this is seed={game.seed}." if match else ""
    return list(map(int, lines)), said if match and match[3] != game.seed else ""


def save(path: str, game: Game, typed: list[int]) -> None:
    """Writes the choices to a file, if that is new, empty or a saved game."""
    try:
        if os.path.exists(path):
            head, lines = read(path) if os.path.isfile(path) else ("", ["?"])
            if not head and not all(map(is_choice, lines)):
                raise CannotRun(f"{printable(bytes_of(path))}: it is no saved game, and is kept")
        with open(path, "w", encoding="latin-1", errors="replace") as file:
            file.write("".join(f"{line}\n" for line in [game.head, *typed]))
    except OSError as error:
        raise CannotRun(unreadable(error)) from error
