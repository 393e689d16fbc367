"""What is said of a world before it is played: its title, its first paragraph, how long it is and for how many."""

from __future__ import annotations

import os
from typing import NamedTuple, Optional

from ceptre_tools.publish.page import people
from ceptre_tools.world import World


def title_of(path: str) -> str:
    """A title of a file's name."""
    name = os.path.splitext(os.path.basename(path))[0].replace("_", " ").replace("-", " ")
    return name[:1].upper() + name[1:]


def first_paragraph(text: str) -> str:
    """The comments at the head of a world, up to the first line that is none."""
    lines = []
    for line in text.split("\n"):
        if not line.startswith("%") or line.startswith("%:") or not line.strip("% \r"):
            break
        lines.append(line.strip("% \r"))
    return people(" ".join(lines))


class Words(NamedTuple):
    """The options with which a world was played once, as `NAME.words` beside it has them."""

    seed: Optional[int] = None
    height: Optional[int] = None
    turns: Optional[int] = None
    players: Optional[int] = None


def lines_of(path: str) -> list[str]:
    """The lines of a file, or none where it is not there."""
    if not os.path.exists(path):
        return []
    with open(path, encoding="latin-1") as file:
        return file.read().split()


def words_beside(world: str) -> Words:
    """The options beside a world."""
    given = (word.partition("=") for word in lines_of(os.path.splitext(world)[0] + ".words"))
    return Words(**{name: int(value) for name, _, value in given if name in Words._fields and value.isdigit()})


def length_of(path: str, world: World) -> str:
    """How long a world is and for how many, from how it was played once."""
    players = words_beside(path).players
    if not world.interactive:
        return "runs by itself, by its seed"
    whom = f"for {players} at one screen" if players else "for one"
    choices = len(lines_of(os.path.splitext(path)[0] + ".in"))
    return f"{whom}, {choices} choices when it was played once" if choices else whom
