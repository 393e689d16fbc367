"""One file of HTML: the program, a world, what it says, and the scripts that show it."""

from __future__ import annotations

import base64
import functools
import gzip
import hashlib
import html
import json
import os
import re
from collections.abc import Mapping
from typing import Any, NamedTuple, Optional

from ceptre_tools.commands import version
from ceptre_tools.play.prose import Prose
from ceptre_tools.program import TOP

WEB = os.path.join(TOP, "web")

# All that a page may do: run what stands in it, by its sum, and a worker that it makes itself.
POLICY = (
    "default-src 'none'; script-src {script} 'wasm-unsafe-eval'; style-src {style}; worker-src blob:; img-src data:; "
    "base-uri 'none'; form-action 'none'"
)

ABOUT = (
    "Played by ceptre {version}: not the proved build; the same sources by another back end. "
    "World {world}, program {module} (the beginnings of their SHA-256). "
    "Nothing leaves this page. What it does can be checked elsewhere, by `ceptre check` on the transcript."
)


def part(name: str) -> str:
    """The text of one of the files that a page is made of."""
    with open(os.path.join(WEB, name), encoding="utf-8") as file:
        return file.read()


def people(text: str) -> str:
    """A text whose bytes stand as characters, as people read it."""
    return text.encode("latin-1").decode("utf-8", errors="replace")


def templates(prose: Prose) -> dict[str, Any]:
    """The templates of a world as the page's script takes them."""

    def texts(given: Mapping[str, str]) -> dict[str, str]:
        return {name: people(text) for name, text in given.items()}

    rules = {name: [people(told), offer and people(offer)] for name, (told, offer) in prose.rules.items()}
    named = {"words": prose.words, "stages": prose.stages, "ends": prose.ends}
    return {"rules": rules, **{name: texts(given) for name, given in named.items()}, "start": people(prose.start)}


def as_data(value: object) -> str:
    """A value that stands in an element of HTML, where nothing of it ends the element."""
    return json.dumps(value, ensure_ascii=True).replace("<", "\\u003c")


def sum_of(text: str) -> str:
    """The sum of an element's text, as a policy names it."""
    return "'sha256-" + base64.b64encode(hashlib.sha256(text.encode()).digest()).decode() + "'"


def filled(template: str, values: Mapping[str, str]) -> str:
    """A template with its places, such as `@TITLE@`, filled once."""
    return re.sub("@([A-Z]+)@", lambda match: values[match[1]], template)


class Run(NamedTuple):
    """How a world is played: its options and how many play in rounds, or 0."""

    seed: int = 42
    players: int = 0
    height: Optional[int] = None
    turns: Optional[int] = None

    @property
    def options(self) -> list[str]:
        """The options of the program but for the seed, which a reader may change."""
        given = {"players": self.players or None, "height": self.height, "turns": self.turns}
        return [f"{name}={value}" for name, value in given.items() if value is not None]


@functools.lru_cache(maxsize=1)
def packed(module: bytes) -> str:
    """The module as text of an element."""
    return base64.b64encode(gzip.compress(module, 9, mtime=0)).decode()


def page(path: str, text: str, title: str, run: Run, module: bytes, walk: Optional[dict[str, Any]] = None) -> str:
    """The page of a world with this path and this text, or of a transcript of it."""
    name, world = os.path.basename(path), text.encode("latin-1")
    sums = [hashlib.sha256(content).hexdigest()[:16] for content in (world, module)]
    settings = {
        "name": os.path.splitext(name)[0],
        "file": name if name.isprintable() else "world.cep",
        "sum": sums[0],
        "players": run.players,
        "seed": str(run.seed),
        "options": run.options,
        "prose": templates(prose_of(text)),
        "walk": walk,
    }
    style, script = part("page.css"), part("prose.js") + part("walk.js") + part("page.js")
    values = {
        "TITLE": html.escape(title),
        "ABOUT": html.escape(ABOUT.format(version=version(), world=sums[0], module=sums[1])),
        "POLICY": POLICY.format(script=sum_of(script), style=sum_of(style)),
        "STYLE": style,
        "SCRIPT": script,
        "LOADER": part("loader.js"),
        "WALK": part("walk.html") if walk else "",
        "WASM": packed(module),
        "WORLD": base64.b64encode(world).decode(),
        "SETTINGS": as_data(settings),
    }
    return filled(part("page.html"), values)


def prose_of(text: str) -> Prose:
    """The templates of a world's text."""
    from ceptre_tools.world import World  # An import of its own, since the index of a site needs none.

    return Prose.of(text, World(text))
