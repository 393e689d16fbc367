"""Semantic tokens, inlay hints and lenses: what an editor shows in and between the lines."""

from __future__ import annotations

from typing import Any, Optional

from ceptre_tools.items import Clause, Rule
from ceptre_tools.world import Use, World

from .documents import Document
from .protocol import Json

# The kinds of tokens, and what may be added to them, as this server numbers them.
KINDS = ("type", "enumMember", "function", "variable", "namespace", "event", "struct")
ADDED = ("declaration", "linear", "kept", "fact", "backward")

KIND_OF = {
    "type": "type",
    "constructor": "enumMember",
    "predicate": "function",
    "variable": "variable",
    "stage": "namespace",
    "rule": "event",
    "context": "struct",
}
WORDS = {"pred": "linear", "fact": "fact", "bwd": "backward"}


def modifiers(use: Use, world: World) -> int:
    """What is added to the kind of a name, as bits."""
    added = ["declaration"] if use.role == "declared" else []
    if use.space == "predicate":
        added += ["kept"] if use.role == "kept" else []
        added += [WORDS[word] for word in [world.words.get(use.name)] if word in WORDS]
    return sum(1 << ADDED.index(word) for word in added)


def semantic_tokens(document: Document, first: int = 0, last: Optional[int] = None) -> Json:
    """The names in a part of the text, each with its distance from the one before it."""
    world, lines = document.world, document.lines
    data: list[int] = []
    line = column = 0
    for use in world.uses:
        start = document.from_world(use.token.start)
        if start < first or (last is not None and start >= last):
            continue
        place = lines.position(start)
        begin = place["character"] - (column if place["line"] == line else 0)
        kind = KINDS.index(KIND_OF[use.space])
        data += [place["line"] - line, begin, len(use.token.text), kind, modifiers(use, world)]
        line, column = place["line"], place["character"]
    return {"data": data}


def part(document: Document, params: Json) -> tuple[int, int]:
    """The offsets of the range of a request, in the present text."""
    area = params["range"]
    return document.lines.offset(area["start"]), document.lines.offset(area["end"])


def inlay_hints(document: Document, params: Json) -> list[Json]:
    """The types of variables, each where it first stands in its rule or clause."""
    first, last = part(document, params)
    world, found = document.world, []
    for item in world.parts():
        if not isinstance(item, (Rule, Clause)) or not first <= document.from_world(item.start) < last:
            continue
        types, seen = world.variables(item), set()
        for use in world.uses_of(item):
            if use.space == "variable" and use.name not in seen and types.get(use.name):
                seen.add(use.name)
                place = document.lines.position(document.from_world(use.token.end))
                found.append({"position": place, "label": f": {types[use.name]}", "kind": 1})
    return found


def lenses(document: Document, verdicts: dict[str, str]) -> list[Json]:
    """A lens to play the world, and one for each transcript beside it with what the program says."""
    trace = document.world.trace
    if trace is None or not document.path:
        return []
    area = document.range_of(trace.source[trace.first])
    arguments: list[Any] = [document.path]
    found = [{"range": area, "command": {"title": "play", "command": "ceptre.play", "arguments": arguments}}]
    for name, said in verdicts.items():
        command = {"title": f"{name}: {said}", "command": "ceptre.showTranscript", "arguments": [name, said]}
        found.append({"range": area, "command": command})
    return found
