"""The symbols of documents and of all worlds of the folders, and what can be folded."""

from __future__ import annotations

import os
from typing import Iterator, Optional

from ceptre_tools.items import Clause, Declared, Item, Rule, Stage
from ceptre_tools.program import MOST_WORLD
from ceptre_tools.tokens import Token
from ceptre_tools.world import World

from .describing import decoded, shortened
from .documents import Document, uri_of
from .protocol import Json

# Kinds of symbols of the protocol, by kinds of items.
SYMBOLS = {
    "type": 10,
    "constructor": 22,
    "predicate": 12,
    "clause": 8,
    "stage": 3,
    "rule": 24,
    "context": 18,
    "trace": 14,
}

# How many symbols are answered, and how many worlds of the folders are read.
MOST_SYMBOLS, MOST_WORLDS = 500, 1_000


def name_of(item: Item) -> str:
    """The name of a symbol."""
    if item.kind == "trace":
        return "start"
    if isinstance(item, Clause):
        return shortened(item.head.bare({}))
    return item.name or "?"


def detail_of(item: Item, world: World) -> str:
    """What is shown beside it."""
    if isinstance(item, Declared) and item.kind != "type":
        return " ".join([*item.types, ":", item.result.text])
    if isinstance(item, (Rule, Clause)):
        return decoded(shortened(world.text_of(item)))
    return ""


def token_of(item: Item) -> Token:
    """The token that is chosen when one goes to a symbol."""
    return item.head.token if isinstance(item, Clause) else item.label or item.source[item.first]


def symbol(document: Document, item: Item, children: list[Json]) -> Json:
    """The symbol of an item."""
    return {
        "name": name_of(item),
        "detail": detail_of(item, document.world),
        "kind": SYMBOLS[item.kind],
        "range": document.range(item.start, item.end),
        "selectionRange": document.range_of(token_of(item)),
        "children": children,
    }


def document_symbols(document: Document) -> list[Json]:
    """All symbols: constructors under their types, and rules under their stages."""
    world = document.world
    things: dict[str, list[Json]] = {}
    for item in world.items:
        if isinstance(item, Declared) and item.kind == "constructor":
            things.setdefault(item.result.text, []).append(symbol(document, item, []))
    found = []
    for item in world.items:
        if item.kind not in SYMBOLS or (item.kind == "constructor" and world.find("type", result_of(item))):
            continue
        children = things.get(item.name, []) if world.find("type", item.name) is item else []
        if isinstance(item, Stage):
            children = [symbol(document, rule, []) for rule in item.rules]
        found.append(symbol(document, item, children))
    return found


def result_of(item: Item) -> str:
    """The type of a constructor."""
    return item.result.text if isinstance(item, Declared) else ""


def folding_ranges(document: Document) -> list[Json]:
    """What has several lines and can be folded: items, and comments in a row."""
    found = []
    for item in document.world.parts():
        place = document.range(item.start, item.end)
        if place["start"]["line"] < place["end"]["line"]:
            found.append({"startLine": place["start"]["line"], "endLine": place["end"]["line"]})
    for first, last in rows_of_comments(document.world):
        place = document.range(first.start, last.end)
        lines = {"startLine": place["start"]["line"], "endLine": place["end"]["line"]}
        found.append({**lines, "kind": "comment"})
    return found


def rows_of_comments(world: World) -> Iterator[tuple[Token, Token]]:
    """The first and the last of comments that stand in lines of their own, one after another."""
    lines = {token.line for token in world.tokens}
    first: Optional[Token] = None
    last: Optional[Token] = None
    for comment in world.comments:
        if comment.line in lines:
            continue
        if last and first and comment.line == last.line + 1:
            last = comment
            continue
        if first and last and first is not last:
            yield first, last
        first = last = comment
    if first and last and first is not last:
        yield first, last


class Workspace:
    """The worlds of the folders that are open, which are read again when they changed."""

    def __init__(self, folders: list[str], utf8: bool) -> None:
        self.folders = folders
        self.utf8 = utf8
        self.read: dict[str, tuple[float, Document]] = {}

    def paths(self) -> Iterator[str]:
        """The paths of worlds, at most so many."""
        found = 0
        for top in self.folders:
            for folder, folders, files in os.walk(top):
                folders[:] = sorted(name for name in folders if not name.startswith("."))
                for name in sorted(files):
                    if name.endswith(".cep") and found < MOST_WORLDS:
                        found += 1
                        yield os.path.join(folder, name)

    def document(self, path: str) -> Optional[Document]:
        """The document of a file, or None where it cannot be read or is too long."""
        try:
            changed = os.stat(path).st_mtime
            if path not in self.read or self.read[path][0] != changed:
                with open(path, "rb") as file:
                    text = file.read(MOST_WORLD + 1)
                if len(text) > MOST_WORLD:
                    return None
                document = Document(uri_of(path), text.decode("utf-8", "replace"), 0, self.utf8)
                self.read[path] = (changed, document)
        except OSError:
            return None
        return self.read[path][1]

    def symbols(self, query: str, opened: dict[str, Document]) -> list[Json]:
        """The symbols of all worlds whose names have the letters of a query, in order."""
        found: list[Json] = []
        others = (self.document(path) for path in self.paths() if uri_of(path) not in opened)
        for document in [*opened.values(), *others]:
            if document is None or document.is_log:
                continue
            for item in document.world.parts():
                if item.kind in SYMBOLS and item.kind != "clause" and has_letters(name_of(item), query):
                    place = document.location(token_of(item))
                    found.append({"name": name_of(item), "kind": SYMBOLS[item.kind], "location": place})
                    if len(found) == MOST_SYMBOLS:
                        return found
        return found


def has_letters(name: str, query: str) -> bool:
    """Whether the letters of a query stand in a name, in order."""
    rest = iter(name.lower())
    return all(letter in rest for letter in query.lower())
