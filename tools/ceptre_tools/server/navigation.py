"""Where names are declared and used, and how they are renamed."""

from __future__ import annotations

import re
from typing import Optional

from ceptre_tools.tokens import RESERVED, Token
from ceptre_tools.world import Use, World

from .documents import Document
from .protocol import INVALID_PARAMS, REQUEST_FAILED, Failure, Json

NAME = re.compile(r"[a-z][A-Za-z0-9_/']*")
VARIABLE = re.compile(r"[A-Z][A-Za-z0-9_/']*")

# The most bytes of a name.
MOST = 255

# The kinds of highlights: a text, a use, and what makes or declares.
READ, WRITE = 2, 3
WRITES = ("declared", "made", "head", "start")


def use_at(document: Document, params: Json) -> Optional[Use]:
    """What is named at the place of a request."""
    return document.world.use_at(document.offset(params))


def declaration(use: Use, world: World) -> Optional[Token]:
    """The token by which a name is declared; of a variable its first place."""
    if use.space == "variable":
        return world.uses_like(use)[0].token
    item = world.find(use.space, use.name)
    return item.label if item else None


def definition(document: Document, params: Json) -> Optional[Json]:
    """Where the name at a place is declared."""
    use = use_at(document, params)
    token = declaration(use, document.world) if use else None
    return document.location(token) if token else None


def references(document: Document, params: Json) -> list[Json]:
    """All places of the name at a place."""
    use = use_at(document, params)
    found = document.world.uses_like(use) if use else []
    declared = bool(params.get("context", {}).get("includeDeclaration", True))
    return [document.location(other.token) for other in found if declared or other.role != "declared"]


def highlights(document: Document, params: Json) -> list[Json]:
    """The same, told apart by what is done there."""
    use = use_at(document, params)
    found = document.world.uses_like(use) if use else []
    return [
        {"range": document.range_of(other.token), "kind": WRITE if other.role in WRITES else READ} for other in found
    ]


def prepare_rename(document: Document, params: Json) -> Optional[Json]:
    """What would be renamed at a place, or None where nothing can be."""
    use = use_at(document, params)
    if use is None or use.token.kind == "blank":
        return None
    return {"range": document.range_of(use.token), "placeholder": use.token.text}


def rename(document: Document, params: Json) -> Json:
    """The edits by which the name at a place becomes another one, in templates of prose too."""
    use, new = use_at(document, params), str(params["newName"])
    if use is None or use.token.kind == "blank":
        raise Failure(INVALID_PARAMS, "no name stands here")
    world = document.world
    refuse_name(use, new, world)
    places = [other.token for other in world.uses_like(use)]
    edits = [(token.start, token.end) for token in places] + in_templates(use, world)
    check_meaning(world, [(token.start, token.end) for token in places], new)
    changes = [{"range": document.range(start, end), "newText": new} for start, end in sorted(edits)]
    return {"changes": {document.uri: changes}}


def refuse_name(use: Use, new: str, world: World) -> None:
    """Refuses a name that is none, or that its space or its rule has already."""
    form = VARIABLE if use.space == "variable" else NAME
    what = "variable" if use.space == "variable" else "name"
    if not form.fullmatch(new) or new in RESERVED or len(new) > MOST:
        raise Failure(REQUEST_FAILED, f"`{new}` is no {what}")
    if use.space == "variable":
        if new != use.name and new in world.variables(use.item):
            raise Failure(REQUEST_FAILED, f"the variable `{new}` stands here already")
    elif new != use.name and (world.find(use.space, new) or (use.space, new) in world.by_name):
        raise Failure(REQUEST_FAILED, f"{use.space} `{new}` stands already")


def check_meaning(world: World, places: list[tuple[int, int]], new: str) -> None:
    """Refuses a new name by which other names would be read in another way, as those of labels and contexts can be."""
    text = world.text
    for start, end in sorted(places, reverse=True):
        text = text[:start] + new + text[end:]
    before = [(use.space, use.role) for use in world.uses]
    if before != [(use.space, use.role) for use in World(text).uses]:
        raise Failure(REQUEST_FAILED, f"`{new}` would change what other names say")


def in_templates(use: Use, world: World) -> list[tuple[int, int]]:
    """Where a name stands in the templates of prose of the comments: a rule's is its own, and has its variables."""
    found = []
    for comment in world.comments:
        match = re.match(r"%:\s*(?:(stage|end|rule|atom)\s+)?([a-z][A-Za-z0-9_/']*)", comment.text)
        if not match or match[1] == "end":
            continue
        space = space_of_template(match[1], match[2], world)
        if space == use.space and match[2] == use.name:
            found.append((comment.start + match.start(2), comment.start + match.end(2)))
        if space == "rule" and use.space == "variable" and use.item.name == match[2]:
            marks = re.finditer(r"\{#?(" + re.escape(use.name) + r")\}", comment.text)
            found += [(comment.start + mark.start(1), comment.start + mark.end(1)) for mark in marks]
    return found


def space_of_template(word: Optional[str], name: str, world: World) -> str:
    """The space of the name that a template is for."""
    if word == "stage":
        return "stage"
    if word != "atom" and world.find("rule", name):
        return "rule"
    return "predicate" if world.find("predicate", name) else "constructor"
