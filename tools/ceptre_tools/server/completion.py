"""What fits at a place: names of the kind and type that is wanted there, and words of the language."""

from __future__ import annotations

import re
from typing import Iterator, NamedTuple, Optional

from ceptre_tools.items import Declared, Item, Rule
from ceptre_tools.tokens import KINDS, VALUES, Token, tokens_and_comments

from .describing import decoded, head_of
from .documents import Document
from .protocol import Json

# Kinds of completions of the protocol.
FUNCTION, VARIABLE, MODULE, ENUM, KEYWORD, CONSTANT = 3, 6, 9, 13, 14, 21

# How many are proposed, and how far back the text is read for them.
MOST, BACK = 200, 4_000

# After these an atom begins.
JOINTS = ("*", "-o", "<-", ",", "{", "$", ":")


class Proposal(NamedTuple):
    """Something that fits: its name, its kind, what is shown beside it, and what is put in its place."""

    name: str
    kind: int
    detail: str = ""
    put: str = ""


class Place:
    """What stands before the cursor in the item, rule or atom at hand. `prefix` is the word that is being typed,
    `braces` what the innermost open brace belongs to."""

    def __init__(self, document: Document, params: Json) -> None:
        self.world = document.world
        source = document.source
        self.offset = document.lines.offset(params["position"])
        self.in_world = document.to_world(self.offset)
        begin = source.rfind("\n", 0, max(0, self.offset - BACK)) + 1
        before, comments = tokens_and_comments(source[begin : self.offset])
        self.in_comment = bool(comments) and begin + comments[-1].end == self.offset
        self.prefix = ""
        if before and begin + before[-1].end == self.offset and re.match(r"[#\w]", before[-1].text):
            self.prefix = before.pop().text
        self.braces, self.tokens = surroundings(before)
        if begin and not self.braces:
            self.braces = self.far_braces()

    def far_braces(self) -> str:
        """The kind of the item around the place, where it begins too far before."""
        item = self.world.part_at(self.in_world)
        if item is None:
            return ""
        if isinstance(item, Rule):
            return "stage" if item.stage else ""
        return item.kind if item.kind in ("stage", "context", "trace") else ""

    def fits(self, name: str) -> bool:
        """Whether a name begins as what is typed at the place."""
        return name[: len(self.prefix)].lower() == self.prefix.lower()

    def of_space(self, space: str) -> Iterator[Item]:
        """What a space has that begins so."""
        return (item for name, item in self.world.of_space(space).items() if self.fits(name))

    def named(self, space: str, kind: int) -> Iterator[Proposal]:
        """The same as proposals, each with what declares it."""
        return (self.proposal(item, kind) for item in self.of_space(space))

    def proposal(self, item: Item, kind: int, put: str = "") -> Proposal:
        """An item by its name, with what declares it."""
        return Proposal(item.name, kind, decoded(head_of(item, self.world)), put)

    @property
    def words(self) -> list[str]:
        """The texts of the tokens before the place in its item."""
        return [token.text for token in self.tokens]

    def head(self) -> tuple[Optional[Token], int]:
        """The name of the atom or term among whose arguments the place is, or None, and how many arguments stand
        before the place."""
        depth = count = 0
        number = len(self.tokens) - 1
        while number >= 0:
            token = self.tokens[number]
            before = self.tokens[number - 1] if number else None
            if token.text == ")":
                depth += 1
                count += depth == 1
            elif token.text == "(":
                depth -= 1
                if depth < 0:
                    return None, 0
            elif token.kind not in VALUES:
                return None, 0
            elif depth == 0:
                opens = before is not None and (before.text in (*JOINTS, "(") or before.kind == "directive")
                if before is None or opens or not (before.kind in VALUES or before.text in ("(", ")")):
                    return (token, count) if token.kind == "name" else (None, 0)
                count += 1
            number -= 1
        return None, 0


def surroundings(before: list[Token]) -> tuple[str, list[Token]]:
    """What the innermost open brace belongs to, and the tokens of the item or rule at the end of these tokens."""
    first, depth = 0, 0
    is_cut = False
    for number in range(len(before) - 1, -1, -1):
        word = before[number].text
        if word == "}" and not is_cut:
            first, is_cut = number + 1, True
        elif word == "." and not is_cut:
            first, is_cut = number + 1, True
        depth += (word == "}") - (word == "{")
        if word == "{" and depth < 0:
            owners = [token.text for token in before[max(0, number - 3) : number]]
            owner = next((word for word in owners if word in ("stage", "context", "#trace")), "")
            return owner.strip("#"), before[max(first, number + 1) :]
    return "", before[first:]


def proposals(place: Place) -> Iterator[Proposal]:
    """All that fits at a place; words of the language without regard to the prefix."""
    words = place.words
    last = words[-1] if words else ""
    in_bag = place.braces in ("context", "trace")
    if place.prefix.startswith("#") or (not words and not place.braces):
        yield from beginnings(place)
        return
    if last in ("#interactive", "stage") or (words[:1] == ["#trace"] and len(words) == 2):
        yield from place.named("stage", MODULE)
        return
    if words == ["#trace"]:
        yield Proposal("_", KEYWORD, "at most 10,000 turns")
        return
    if words[:1] == ["#trace"] and len(words) == 3 and not in_bag:
        yield from place.named("context", CONSTANT)
        return
    head, number = place.head()
    if head is not None:
        yield from arguments(place, head, number)
        return
    if last == ":" and not place.braces:
        yield from (Proposal(word, KEYWORD) for word in ("type", *KINDS, "qui", "stage"))
        yield from place.named("type", ENUM)
    if in_bag or last in JOINTS:
        yield from atoms(place, words)


def beginnings(place: Place) -> Iterator[Proposal]:
    """What an item may begin with."""
    yield Proposal("#interactive", KEYWORD, "the player chooses in this stage")
    yield Proposal("#trace", KEYWORD, "what is played: turns, stage, start")
    if place.prefix.startswith("#"):
        return
    yield from (Proposal(word, KEYWORD) for word in ("stage", "context", "qui"))
    for item in place.of_space("predicate"):
        if place.world.words.get(item.name) == "bwd":
            yield place.proposal(item, FUNCTION)


def atoms(place: Place, words: list[str]) -> Iterator[Proposal]:
    """The predicates of which atoms fit: on a right side and at the start those of states, in clauses backward ones."""
    bag = place.braces in ("context", "trace")
    is_clause = "<-" in words
    of_states = bag or "-o" in words or words[-1:] == ["$"]
    for item in place.of_space("predicate"):
        word = place.world.words.get(item.name)
        if not (is_clause and word != "bwd") and not (of_states and word == "bwd"):
            yield place.proposal(item, FUNCTION)
    if place.braces == "trace":
        yield from place.named("context", CONSTANT)
    if not bag and not place.braces and not is_clause:
        yield from (Proposal(word, KEYWORD) for word in ("stage", "qui"))


def arguments(place: Place, head: Token, number: int) -> Iterator[Proposal]:
    """What fits as an argument: things and variables of the type, and in a declaration types."""
    words, declared = place.words, declared_as(head, place)
    if declared is None:
        if words[:1] == [head.text] and ":" not in words and not place.braces:
            yield from place.named("type", ENUM)
        return
    wanted = declared.types[number] if number < len(declared.types) else None
    if wanted is None:
        return
    if place.braces not in ("context", "trace"):
        yield Proposal("_", KEYWORD, f"any {wanted}")
        yield from variables(place, wanted)
    for item in place.of_space("constructor"):
        if isinstance(item, Declared) and item.result.text == wanted:
            put = f"({item.name} )" if item.arguments and words[-1:] != ["("] else ""
            yield place.proposal(item, CONSTANT, put)


def declared_as(head: Token, place: Place) -> Optional[Declared]:
    """The declaration of the head of an atom or a term."""
    number = place.tokens.index(head)
    in_term = number > 0 and place.tokens[number - 1].text == "("
    return place.world.head("constructor" if in_term else "predicate", head.text)


def variables(place: Place, wanted: str) -> Iterator[Proposal]:
    """The variables of the rule or clause at the place that are of a type, or of none that is known."""
    item = place.world.part_at(place.in_world)
    types = place.world.variables(item) if item else {}
    for name in dict.fromkeys([*(t.text for t in place.tokens if t.kind == "variable"), *types]):
        if name[0] != "_" and types.get(name, "") in ("", wanted) and name != place.prefix:
            yield Proposal(name, VARIABLE, types.get(name) or wanted)


def completion(document: Document, params: Json) -> Json:
    """What fits at the place of a request and begins as what is typed there."""
    place = Place(document, params)
    found: list[Json] = []
    if place.in_comment:
        return {"isIncomplete": False, "items": found}
    start = document.lines.position(place.offset - len(place.prefix))
    area = {"start": start, "end": document.lines.position(place.offset)}
    for proposal in proposals(place):
        if not place.fits(proposal.name):
            continue
        if len(found) == MOST:
            return {"isIncomplete": True, "items": found}
        item: Json = {"label": proposal.name, "kind": proposal.kind, "detail": proposal.detail}
        item["textEdit"] = {"range": area, "newText": proposal.put or proposal.name}
        item["sortText"] = f"{len(found):04}"
        found.append(item)
    return {"isIncomplete": False, "items": found}


def signature_help(document: Document, params: Json) -> Optional[Json]:
    """The types of the arguments of the atom or term at a place, and which one stands there."""
    place = Place(document, params)
    head, number = place.head()
    declared = declared_as(head, place) if head and not place.in_comment else None
    if declared is None or not declared.types:
        return None
    label, parts = declared.name, []
    for kind in declared.types:
        parts.append({"label": [len(label) + 1, len(label) + 1 + len(kind)]})
        label += " " + kind
    label += f" : {declared.result.text}"
    active = min(number, len(parts))
    return {"signatures": [{"label": label, "parameters": parts}], "activeSignature": 0, "activeParameter": active}
