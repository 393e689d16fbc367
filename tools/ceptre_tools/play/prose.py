r"""Prose for a world: templates that stand in its comments, and readable texts where there is none.

    %: walk "You go from {A} to {B}." "Go to {B}."   a rule: what its step says, and perhaps its offer
    %: iron/key "the iron key"                       a thing; {1} is its first argument
    %: lantern "The lantern has {#1} drops left."    an atom of the state; {#1} counts a chain of terms
    %: rule lie "You lie."                           a rule, where a predicate has its name too
    %: atom lie "{1} lies there."                    a predicate or a thing, likewise
    %: stage night "Night falls."                    when this stage begins
    %: start "You stand at a gate."                  before the first question
    %: end quiet "Nothing is left to do."            when a run ends so

A text has `\"` for a quotation mark and `\\` for a backslash; an empty one is silence.
"""

from __future__ import annotations

import re
from collections import defaultdict
from typing import NamedTuple, Optional

from ceptre_tools.items import Term
from ceptre_tools.parser import read_term
from ceptre_tools.transcript import values_of, words_of
from ceptre_tools.world import World

TEXT = r'"((?:[^"\\]|\\.)*)"'
TEMPLATE = re.compile(
    rf":\s*(?:(stage|end|rule|atom)\s+)?([a-z][A-Za-z0-9_/']*)\s+{TEXT}(?:\s+{TEXT})?\s*"
)
PLACE = re.compile(r"\{(#?)([A-Z_1-9][A-Za-z0-9_/']*)\}")


class Fault(NamedTuple):
    """A template that does not fit: its place, what is wrong, and how long it is."""

    line: int
    column: int
    said: str
    length: int


def readable(name: str) -> str:
    """A name with spaces for the marks that join its words."""
    return name.replace("/", " ").replace("_", " ")


def chain(term: Term) -> int:
    """How many constructors with arguments stand around the innermost one, along first arguments."""
    count = 0
    while term.arguments:
        term = term.arguments[0]
        count += 1
    return count


def sentence(text: str) -> str:
    return text[:1].upper() + text[1:]


def unquoted(text: Optional[str]) -> Optional[str]:
    """A text as it was written between quotation marks."""
    return None if text is None else re.sub(r'\\(["\\])', r"\1", text)


class Prose:
    """The templates of a world, each by the name that it is for."""

    def __init__(self) -> None:
        self.rules: dict[str, tuple[str, Optional[str]]] = {}
        self.words: dict[str, str] = {}
        self.stages: dict[str, str] = {}
        self.ends: dict[str, str] = {}
        self.start = ""
        self.faults: list[Fault] = []

    @classmethod
    def of(cls, text: str, world: World) -> Prose:
        """The templates of a text. One that does not fit the world is named in `faults`."""
        found = cls()
        for number, line in enumerate(text.split("\n"), 1):
            before, _, comment = line.removesuffix("\r").partition("%")
            if comment.startswith(":"):
                said = found.take(comment, world)
                if said:
                    found.faults.append(Fault(number, len(before) + 1, said, len(comment) + 1))
        return found

    def take(self, comment: str, world: World) -> str:
        """Takes in a template, or answers why it does not fit the world."""
        match = TEMPLATE.fullmatch(comment)
        if not match:
            return 'it is no %: NAME "TEXT"'
        kind, name = match.group(1, 2)
        told, offer = unquoted(match[3]) or "", unquoted(match[4])
        if kind == "end":
            self.ends[name] = told
        elif kind == "stage":
            self.stages[name] = told
        elif kind != "atom" and name in world.rules:
            self.rules[name] = (told, offer)
            return fault_of_places(told + (offer or ""), world, name)
        elif kind != "rule" and (name in world.predicates or name in world.constructors):
            self.words[name] = told
        elif kind is None and name == "start":
            self.start = told
        else:
            what = {"rule": "rule", "atom": "thing or predicate"}.get(kind or "", "rule, thing or predicate")
            return f"the world has no {what} {name}"
        return ""

    def term(self, text: str) -> str:
        """A value, or an atom, as people read it."""
        term = read_term(text)
        return self.phrase(term) if term else text

    def phrase(self, term: Term) -> str:
        """A term or an atom, by its template, or else by its names."""
        if term.name in self.words:
            values = {str(i): argument for i, argument in enumerate(term.arguments, 1)}
            return self.filled(self.words[term.name], values)
        return " ".join([readable(term.name), *map(self.argument, term.arguments)])

    def argument(self, term: Term) -> str:
        text = self.phrase(term)
        return f"({text})" if term.arguments and term.name not in self.words else text

    def filled(self, template: str, values: dict[str, Term]) -> str:
        """A template with the values, terms by their names, at its places."""

        def value(match: re.Match[str]) -> str:
            term = values.get(match[2])
            if term is None:
                return match[0]
            return str(chain(term)) if match[1] else self.phrase(term)

        return PLACE.sub(value, template)

    def of_offer(self, offer: str, template: Optional[str]) -> str:
        """An offer by a template of its rule, or else by its names."""
        rule, *words = words_of(offer)
        terms = {name: read_term(value) or Term(value) for name, value in values_of(words).items()}
        if template is not None:
            return sentence(self.filled(template, terms))
        return readable(rule) + ("  " if terms else "") + ", ".join(map(self.phrase, terms.values()))

    def told(self, offer: str) -> str:
        """What the step says that an offer stands for; nothing where its template is empty."""
        return self.of_offer(offer, self.rules.get(offer.split(" ")[0], (None, None))[0])

    def offered(self, offer: str) -> str:
        """How an offer reads."""
        return self.of_offer(offer, self.rules.get(offer.split(" ")[0], ("", None))[1] or None)

    def offers(self, offers: list[str]) -> list[str]:
        """How offers read, with the difference in brackets between those that would read the same."""
        texts, same = [self.offered(offer) for offer in offers], defaultdict(list)
        for number, text in enumerate(texts):
            same[text].append(number)
        for numbers in same.values():
            for number in numbers if len(numbers) > 1 else ():
                others = [offers[other] for other in numbers if other != number]
                texts[number] += f" [{self.difference(offers[number], others)}]"
        return texts

    def difference(self, offer: str, others: list[str]) -> str:
        """By what an offer differs from others: its values, or else its rule."""
        words, theirs = words_of(offer), [set(words_of(other)) for other in others]
        own = [word for word in words[1:] if any(word not in other for other in theirs)]
        rule = [readable(words[0])] if any(words[0] not in other for other in theirs) else []
        return ", ".join(rule + [self.term(value) for value in values_of(own).values()])

    def atom(self, text: str, copies: int) -> str:
        """An atom of a state."""
        said = self.term(text)
        said = sentence(said) if text.split(" ")[0] in self.words else said
        return said if copies == 1 else f"{said} (x{copies})"


def fault_of_places(template: str, world: World, rule: str) -> str:
    """Which place of a rule's template is for a variable that the rule has not."""
    unknown = sorted({match[2] for match in PLACE.finditer(template)} - set(world.variables(world.rules[rule])))
    return f"the rule {rule} has no variable {unknown[0]}" if unknown else ""
