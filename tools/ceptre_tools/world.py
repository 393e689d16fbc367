"""A world's text as scripts and editors ask for it: its items, what is declared, and what is used where.

Any text has a world. Whether it is accepted is for the program alone to say: an item that does not fit has a `fault`,
and a name that is declared nowhere is used all the same.
"""

from __future__ import annotations

from bisect import bisect_left, bisect_right
from functools import cached_property
from typing import Iterator, NamedTuple, Optional

from .items import NOWHERE, Bag, Clause, Declaration, Declared, Item, Rule, Stage, Term
from .parser import Parser, read_atom, read_term
from .tokens import Token, in_one_line, tokens_and_comments

__all__ = ["SPACES", "Use", "World", "read_atom", "read_term", "read_world"]

# The spaces of names. One name may stand in several.
SPACES = ("type", "constructor", "predicate", "stage", "context", "rule")


class Use(NamedTuple):
    """A name, a variable or a blank where it stands: its space (or `variable`), what it is there for, and its item.
    The name of a blank is `_1`, `_2` and so on.

    Roles: declared; argument and result of types; taken, kept, asked, made, head, goal and start of predicates, and
    of what stands in their atoms; leaves, leads, interactive and trace of stages; start of contexts.
    """

    name: str
    token: Token
    space: str
    role: str
    item: Item


def declaration_of(item: Item) -> Declaration:
    """What an item declares."""
    label = item.label or NOWHERE
    if not isinstance(item, Declared):
        return Declaration(item.kind, label)
    types, word = tuple(item.types), item.result.text
    if item.kind == "predicate":
        return Declaration(item.kind, label, types, word=word)
    return Declaration(item.kind, label, types, word if item.kind == "constructor" else "")


class World:
    """The world of any text."""

    def __init__(self, text: str) -> None:
        self.text = text
        self.tokens, self.comments = tokens_and_comments(text)
        parser = Parser(self.tokens)
        self.items = parser.items()
        self.words = parser.words
        self.spaces: dict[str, dict[str, Item]] = {space: {} for space in SPACES}
        self.starts_of_atoms: dict[Bag, list[int]] = {}
        self.settle_labels()
        for item in self.parts():
            if item.kind in SPACES and item.name:
                self.spaces[item.kind].setdefault(item.name, item)

    def parts(self) -> Iterator[Item]:
        """All items, and the rules of a stage after the stage."""
        for item in self.items:
            yield item
            if isinstance(item, Stage):
                yield from item.rules

    def settle_labels(self) -> None:
        """What `x : y.` is: a clause with a label if `y` is a predicate and no type, and else a constructor."""
        types = {item.name for item in self.items if item.kind == "type"}
        for number, item in enumerate(self.items):
            if isinstance(item, Declared) and item.kind == "constructor" and not item.arguments:
                word = item.result.text
                if word in self.words and word not in types:
                    clause = Clause("clause", item.source, item.first, item.last, item.fault, item.label)
                    clause.head = Term(word, (), item.result)
                    self.items[number] = clause

    def find(self, space: str, name: str) -> Optional[Item]:
        """The first item that declares a name in a space."""
        return self.spaces[space].get(name)

    def of_space(self, space: str) -> dict[str, Item]:
        """What a space has, by its names, in the order of their first declarations."""
        return self.spaces[space]

    def head(self, space: str, name: str) -> Optional[Declared]:
        """The declaration of a predicate or a constructor."""
        found = self.find(space, name)
        return found if isinstance(found, Declared) else None

    @cached_property
    def declarations(self) -> list[Declaration]:
        """All that is declared, what is declared twice too, in the order of the text."""
        return [declaration_of(item) for item in self.parts() if item.label and item.kind in SPACES]

    @cached_property
    def predicates(self) -> dict[str, Declaration]:
        """The predicates by their names, in the order that listings have."""
        return {name: declaration_of(item) for name, item in self.of_space("predicate").items()}

    @cached_property
    def constructors(self) -> dict[str, Declaration]:
        """The constructors by their names, in the order that listings have."""
        return {name: declaration_of(item) for name, item in self.of_space("constructor").items()}

    @cached_property
    def rules(self) -> dict[str, Rule]:
        """The rules by the names under which they are offered, in written order."""
        return {name: item for name, item in self.of_space("rule").items() if isinstance(item, Rule)}

    @cached_property
    def stages(self) -> dict[str, Stage]:
        """The stages by their names."""
        return {name: item for name, item in self.of_space("stage").items() if isinstance(item, Stage)}

    @cached_property
    def contexts(self) -> dict[str, Bag]:
        """The contexts by their names."""
        return {name: item for name, item in self.of_space("context").items() if isinstance(item, Bag)}

    @cached_property
    def clauses(self) -> list[Clause]:
        """All clauses, in written order: the first is number 1 of a derivation."""
        return [item for item in self.items if isinstance(item, Clause) and item.kind == "clause"]

    @cached_property
    def trace(self) -> Optional[Bag]:
        """The first `#trace`, or None."""
        return next((item for item in self.items if isinstance(item, Bag) and item.kind == "trace"), None)

    @cached_property
    def interactive(self) -> list[str]:
        """The stages in which the player chooses."""
        bags = (item for item in self.items if isinstance(item, Bag) and item.kind == "interactive")
        return [bag.stage.text for bag in bags if bag.stage]

    @property
    def unread(self) -> list[Item]:
        """The items that do not fit the grammar, as far as this reader sees it."""
        return [item for item in self.parts() if item.fault]

    def atoms(self, item: Item) -> Iterator[tuple[str, Term]]:
        """The atoms of an item, each with its role, in written order."""
        if isinstance(item, Rule):
            yield from ((item.role(premise), premise.term) for premise in item.premises)
            yield from (("made", term) for term in item.put)
        elif isinstance(item, Clause) and item.head.name:
            yield "head", item.head
            yield from (("goal", goal) for goal in item.goals)
        elif isinstance(item, Bag):
            yield from (("start", atom) for atom in item.atoms)

    def is_context(self, item: Item, atom: Term) -> bool:
        """Whether a name in the braces of `#trace` stands for a context's atoms."""
        if item.kind != "trace" or atom.arguments or atom.name in self.words:
            return False
        return atom.name in self.spaces["context"]

    def typed(self, atom: Term) -> Iterator[tuple[Term, str]]:
        """Each term within an atom with the type that is wanted there, or nothing where that is not known."""
        waiting = [(atom, "predicate", "")]
        while waiting:
            term, space, wanted = waiting.pop()
            if term is not atom:
                yield term, wanted
            if term.arguments:
                declared = self.head(space, term.name)
                types = declared.types if declared else []
                types = types + [""] * (len(term.arguments) - len(types))
                further = [(part, "constructor", kind) for part, kind in zip(term.arguments, types)]
                waiting.extend(reversed(further))

    def variables(self, item: Item) -> dict[str, str]:
        """The variables and blanks of a rule or a clause in the order in which they first stand, each with its type:
        the first that is wanted of it and known, or nothing."""
        found: dict[str, str] = {}
        for _, atom in self.atoms(item):
            for term, wanted in self.typed(atom):
                if term.is_variable:
                    found[term.name] = found.get(term.name) or wanted
        return found

    def uses_of(self, item: Item) -> Iterator[Use]:
        """All names of an item, but for those of a stage's rules."""
        if item.label and item.kind in SPACES and item.label.kind == "name" and not isinstance(item, Bag):
            yield Use(item.name, item.label, item.kind, "declared", item)
        if isinstance(item, Declared):
            yield from (Use(token.text, token, "type", "argument", item) for token in item.arguments)
            if item.kind == "constructor" and item.result.kind == "name":
                yield Use(item.result.text, item.result, "type", "result", item)
        elif isinstance(item, Rule):
            for side, role in ((item.left, "leaves"), (item.right, "leads")):
                yield from (Use(e.term.name, e.term.token, "stage", role, item) for e in side if e.kind == "stage")
        elif isinstance(item, Bag):
            yield from self.uses_of_words(item)
        for role, atom in self.atoms(item):
            yield from self.uses_of_atom(item, role, atom)

    def uses_of_words(self, item: Bag) -> Iterator[Use]:
        """The names of a context or a directive outside of its atoms."""
        if item.label:
            yield Use(item.name, item.label, "context", "declared", item)
        if item.stage:
            yield Use(item.stage.text, item.stage, "stage", item.kind, item)
        if item.context:
            yield Use(item.context.text, item.context, "context", "start", item)

    def uses_of_atom(self, item: Item, role: str, atom: Term) -> Iterator[Use]:
        """The names of an atom."""
        space = "context" if self.is_context(item, atom) else "predicate"
        yield Use(atom.name, atom.token, space, role, item)
        for argument in atom.arguments:
            for term in argument.parts():
                yield Use(term.name, term.token, "variable" if term.is_variable else "constructor", role, item)

    @cached_property
    def uses(self) -> list[Use]:
        """All names, variables and blanks where they stand, in the order of the text."""
        return sorted((use for item in self.parts() for use in self.uses_of(item)), key=lambda use: use.token.start)

    def use_at(self, offset: int) -> Optional[Use]:
        """What is named at so many bytes from the beginning: at its end too."""
        item = self.part_at(offset)
        if item is None:
            return None
        found = [use for use in self.uses_near(item, offset) if use.token.start <= offset <= use.token.end]
        found.sort(key=lambda use: (use.token.kind != "blank", use.token.start))
        return found[-1] if found else None

    def uses_near(self, item: Item, offset: int) -> Iterator[Use]:
        """The uses of an item; of the atoms between braces those of the ones next to a place."""
        if not isinstance(item, Bag):
            yield from self.uses_of(item)
            return
        yield from self.uses_of_words(item)
        number = bisect_right(self.atom_starts(item), offset)
        for atom in item.atoms[max(0, number - 2) : number]:
            yield from self.uses_of_atom(item, "start", atom)

    def atom_starts(self, item: Bag) -> list[int]:
        """Where the atoms between braces begin."""
        if item not in self.starts_of_atoms:
            self.starts_of_atoms[item] = [atom.token.start for atom in item.atoms]
        return self.starts_of_atoms[item]

    @cached_property
    def by_name(self) -> dict[tuple[str, str], list[Use]]:
        """All uses of names, by space and name."""
        found: dict[tuple[str, str], list[Use]] = {}
        for use in self.uses:
            if use.space != "variable":
                found.setdefault((use.space, use.name), []).append(use)
        return found

    def uses_like(self, use: Use) -> list[Use]:
        """All uses of the same name in its space; of a variable those in its rule or clause."""
        if use.space == "variable":
            others = (other for other in self.uses_of(use.item) if other.space == "variable")
            return [other for other in others if other.name == use.name]
        return self.by_name[use.space, use.name]

    @cached_property
    def all_parts(self) -> list[Item]:
        """All items and rules, by their beginnings."""
        return list(self.parts())

    @cached_property
    def part_starts(self) -> list[int]:
        """Where each of these begins."""
        return [item.start for item in self.all_parts]

    def part_at(self, offset: int) -> Optional[Item]:
        """The innermost item or rule in which a place is, its edges too, or None between items."""
        number = bisect_right(self.part_starts, offset)
        for item in reversed(self.all_parts[max(0, number - 2) : number]):
            if item.start <= offset <= item.end:
                return item
        inside = [item for item in self.all_parts[:number] if isinstance(item, Stage) and offset <= item.end]
        return inside[-1] if inside else None

    def comments_before(self, item: Item) -> list[Token]:
        """The comments in lines of their own between an item and the token before it."""
        before = self.tokens[item.first - 1] if item.first else None
        start, line = (before.end, before.line) if before else (0, 0)
        first, last = bisect_left(self.comment_starts, start), bisect_left(self.comment_starts, item.start)
        return [comment for comment in self.comments[first:last] if comment.line > line]

    @cached_property
    def comment_starts(self) -> list[int]:
        """Where each comment begins."""
        return [comment.start for comment in self.comments]

    def token_at(self, offset: int) -> Optional[Token]:
        """The token that a place is in, or that ends there."""
        number = bisect_right(self.token_starts, offset) - 1
        token = self.tokens[number] if number >= 0 else None
        return token if token and offset <= token.end else None

    @cached_property
    def token_starts(self) -> list[int]:
        """Where each token begins."""
        return [token.start for token in self.tokens]

    def prepared(self) -> World:
        """The same, with all that is else computed when it is first asked for."""
        for _ in (self.by_name, self.part_starts, self.token_starts, self.comment_starts):
            pass
        for _ in (self.rules, self.interactive, self.trace):
            pass
        for item in self.items:
            if isinstance(item, Bag):
                self.atom_starts(item)
        return self

    def text_of(self, item: Item) -> str:
        """The text of an item in one line, without comments."""
        return in_one_line(self.text[item.start : item.end])


def read_world(text: str) -> World:
    """The world of a text."""
    return World(text)
