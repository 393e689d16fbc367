"""The items of a world's text, as they are read: what each has, with the tokens of its names."""

from __future__ import annotations

from dataclasses import dataclass, field
from typing import Iterator, NamedTuple, Optional

from .tokens import Token

NOWHERE = Token("end", "", 0, 0, 0)


class Term:
    """An atom, a term or a variable: its name, which of a `_` is `_1`, `_2` and so on, its arguments, and the token of
    its name. Terms are equal wherever they stand."""

    __slots__ = ("name", "arguments", "token")

    def __init__(self, name: str, arguments: tuple[Term, ...] = (), token: Token = NOWHERE) -> None:
        self.name = name
        self.arguments = arguments
        self.token = token

    def __eq__(self, other: object) -> bool:
        return isinstance(other, Term) and (self.name, self.arguments) == (other.name, other.arguments)

    def __hash__(self) -> int:
        return hash((self.name, self.arguments))

    def __repr__(self) -> str:
        return f"Term({self.bare({})!r})"

    @property
    def is_variable(self) -> bool:
        """Whether it stands for any term."""
        return self.name[:1] == "_" or self.name[:1].isupper()

    def bare(self, values: dict[str, str]) -> str:
        """Its text as an atom, with the values of variables in place of these."""
        return " ".join([self.name, *(term.argument(values) for term in self.arguments)])

    def argument(self, values: dict[str, str]) -> str:
        """Its text as an argument, likewise."""
        if self.name in values:
            return values[self.name]
        return f"({self.bare(values)})" if self.arguments else self.name

    def parts(self) -> Iterator[Term]:
        """It and all terms in it, in written order."""
        waiting = [self]
        while waiting:
            term = waiting.pop()
            yield term
            waiting.extend(reversed(term.arguments))


class Element(NamedTuple):
    """What stands between the marks of a side: an `atom`, `kept` by a `$` or not, a `stage` by its name, `qui`, or
    the `unit` that stands for no atom. `first` and `last` are the numbers of its tokens, the `$` and the last one not
    counted."""

    kind: str
    term: Term
    kept: bool
    first: int
    last: int


class Declaration(NamedTuple):
    """A declared name: its kind (`type`, `predicate`, `constructor`, `stage`, `context` or `rule`), its token,
    the types of its arguments, the type of a constructor, and the word (`pred`, `bwd` or `fact`) of a predicate."""

    kind: str
    token: Token
    arguments: tuple[str, ...] = ()
    result: str = ""
    word: str = ""

    @property
    def name(self) -> str:
        """The name as it is spelt."""
        return self.token.text

    def __str__(self) -> str:
        return f"a {self.result or self.kind}, line {self.token.line}"


@dataclass(eq=False)
class Item:
    """An item, or a rule of a stage. `first` and `last` are numbers of its tokens, the last one not counted; `fault`
    is the first token that does not fit, or None: then the tokens from there on were passed over. `label` is the token
    of the name that it declares, or of its label.

    Kinds: type, predicate, constructor, clause, rule, stage, context, interactive, trace, and unread.
    """

    kind: str
    source: list[Token] = field(repr=False)
    first: int
    last: int
    fault: Optional[Token] = None
    label: Optional[Token] = None

    @property
    def name(self) -> str:
        """What it declares, or nothing; of a rule the name by which it is offered."""
        return self.label.text if self.label else ""

    @property
    def tokens(self) -> list[Token]:
        """All of its tokens, with the dot or brace that ends it."""
        return self.source[self.first : self.last]

    @property
    def start(self) -> int:
        """Where it begins, in bytes."""
        return self.source[self.first].start

    @property
    def end(self) -> int:
        """Where it ends, in bytes."""
        return self.source[self.last - 1].end

    @property
    def line(self) -> int:
        """The line in which it begins."""
        return self.source[self.first].line

    def sides(self) -> tuple[list[Token], list[Token]]:
        """The tokens before and after the arrow of a rule or a clause, without its label, the arrow and the dot."""
        found = self.tokens
        words = [token.text for token in found]
        start = 2 if words[1:2] == [":"] else 0
        stop = len(found) - (words[-1] == ".")
        mark = "-o" if self.kind == "rule" else "<-"
        arrow = words.index(mark) if mark in words else stop
        return found[start:arrow], found[arrow + 1 : stop]


@dataclass(eq=False)
class Declared(Item):
    """A type, a predicate or a constructor: `arguments` are the types of its arguments, `result` the word or the type
    after the colon."""

    arguments: tuple[Token, ...] = ()
    result: Token = NOWHERE

    @property
    def types(self) -> list[str]:
        """The names of the types of its arguments."""
        return [token.text for token in self.arguments]


@dataclass(eq=False)
class Clause(Item):
    """A clause: its head and its goals."""

    head: Term = Term("")
    goals: list[Term] = field(default_factory=list)


@dataclass(eq=False)
class Rule(Item):
    """A rule: `offered` is its name, also where it has none (`qui/1`), `stage` the stage in whose braces it stands, or
    nothing. `words` has the words by which predicates are declared, once all is read."""

    offered: str = ""
    stage: str = ""
    left: list[Element] = field(default_factory=list)
    right: list[Element] = field(default_factory=list)
    arrow: Token = NOWHERE
    words: dict[str, str] = field(default_factory=dict, repr=False)

    @property
    def name(self) -> str:
        return self.offered

    @property
    def has_qui(self) -> bool:
        """Whether it waits until no rule of its stage applies."""
        return any(element.kind == "qui" for element in self.left)

    @property
    def from_stage(self) -> str:
        """The stage that it leaves, or nothing."""
        return next((e.term.name for e in self.left if e.kind == "stage"), "")

    @property
    def next_stage(self) -> str:
        """The stage that it leads to, or nothing."""
        return next((e.term.name for e in self.right if e.kind == "stage"), "")

    @property
    def premises(self) -> list[Element]:
        """The atoms of its left side, in written order."""
        return [element for element in self.left if element.kind == "atom"]

    def role(self, premise: Element) -> str:
        """What it does with an atom of its left side: `taken`, `kept` or `asked`."""
        word = self.words.get(premise.term.name)
        if word == "bwd":
            return "asked"
        return "kept" if premise.kept or word == "fact" else "taken"

    @property
    def taken(self) -> list[Term]:
        """The atoms that it takes."""
        return [premise.term for premise in self.premises if self.role(premise) == "taken"]

    @property
    def kept(self) -> list[Term]:
        """The atoms that it needs and keeps."""
        return [premise.term for premise in self.premises if self.role(premise) == "kept"]

    @property
    def asked(self) -> list[Term]:
        """Its backward premises."""
        return [premise.term for premise in self.premises if self.role(premise) == "asked"]

    @property
    def put(self) -> list[Term]:
        """The atoms of its right side."""
        return [element.term for element in self.right if element.kind == "atom"]


@dataclass(eq=False)
class Stage(Item):
    """A stage and its rules."""

    rules: list[Rule] = field(default_factory=list)


@dataclass(eq=False)
class Bag(Item):
    """A context, or `#trace`: its atoms; of `#trace` also the number, and the stage and the context by their tokens.
    A name without arguments among the atoms may be a context's."""

    atoms: list[Term] = field(default_factory=list)
    turns: Optional[Token] = None
    stage: Optional[Token] = None
    context: Optional[Token] = None
