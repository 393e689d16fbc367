"""From the bytes of a text to its items. Texts are strings of bytes: each character is one byte (latin-1)."""
import re
from dataclasses import dataclass, field
from typing import List, NamedTuple, Optional, Tuple, Union

MOST_BYTES, MOST_NAME, MOST_OPEN = 1_048_576, 255, 512
RESERVED = ("type", "pred", "bwd", "fact", "stage", "context", "qui")
GAP = re.compile(r"(?:[ \t\r\n]|%[^\n]*)*")
TOKEN = re.compile(r"(?P<Name>[a-z][A-Za-z0-9_/']*)|(?P<Variable>[A-Z][A-Za-z0-9_/']*)|(?P<Blank>_)|(?P<Number>[0-9]+)"
                   r"|(?P<Directive>\#[A-Za-z]+)|(?P<Mark>-o|<-|[:.,*$=(){}])")
REASONS = ("BadByte NameLong Unexpected Nested Twice Unknown WrongKind WrongArity TypeClash VarInContext BwdInState "
           "LinearInClause BadQui NoTrace TwoTraces Unbound Ungrounded OverLimit TooLong").split()


class Refused(Exception):
    """LANGUAGE, What is refused: the place, as bytes before it, and the number of the reason, from 1."""

    def __init__(self, at: int, number: int) -> None:
        super().__init__(at, number)
        self.at, self.number = at, number

    def line(self, text: str) -> str:
        """Lines and columns count from 1, and columns count bytes."""
        before = text[:self.at]
        line, column = before.count("\n") + 1, self.at - (before.rfind("\n") + 1) + 1
        return f"refused {line}:{column} {self.number} {REASONS[self.number - 1]}"


class Token(NamedTuple):
    """A token: its kind, which of reserved words, marks and directives is the word itself, its bytes and its place."""
    kind: str
    text: str
    at: int


def tokens_of(text: str) -> List[Token]:
    """LANGUAGE, Tokens: each token is as long as it can be; the last one stands for the end of the text."""
    if len(text) > MOST_BYTES:
        raise Refused(0, 19)
    tokens: List[Token] = []
    at = end_of_gap(text, 0)
    while at < len(text):
        found = TOKEN.match(text, at)
        if not found:
            raise Refused(at, 1)
        kind, word = str(found.lastgroup), found.group()
        if kind != "Number" and len(word) > MOST_NAME:
            raise Refused(at, 2)
        tokens.append(Token(word if kind in ("Mark", "Directive") or word in RESERVED else kind, word, at))
        at = end_of_gap(text, found.end())
    return tokens + [Token("end", "", len(text))]


def end_of_gap(text: str, at: int) -> int:
    """LANGUAGE, Tokens: what separators and comments there are from a place on end here."""
    found = GAP.match(text, at)
    return found.end() if found else at


@dataclass(frozen=True)
class Raw:
    """An atom or a term as it is written: its place, its kind (Name, Variable or Blank), its name and its arguments."""
    at: int
    kind: str
    name: str
    args: Tuple["Raw", ...]


class Declaration(NamedTuple):
    """A type, a predicate or a constructor. The kind `colon` is `x : y.`, of which the names decide what it is."""
    kind: str
    name: Token
    args: List[Token]
    type: Optional[Token]


class RawClause(NamedTuple):
    """A clause: its head, and its goals."""
    atoms: List[Raw]


@dataclass
class RawRule:
    """A rule, of a stage or an outer one: its premises with whether they have `$`, its right atoms, and what only outer
    rules have."""
    at: int
    label: Optional[Token]
    outer: bool
    left: List[Tuple[Raw, bool]] = field(default_factory=list)
    right: List[Raw] = field(default_factory=list)
    quis: int = 0
    leaves: List[Token] = field(default_factory=list)
    leads: List[Token] = field(default_factory=list)


class RawStage(NamedTuple):
    """A stage and its rules."""
    name: Token
    rules: List[RawRule]


class RawContext(NamedTuple):
    """A named list of atoms."""
    name: Token
    atoms: List[Raw]


class Interactive(NamedTuple):
    """`#interactive NAME.`"""
    stage: Token


class Trace(NamedTuple):
    """`#trace`: its place, its number, its stage, and the context or the braces with which it starts."""
    at: int
    number: Optional[Token]
    stage: Token
    context: Optional[Token]
    atoms: List[Raw]


Item = Union[Declaration, RawClause, RawRule, RawStage, RawContext, Interactive, Trace]
ARGUMENTS = ("Name", "Variable", "Blank", "(")


class Parser:
    """LANGUAGE, Grammar: a method for each form. What is wanted next is all that can stand there, so `Unexpected` is at
    the first token such that those up to it and with it begin no file."""

    def __init__(self, text: str) -> None:
        self.tokens = tokens_of(text)
        self.next = 0
        self.open = 0

    def kind(self) -> str:
        """The kind of the next token."""
        return self.tokens[self.next].kind

    def take(self, *kinds: str) -> Token:
        """The next token, which is of one of these kinds, or it is unexpected."""
        token = self.tokens[self.next]
        if token.kind not in kinds:
            raise Refused(token.at, 3)
        self.next += 1
        return token

    def has(self, kind: str) -> bool:
        """Takes the next token if it is of this kind."""
        found = self.kind() == kind
        self.next += found
        return found

    def file(self) -> List[Item]:
        """file = { item }"""
        items: List[Item] = []
        while self.kind() != "end":
            items.append(self.item())
        return items

    def item(self) -> Item:
        """item: its first token says which, but for a name and `stage`."""
        start = self.take("Name", "Blank", "stage", "context", "qui", "$", "(", "#interactive", "#trace")
        if start.kind == "context":
            name = self.take("Name")
            self.take("=")
            return self.dotted(RawContext(name, self.bag()))
        if start.kind == "#interactive":
            stage = self.take("Name")
            self.take(".")
            return Interactive(stage)
        if start.kind == "#trace":
            return self.trace(start)
        if start.kind == "stage" and self.kind() == "Name" and self.tokens[self.next + 1].kind not in ("*", "-o"):
            return self.stage()
        if start.kind == "Blank":
            self.take(":")
            return self.rule(RawRule(start.at, None, True))
        self.next -= 1
        return self.named(start) if start.kind == "Name" else self.rule(RawRule(start.at, None, True))

    def dotted(self, item: Item) -> Item:
        """A dot after an item that may have one."""
        self.has(".")
        return item

    def named(self, start: Token) -> Item:
        """An item that begins with a name: a declaration, a clause, or an outer rule, with or without a label."""
        if self.tokens[self.next + 1].kind != ":":
            return self.after_atom(start, None)
        self.next += 2
        if self.kind() in ("type", "pred", "bwd", "fact"):
            kind = self.take(self.kind()).kind
            self.take(".")
            return Declaration(kind, start, [], None)
        if self.kind() != "Name":
            return self.rule(RawRule(start.at, start, True))
        if self.tokens[self.next + 1].kind == ".":
            self.next += 2
            return Declaration("colon", start, [], self.tokens[self.next - 2])
        return self.after_atom(start, start)

    def after_atom(self, start: Token, label: Optional[Token]) -> Item:
        """What begins with an atom: a declaration if it is names alone, else a clause or an outer rule, as what follows
        the atom says."""
        first = self.next
        atom = self.atom()
        words = self.tokens[first + 1:self.next]
        if not label and words and all(word.kind == "Name" for word in words) and self.has(":"):
            kind = self.take("pred", "bwd", "fact", "Name")
            self.take(".")
            return Declaration("constructor" if kind.kind == "Name" else kind.kind, start, words, kind)
        if self.kind() in ("*", "-o"):
            self.next = first
            return self.rule(RawRule(start.at, label, True))
        return self.clause(atom)

    def clause(self, head: Raw) -> Item:
        """The rest of a clause: [ "<-" atom { ( "<-" | "," ) atom } ] "." """
        atoms, arrow = [head], self.take("<-", ".")
        while arrow.kind != ".":
            atoms.append(self.atom())
            arrow = self.take("<-", ",", ".")
        return RawClause(atoms)

    def rule(self, rule: RawRule) -> RawRule:
        """oleft "-o" oright ".", or left "-o" right "." if the rule is none of the outer ones."""
        self.left_element(rule)
        while self.take("*", "-o").kind == "*":
            self.left_element(rule)
        self.right_element(rule)
        while self.take("*", ".").kind == "*":
            self.right_element(rule)
        return rule

    def left_element(self, rule: RawRule) -> None:
        """lelem, and oelem of an outer rule."""
        token = self.take("(", "$", "Name", *(("qui", "stage") if rule.outer else ()))
        if token.kind == "(":
            self.take(")")
        elif token.kind == "qui":
            rule.quis += 1
        elif token.kind == "stage":
            rule.leaves.append(self.take("Name"))
        else:
            self.next -= token.kind == "Name"
            rule.left.append((self.atom(), token.kind == "$"))

    def right_element(self, rule: RawRule) -> None:
        """relem, and pelem of an outer rule."""
        if rule.outer and self.has("stage"):
            rule.leads.append(self.take("Name"))
        else:
            rule.right += self.state_element()

    def state_element(self) -> List[Raw]:
        """relem: no atom, or one."""
        if self.take("(", "Name").kind == "(":
            self.take(")")
            return []
        self.next -= 1
        return [self.atom()]

    def stage(self) -> Item:
        """The rest of a stage and its rules."""
        name, rules = self.take("Name"), []
        self.take("=")
        self.take("{")
        while not self.has("}"):
            label = self.take("Name")
            self.take(":")
            rules.append(self.rule(RawRule(label.at, label, False)))
        return self.dotted(RawStage(name, rules))

    def trace(self, start: Token) -> Item:
        """The rest of what is played: turns, stage, start."""
        turns = self.take("Blank", "Number")
        stage = self.take("Name")
        context = self.take("Name") if self.kind() != "{" else None
        atoms = [] if context else self.bag()
        self.take(".")
        return Trace(start.at, turns if turns.kind == "Number" else None, stage, context, atoms)

    def bag(self) -> List[Raw]:
        """bag = "{" [ relem { ( "," | "*" ) relem } ] "}" """
        self.take("{")
        atoms: List[Raw] = []
        if self.has("}"):
            return atoms
        atoms += self.state_element()
        while self.take(",", "*", "}").kind != "}":
            atoms += self.state_element()
        return atoms

    def atom(self) -> Raw:
        """atom = Name { arg }"""
        name, args = self.take("Name"), []
        while self.kind() in ARGUMENTS:
            args.append(self.argument())
        return Raw(name.at, "Name", name.text, tuple(args))

    def argument(self) -> Raw:
        """arg, and term: of open parentheses there are at most 512."""
        token = self.take(*ARGUMENTS)
        if token.kind != "(":
            return Raw(token.at, token.kind, token.text, ())
        self.open += 1
        if self.open > MOST_OPEN:
            raise Refused(token.at, 4)
        term = self.atom() if self.kind() == "Name" else self.argument()
        self.take(")")
        self.open -= 1
        return term
