"""Reads the items of any text. A text that the program accepts is read as its grammar says; of another one what does
not fit is marked, and the reading goes on at the next item.

Where an item does not fit, a line that begins no further to the right than the item is likely the next one: then the
item is read again up to there alone. So a missing dot costs no more than its own item.
"""

from __future__ import annotations

from typing import Optional

from .items import NOWHERE, Bag, Clause, Declared, Element, Item, Rule, Stage, Term
from .tokens import KINDS, VALUES, Token, tokens

# How many parentheses may be open at once, as the program has it.
DEPTH = 512

# How many tokens may be read twice, in all: after that what does not fit is passed over up to a dot or a brace.
READ_TWICE = 50_000


class Fault(Exception):
    """The token at hand does not fit."""


class Cursor:
    """A place among tokens, with what the grammar's smallest parts are read by."""

    def __init__(self, found: list[Token]) -> None:
        last = found[-1] if found else Token("end", "", 1, 1, 0)
        self.tokens = found
        self.last = Token("end", "", last.line, last.column + len(last.text), last.end)
        self.at = 0
        self.stop = len(found)
        self.blanks = 0

    def here(self) -> Token:
        """The token at hand, or the end of the text, also where the reading is to stop here."""
        return self.tokens[self.at] if self.at < len(self.tokens) else self.last

    def peek(self, ahead: int = 0) -> Token:
        """The token so many places on, or one of the kind `end`."""
        place = self.at + ahead
        return self.tokens[place] if place < self.stop else NOWHERE

    def next(self) -> Token:
        """The token at hand, which is passed."""
        token = self.peek()
        self.at += token is not NOWHERE
        return token

    def skip(self, text: str) -> bool:
        """Passes the token if it is spelt so."""
        if self.peek().text == text:
            self.at += 1
            return True
        return False

    def take(self, text: str) -> Token:
        """Passes the token that has to be spelt so."""
        if self.peek().text != text:
            raise Fault
        return self.next()

    def take_name(self) -> Token:
        """Passes the name that has to stand here."""
        if self.peek().kind != "name":
            raise Fault
        return self.next()

    def value(self, token: Token) -> Term:
        """A name without arguments, a variable or a blank."""
        if token.kind == "blank":
            self.blanks += 1
            return Term(f"_{self.blanks}", (), token)
        return Term(token.text, (), token)

    def atom(self) -> Term:
        """A name and its arguments, of which those in parentheses may be nested as deep as the program has it."""
        heads: list[Optional[Token]] = [self.take_name()]
        arguments: list[list[Term]] = [[]]
        while True:
            token, head = self.peek(), heads[-1]
            if head is None and arguments[-1] and token.text != ")":
                raise Fault
            if token.kind in VALUES:
                self.at += 1
                arguments[-1].append(self.value(token))
            elif token.text == "(":
                self.at += 1
                self.open_term(heads, arguments)
            elif len(heads) == 1 and head is not None:
                return Term(head.text, tuple(arguments[0]), head)
            elif token.text == ")":
                self.at += 1
                heads.pop()
                term = self.closed(head, arguments.pop())
                arguments[-1].append(term)
            else:
                raise Fault

    def open_term(self, heads: list[Optional[Token]], arguments: list[list[Term]]) -> None:
        """What stands first after a parenthesis: a name, a variable or a blank alone, or one more parenthesis."""
        token = self.peek()
        if len(heads) > DEPTH or (token.kind not in VALUES and token.text != "("):
            raise Fault
        if token.text == "(":
            heads.append(None)
        else:
            self.at += 1
            if token.kind != "name" and self.peek().text != ")":
                raise Fault
            heads.append(token)
        arguments.append([])

    def closed(self, head: Optional[Token], arguments: list[Term]) -> Term:
        """The term in parentheses that ends here."""
        if head is None:
            return arguments[0]
        return Term(head.text, tuple(arguments), head) if head.kind == "name" else self.value(head)


def read_atom(text: str) -> Optional[Term]:
    """The atom of such a text alone, or None."""
    cursor = Cursor(tokens(text))
    try:
        atom = cursor.atom()
    except Fault:
        return None
    return atom if cursor.at == len(cursor.tokens) else None


def read_term(text: str) -> Optional[Term]:
    """The term or variable of such a text alone, with parentheses around it or without, or None."""
    atom = read_atom(f"of ({text})")
    return atom.arguments[0] if atom and len(atom.arguments) == 1 else None


class Parser(Cursor):
    """Reads items one after another."""

    def __init__(self, found: list[Token]) -> None:
        super().__init__(found)
        self.left_over = READ_TWICE
        self.unlabelled = 0
        self.words: dict[str, str] = {}

    def items(self) -> list[Item]:
        """All items of the text."""
        found: list[Item] = []
        while self.at < len(self.tokens):
            found.append(self.whole_item())
        return found

    def whole_item(self) -> Item:
        """The item at hand; where it does not fit, up to the line that seems to begin the next one."""
        first, unlabelled = self.at, self.unlabelled
        item = self.item()
        limit = self.next_item(first, self.at) if item.fault and self.left_over > 0 else self.at
        if limit < self.at:
            self.left_over -= self.at - first
            self.at, self.stop, self.unlabelled = first, limit, unlabelled
            item = self.item()
            self.stop = len(self.tokens)
        return item

    def next_item(self, first: int, last: int) -> int:
        """The number of the first token after this one that seems to begin an item, or the last one."""
        column, braces = self.tokens[first].column, 0
        for number in range(first + 1, last):
            token, previous = self.tokens[number], self.tokens[number - 1]
            braces += (token.text == "{") - (token.text == "}")
            if token.line > previous.line and token.column <= column:
                if token.kind == "directive" or token.text in ("context", "stage") and self.is_block(number):
                    return number
                if braces <= 0 and token.kind in ("name", "reserved") and previous.text not in ("*", ",", "-o", "<-"):
                    return number
                if braces > 0 and token.kind == "name" and self.declares(number):
                    return number
        return last

    def is_block(self, number: int) -> bool:
        """Whether `stage` or `context` at a place begins an item of its own."""
        return [token.text for token in self.tokens[number + 2 : number + 3]] in (["="], ["{"])

    def declares(self, number: int) -> bool:
        """Whether the names that begin at a place declare a type or a predicate."""
        while number < len(self.tokens) and self.tokens[number].kind == "name":
            number += 1
        words = [token.text for token in self.tokens[number : number + 2]]
        return words[:1] == [":"] and words[1:] != [] and words[1] in ("type", *KINDS)

    def item(self) -> Item:
        """The item at hand, with a fault where it does not fit."""
        self.blanks = 0
        token, after = self.peek(), self.peek(2).text
        if token.text == "stage" and after in ("=", "{"):
            return self.stage()
        if token.text == "context" or token.kind == "directive":
            return self.bag()
        return self.named_item()

    def failed(self, item: Item, in_stage: bool = False) -> None:
        """Marks what does not fit, and passes over what is left of the item."""
        item.fault = self.here()
        while self.at < self.stop and not (in_stage and self.peek().text == "}"):
            if self.next().text in (".", "}"):
                break
        item.last = max(self.at, item.first + 1)
        self.at = item.last

    def named_item(self) -> Item:
        """A declaration, a clause or an outer rule."""
        first = self.at
        names = 0
        while self.peek(names).kind == "name":
            names += 1
        if names and self.peek(names).text == ":":
            after, ended = self.peek(names + 1), self.peek(names + 2)
            if after.text in ("type", *KINDS) or names > 1:
                return self.declaration(names)
            if after.kind == "name" and (ended.text == "." or ended is NOWHERE):
                return self.declaration(names)
        label = None
        if self.peek(1).text == ":" and self.peek().kind in ("name", "blank"):
            label = self.next()
            self.at += 1
        if self.peek().text in ("$", "qui", "stage", "(", "-o"):
            return self.outer_rule(first, label, [])
        return self.clause_or_rule(first, label)

    def declaration(self, names: int) -> Declared:
        """A type, a predicate or a constructor. What `x : y.` is, the world decides once all is read."""
        first = self.at
        row = [self.next() for _ in range(names)]
        self.at += 1
        word = self.peek()
        kind = "predicate" if word.text in KINDS else "type" if word.text == "type" else "constructor"
        item = Declared(kind, self.tokens, first, first + 1, None, row[0], tuple(row[1:]), word)
        if kind == "constructor" and word.kind != "name":
            item.result = NOWHERE
            self.failed(item)
            return item
        self.at += 1
        if kind == "predicate":
            self.words.setdefault(item.name, word.text)
        return self.ended(item)

    def ended(self, item: Declared) -> Declared:
        """A declaration up to its dot."""
        if item.kind == "type" and item.arguments:
            item.fault = item.arguments[0]
        if self.skip("."):
            item.last = self.at
            return item
        self.failed(item)
        return item

    def clause_or_rule(self, first: int, label: Optional[Token]) -> Item:
        """What begins with an atom: the mark after it decides."""
        clause = Clause("clause", self.tokens, first, first + 1, None, label)
        begin = self.at
        try:
            clause.head = self.atom()
            if self.peek().text in ("-o", "*"):
                return self.outer_rule(first, label, [Element("atom", clause.head, False, begin, self.at)])
            if self.skip("<-"):
                clause.goals.append(self.atom())
                while self.skip("<-") or self.skip(","):
                    clause.goals.append(self.atom())
            self.take(".")
            clause.last = self.at
        except Fault:
            clause.kind = "clause" if clause.head.name else "unread"
            self.failed(clause)
        return clause

    def outer_rule(self, first: int, label: Optional[Token], read: list[Element]) -> Rule:
        """A rule outside of stages, of which the first element may be read already."""
        name = label.text if label and label.kind == "name" else ""
        if not name:
            self.unlabelled += 1
        rule = Rule("rule", self.tokens, first, first + 1, None, label, name or f"qui/{self.unlabelled}")
        rule.left, rule.words = read, self.words
        self.sides(rule)
        return rule

    def sides(self, rule: Rule) -> None:
        """Both sides of a rule, and its dot."""
        try:
            if not rule.left:
                rule.left.append(self.element(rule))
            while self.skip("*"):
                rule.left.append(self.element(rule))
            rule.arrow = self.take("-o")
            rule.right.append(self.right_element(rule))
            while self.skip("*"):
                rule.right.append(self.right_element(rule))
            self.take(".")
            rule.last = self.at
        except Fault:
            self.failed(rule, rule.stage != "")

    def element(self, rule: Rule) -> Element:
        """An element of a left side: `qui` stands in outer rules alone."""
        token = self.peek()
        if not rule.stage and self.skip("qui"):
            return Element("qui", Term(token.text, (), token), False, self.at - 1, self.at)
        if self.skip("$"):
            first = self.at
            return Element("atom", self.atom(), True, first, self.at)
        return self.right_element(rule)

    def right_element(self, rule: Rule) -> Element:
        """An element that may stand on a right side too: stages stand in outer rules alone."""
        token, first = self.peek(), self.at
        if not rule.stage and self.skip("stage"):
            name = self.take_name()
            return Element("stage", Term(name.text, (), name), False, first, self.at)
        if self.skip("("):
            self.take(")")
            return Element("unit", Term("()", (), token), False, first, self.at)
        return Element("atom", self.atom(), False, first, self.at)

    def stage(self) -> Stage:
        """A stage, and the rules in its braces."""
        item = Stage("stage", self.tokens, self.at, self.at + 1)
        try:
            self.at += 1
            item.label = self.take_name()
            if not self.skip("="):
                item.fault = self.here()
            self.take("{")
        except Fault:
            self.failed(item)
            return item
        while self.peek() is not NOWHERE and not self.skip("}"):
            rule = self.rule(item.name)
            item.rules.append(rule)
            if rule.fault and self.ends_stage(rule, item):
                break
        if self.tokens[self.at - 1].text != "}":
            item.fault = item.fault or self.here()
        else:
            self.skip(".")
        item.last = self.at
        return item

    def ends_stage(self, rule: Rule, stage: Stage) -> bool:
        """Whether what was read as a rule of a stage is likely the next item, since a brace is missing: then it is
        taken back."""
        token, fault = self.tokens[rule.first], rule.fault
        outside = token.kind in ("directive", "reserved") or self.declares(rule.first)
        outside = outside or (fault is not None and fault.text in ("qui", "stage"))
        outside = outside or self.tokens[stage.rules[0].first].column > token.column
        if not outside or token.column > self.tokens[stage.first].column:
            return False
        stage.rules.pop()
        stage.fault = token
        self.at = rule.first
        return True

    def rule(self, stage: str) -> Rule:
        """A rule of a stage; where it does not fit, up to the line that seems to begin the next one."""
        first = self.at
        rule = self.one_rule(first, stage)
        limit = self.next_rule(first, self.at) if rule.fault and self.left_over > 0 else self.at
        if limit < self.at:
            self.left_over -= self.at - first
            stop, self.stop, self.at = self.stop, limit, first
            rule = self.one_rule(first, stage)
            self.stop = stop
        return rule

    def one_rule(self, first: int, stage: str) -> Rule:
        """A rule of a stage as it stands."""
        self.blanks = 0
        rule = Rule("rule", self.tokens, first, first + 1, stage=stage, words=self.words)
        try:
            rule.label = self.take_name()
            rule.offered = rule.label.text
            self.take(":")
        except Fault:
            self.failed(rule, True)
            return rule
        self.sides(rule)
        return rule

    def next_rule(self, first: int, last: int) -> int:
        """The number of the first token after this one that begins a line and a rule, or the last one."""
        for number in range(first + 1, last):
            token, previous = self.tokens[number], self.tokens[number - 1]
            if token.line > previous.line:
                label = token.kind == "name" and self.tokens[number + 1 : number + 2]
                outer = token.column <= self.tokens[first].column and token.kind in ("directive", "reserved")
                if outer or label and label[0].text == ":":
                    return number
        return last

    def bag(self) -> Item:
        """A context, or a directive."""
        token = self.peek()
        kind = {"context": "context", "#trace": "trace", "#interactive": "interactive"}.get(token.text, "unread")
        item = Bag(kind, self.tokens, self.at, self.at + 1)
        self.at += 1
        try:
            if kind == "context":
                item.label = self.take_name()
                if not self.skip("="):
                    item.fault = self.here()
                self.braces(item)
                self.skip(".")
            elif kind == "unread":
                self.at -= 1
                raise Fault
            else:
                self.directive(item)
                self.take(".")
            item.last = self.at
        except Fault:
            self.failed(item)
        return item

    def directive(self, item: Bag) -> None:
        """What stands between the word of a directive and its dot."""
        if item.kind == "interactive":
            item.stage = self.take_name()
            return
        if self.peek().kind not in ("number", "blank"):
            raise Fault
        item.turns = self.next()
        item.stage = self.take_name()
        if self.peek().kind == "name":
            item.context = self.next()
        else:
            self.braces(item)

    def braces(self, item: Bag) -> None:
        """The atoms between braces. What does not fit there is passed over up to the next atom."""
        self.take("{")
        if self.skip("}"):
            return
        while True:
            try:
                if self.peek().text == "(" and self.peek(1).text == ")":
                    self.at += 2
                else:
                    item.atoms.append(self.atom())
                if self.skip("}"):
                    return
                if not (self.skip(",") or self.skip("*")):
                    raise Fault
            except Fault:
                item.fault = item.fault or self.here()
                if not self.next_atom():
                    return

    def next_atom(self) -> bool:
        """Whether a further atom stands in the braces, up to which all is passed over."""
        while self.at < self.stop:
            token = self.next()
            if token.text == "}":
                return False
            if token.text == "." and self.peek().line != token.line:
                self.at -= 1
                return False
            if token.text in (",", "*", "."):
                return self.peek() is not NOWHERE
        return False
