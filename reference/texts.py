"""The texts of terms, atoms, offers and derivations, and how they are read: FORMATS, Terms, atoms and offers."""
import re
from typing import List, Optional, Sequence, Tuple

from reference.derive import Derivation
from reference.program import Program, State, Variable
from reference.steps import Offer
from reference.terms import MOST_DEPTH, MOST_NODES, Node, is_fit, size

DECIMAL = re.compile(r"0|[1-9][0-9]*")
PART = re.compile(r"[()\[\] =]|[^()\[\] =]+")


def number_of(text: str, least: int, most: int) -> Optional[int]:
    """A number in decimal without leading zeros, within bounds."""
    if len(text) > 20 or not DECIMAL.fullmatch(text):
        return None
    return int(text) if least <= int(text) <= most else None


class Texts:
    """The texts of a program's values."""

    def __init__(self, program: Program) -> None:
        self.program = program

    def term(self, term: Node) -> str:
        """The form of a term as an argument."""
        name = self.program.constructors[term[0]].name
        return name if len(term) == 1 else f"({' '.join([name] + [self.term(arg) for arg in term[1:]])})"

    def atom(self, atom: Node) -> str:
        """A predicate's name, and one space before each argument."""
        return " ".join([self.program.predicates[atom[0]].name] + [self.term(arg) for arg in atom[1:]])

    def values(self, variables: List[Variable], values: Sequence[Node]) -> List[str]:
        """For each variable in order the variable, `=` and its value."""
        return [f"{variable.name}={self.term(value)}" for variable, value in zip(variables, values)]

    def offer(self, offer: Offer) -> str:
        """The rule's name, and the values."""
        rule = self.program.rules[offer.rule]
        return " ".join([rule.name] + self.values(rule.variables, offer.values))

    def proof(self, proof: Derivation) -> str:
        """The clause's number counted from 1, the values, and the goals' derivations, in brackets."""
        variables = self.program.clauses[proof.clause].variables
        goals = [self.proof(goal) for goal in proof.goals]
        return f"[{' '.join([str(proof.clause + 1)] + self.values(variables, proof.values) + goals)}]"

    def listing(self, state: State) -> List[str]:
        """One line for each atom that is there, in order, with its copies."""
        return [f"have {copies} {self.atom(atom)}" for atom, copies in sorted(state.items())]

    def header(self, height: int, stage: int, state: State) -> List[str]:
        """FORMATS, The transcript: the lines with which one begins."""
        return ["ceptre 2", f"height {height}", f"stage {self.program.stages[stage]}"] + self.listing(state)

    def step(self, offer: Offer, proofs: List[Derivation], leads: Optional[int], state: State,
             number: int) -> List[str]:
        """The lines of a step of this number, and after each hundredth the listing of the state."""
        lines = [f"step {self.offer(offer)}"] + [f"by {self.proof(proof)}" for proof in proofs]
        lines += [] if leads is None else [f"stage {self.program.stages[leads]}"]
        return lines + ([f"state {number}"] + self.listing(state) if number % 100 == 0 else [])


class Misread(Exception):
    """The bytes are the text of no such value."""


class Reader:
    """Reads exactly the texts above. In each value are at most 65,536 nodes, and its depth is at most 512."""

    def __init__(self, program: Program, text: str) -> None:
        self.program = program
        self.parts: List[str] = PART.findall(text)
        self.next = 0

    def take(self, wanted: Optional[str] = None) -> str:
        """The next part, which is this one if one is named."""
        if self.next >= len(self.parts) or wanted not in (None, self.parts[self.next]):
            raise Misread
        self.next += 1
        return self.parts[self.next - 1]

    def ends(self) -> None:
        """Nothing more stands there."""
        if self.next < len(self.parts):
            raise Misread

    def peek(self) -> str:
        """The next part, or nothing."""
        return self.parts[self.next] if self.next < len(self.parts) else ""

    def term(self, wanted: int, depth: int = 1) -> Node:
        """The argument form of a term of this type."""
        bracket = self.peek() == "("
        self.next += bracket
        name = self.take()
        numbers = [number for number, each in enumerate(self.program.constructors) if each.name == name]
        if not numbers or self.program.constructors[numbers[0]].type != wanted or depth > MOST_DEPTH:
            raise Misread
        args = self.arguments(self.program.constructors[numbers[0]].args, depth + 1)
        if bracket:
            self.take(")")
        if bracket != bool(args):
            raise Misread
        return (numbers[0],) + args

    def arguments(self, wanted: Tuple[int, ...], depth: int) -> Tuple[Node, ...]:
        """One space before each argument."""
        found: List[Node] = []
        for each in wanted:
            self.take(" ")
            found.append(self.term(each, depth))
        return tuple(found)

    def atom(self) -> Node:
        """An atom of any predicate, which is fit."""
        name = self.take()
        numbers = [number for number, each in enumerate(self.program.predicates) if each.name == name]
        if not numbers:
            raise Misread
        atom = (numbers[0],) + self.arguments(self.program.predicates[numbers[0]].args, 2)
        if not is_fit(atom):
            raise Misread
        return atom

    def values(self, variables: List[Variable]) -> Tuple[Node, ...]:
        """A value of the right type for each variable, in order."""
        found: List[Node] = []
        for variable in variables:
            self.take(" ")
            self.take(variable.name)
            self.take("=")
            found.append(self.term(variable.type))
            if size(found[-1]).nodes > MOST_NODES:
                raise Misread
        return tuple(found)

    def offer(self) -> Offer:
        """An offer of a rule that there is."""
        name = self.take()
        number = [rule.name for rule in self.program.rules].index(name)
        return Offer(number, self.values(self.program.rules[number].variables))

    def proof(self, opened: int = 1) -> Derivation:
        """A derivation, with at most 512 brackets open at once: a clause, its values, and one derivation for each
        goal."""
        self.take("[")
        number = number_of(self.take(), 1, len(self.program.clauses))
        if opened > 512 or number is None:
            raise Misread
        clause = self.program.clauses[number - 1]
        values, goals = self.values(clause.variables), []
        for _ in clause.goals:
            self.take(" ")
            goals.append(self.proof(opened + 1))
        self.take("]")
        return Derivation(number - 1, values, tuple(goals))
