"""Which text is which program: LANGUAGE, What a world is and What is refused; MODEL, Programs."""
from collections import Counter
from itertools import combinations
from typing import Dict, FrozenSet, List, NamedTuple, Optional, Set, Tuple

from reference.grammar import Parser, Raw, RawRule, Refused
from reference.names import Names, turns_of
from reference.terms import Node, Term, variables_of

State = Dict[Node, int]


class Constructor(NamedTuple):
    """A constructor: its name, its arguments' types, and the type of what it makes."""
    name: str
    args: Tuple[int, ...]
    type: int


class Predicate(NamedTuple):
    """A predicate: its name, its kind (pred, fact or bwd), and its arguments' types."""
    name: str
    kind: str
    args: Tuple[int, ...]


class Variable(NamedTuple):
    """A variable, by its name and its type."""
    name: str
    type: int


class Rule(NamedTuple):
    """A rule. Its group is `2k` if it is of stage k, and `2k + 1` if it leaves stage k; then it leads to a stage."""
    name: str
    group: int
    premises: List[Node]
    kept: List[bool]
    backward: List[Node]
    right: List[Node]
    variables: List[Variable]
    leads: Optional[int]


class Clause(NamedTuple):
    """A clause: its head, its goals and its variables."""
    head: Node
    goals: List[Node]
    variables: List[Variable]


class Program(NamedTuple):
    """A program: types, constructors and so on, each numbered from 0 in written order, and how it begins."""
    types: List[str]
    constructors: List[Constructor]
    predicates: List[Predicate]
    stages: List[str]
    interactive: Set[int]
    rules: List[Rule]
    clauses: List[Clause]
    stage: int
    state: State
    turns: Optional[int]

    def is_fact(self, atom: Node) -> bool:
        """LANGUAGE, Facts: whether the predicate of an atom is one of facts."""
        return self.predicates[atom[0]].kind == "fact"


class Scope:
    """The variables of a rule or a clause, numbered as they first occur, and what is wrong with types and variables in
    it."""

    def __init__(self, names: Names, types: "Types", faults: List[Tuple[int, int, int]]) -> None:
        self.names, self.types, self.faults = names, types, faults
        self.variables: List[Variable] = []
        self.numbers: Dict[str, int] = {}
        self.blanks = 0
        self.closed = False

    def variable(self, term: Raw, wanted: int) -> int:
        """LANGUAGE, Names, variables and types: a variable has the type that is wanted where it first occurs, and `_`
        is one of its own. On a right side a variable that the left side has not, or a `_`, is Unbound."""
        name = term.name
        if term.kind == "Blank":
            self.blanks += 1
            name = f"_{self.blanks}"
        known = self.numbers.get(name)
        if self.closed and (known is None or known >= self.bound):
            self.faults.append((6, term.at, 16))
        if known is None:
            self.variables.append(Variable(name, wanted))
            known = self.numbers[name] = len(self.variables) - 1
        if self.variables[known].type != wanted:
            self.faults.append((5, term.at, 9))
        return known

    def close(self) -> None:
        """The left side is done: what comes now is the right side."""
        self.closed, self.bound = True, len(self.variables)

    def term(self, raw: Raw, wanted: int) -> Term:
        """A term at a place that wants a type: TypeClash if it is a constructor of another type."""
        if raw.kind != "Name":
            return self.variable(raw, wanted)
        number = self.names.first["constructor"][raw.name]
        if self.types.constructors[number].type != wanted:
            self.faults.append((5, raw.at, 9))
        return (number,) + self.arguments(raw, self.types.constructors[number].args)

    def atom(self, raw: Raw) -> Node:
        """An atom, with terms of the types that its predicate declares."""
        number = self.names.first["predicate"][raw.name]
        return (number,) + self.arguments(raw, self.types.predicates[number].args)

    def arguments(self, raw: Raw, wanted: Tuple[int, ...]) -> Node:
        """The arguments, each of the type that is wanted."""
        return tuple([self.term(arg, want) for arg, want in zip(raw.args, wanted)])


class Types:
    """The constructors and predicates of a text of which all names are right."""

    def __init__(self, names: Names) -> None:
        numbers = names.first["type"]
        self.constructors = [Constructor(each.name.text, tuple(numbers[arg.text] for arg in each.args),
                                         numbers[each.type.text]) for each in names.constructors if each.type]
        self.predicates = [Predicate(each.name.text, each.kind, tuple(numbers[arg.text] for arg in each.args))
                           for each in names.predicates]


def accept(text: str) -> Program:
    """LANGUAGE, What is refused: the program that a text spells, or `Refused` for the first fault of the earliest
    phase: the length, the tokens, the grammar; the names; the types; the variables of right sides; and the backward
    premises."""
    names = Names(Parser(text).file(), len(text))
    names.check()
    types = Types(names)
    faults: List[Tuple[int, int, int]] = []
    rules = [rule_of(raw, name, stage, Scope(names, types, faults)) for raw, name, stage in names.rules]
    clauses = [clause_of(raw.atoms, Scope(names, types, faults)) for raw in names.clauses]
    for raws in [context.atoms for context in names.contexts] + [trace.atoms for trace in names.traces]:
        for raw in raws:
            if not names.is_context(raw):
                Scope(names, types, faults).atom(raw)
    if faults:
        _, at, number = min(faults)
        raise Refused(at, number)
    trace, numbers = names.traces[0], names.first["stage"]
    atoms = [Scope(names, types, faults).atom(raw) for raw in names.start_atoms(trace)]
    state = {atom: 1 if types.predicates[atom[0]].kind == "fact" else copies for atom, copies in Counter(atoms).items()}
    program = Program(names.types, types.constructors, types.predicates, [stage.name.text for stage in names.stages],
                      {numbers[token.text] for token in names.interactive}, rules, clauses, numbers[trace.stage.text],
                      state, turns_of(trace.number) if trace.number else None)
    refuse_ungrounded(program, [raw for raw, _, _ in names.rules])
    return program


def rule_of(raw: RawRule, name: str, stage: Optional[int], scope: Scope) -> Rule:
    """A rule: its premises that a state has to meet, with whether they stay, the backward ones, and its right atoms."""
    left = [(scope.atom(atom), kept) for atom, kept in raw.left]
    scope.close()
    right = [scope.atom(atom) for atom in raw.right]
    kinds = scope.types.predicates
    met = [(atom, kept or kinds[atom[0]].kind == "fact") for atom, kept in left if kinds[atom[0]].kind != "bwd"]
    backward = [atom for atom, _ in left if kinds[atom[0]].kind == "bwd"]
    numbers = scope.names.first["stage"]
    group = 2 * stage if stage is not None else 2 * numbers[raw.leaves[0].text] + 1
    leads = numbers[raw.leads[0].text] if stage is None else None
    premises, kept = [atom for atom, _ in met], [kept for _, kept in met]
    return Rule(name, group, premises, kept, backward, right, scope.variables, leads)


def clause_of(raws: List[Raw], scope: Scope) -> Clause:
    """A clause: its head, and its goals."""
    atoms = [scope.atom(raw) for raw in raws]
    return Clause(atoms[0], atoms[1:], scope.variables)


Pair = Tuple[int, FrozenSet[int]]


def refuse_ungrounded(program: Program, raws: List[RawRule]) -> None:
    """LANGUAGE, Backward predicates, What is known: a rule is refused at its first backward premise that calls a bad
    pair."""
    bad = bad_pairs(program)
    for rule, raw in zip(program.rules, raws):
        known = known_variables(rule.premises)
        places = [atom.at for atom, _ in raw.left if program.predicates[predicate_number(program, atom)].kind == "bwd"]
        for premise, at in zip(rule.backward, places):
            if called(premise, known) in bad:
                raise Refused(at, 17)
            known |= known_variables([premise])


def predicate_number(program: Program, atom: Raw) -> int:
    """The number of the predicate that is written."""
    return [predicate.name for predicate in program.predicates].index(atom.name)


def known_variables(atoms: List[Node]) -> Set[int]:
    """The variables of atoms, which are known once these are met."""
    return {variable for atom in atoms for variable in variables_of(atom)}


def called(goal: Node, known: Set[int]) -> Pair:
    """MODEL, Groundness: the pair of a goal's predicate and its positions of which all variables are known."""
    return goal[0], frozenset(i for i, arg in enumerate(goal[1:]) if set(variables_of(arg)) <= known)


def bad_pairs(program: Program) -> Set[Pair]:
    """MODEL, Groundness, by rounds: no pair is bad in round 0, and in the next those of which some clause calls a bad
    pair, or leaves a variable of its head unknown."""
    pairs = [(number, frozenset(some)) for number, predicate in enumerate(program.predicates) if predicate.kind == "bwd"
             for length in range(len(predicate.args) + 1) for some in combinations(range(len(predicate.args)), length)]
    bad: Set[Pair] = set()
    while True:
        more = {pair for pair in pairs if any(is_bad(clause, pair, bad) for clause in program.clauses)}
        if more == bad:
            return bad
        bad = more


def is_bad(clause: Clause, pair: Pair, bad: Set[Pair]) -> bool:
    """Whether a clause makes a pair bad in the round after one in which these are."""
    if clause.head[0] != pair[0]:
        return False
    known = known_variables([arg for position, arg in enumerate(clause.head[1:]) if position in pair[1]])
    for goal in clause.goals:
        if called(goal, known) in bad:
            return True
        known |= known_variables([goal])
    return not set(variables_of(clause.head)) <= known
