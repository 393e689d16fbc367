"""LANGUAGE, Names, variables and types: what a text declares, and all that is wrong with its names, numbers of things
and limits."""
from typing import Dict, List, Optional, Tuple

from reference.grammar import (Declaration, Interactive, Item, Raw, RawClause, RawContext, RawRule, RawStage, Refused,
                               Token, Trace)
from reference.terms import MOST_COPIES, MOST_DEPTH, MOST_NODES, MOST_STATE_NODES

SPACES = ("type", "constructor", "predicate", "stage", "context", "rule")
MOST_DECLARED = {"constructor": 65_536, "predicate": 1_024, "rule": 4_096}
STATE_KINDS = ("pred", "fact")


class Names:
    """What a text declares, space by space in written order, and its faults: the place and the number of each."""

    def __init__(self, items: List[Item], end: int) -> None:
        self.items, self.end = items, end
        self.faults: List[Tuple[int, int]] = []
        self.first: Dict[str, Dict[str, int]] = {space: {} for space in SPACES}
        self.count = {space: 0 for space in SPACES}
        self.types: List[str] = []
        self.constructors: List[Declaration] = []
        self.predicates: List[Declaration] = []
        self.stages: List[RawStage] = []
        self.contexts: List[RawContext] = []
        self.rules: List[Tuple[RawRule, str, Optional[int]]] = []
        self.clauses: List[RawClause] = []
        self.traces: List[Trace] = []
        self.interactive: List[Token] = []
        declared = self.declared_names()
        for item in items:
            self.declare(item, declared)

    def declared_names(self) -> Dict[str, str]:
        """For `x : y.`: which names are predicates, and which are types."""
        declared = [item for item in self.items if isinstance(item, Declaration)]
        found = {item.name.text: "predicate" for item in declared if item.kind in ("pred", "bwd", "fact")}
        found.update({item.name.text: "type" for item in declared if item.kind == "type"})
        return found

    def add(self, space: str, name: str, at: int) -> None:
        """A declaration: Twice if its space has the name, and OverLimit if it is one too many."""
        if name in self.first[space]:
            self.faults.append((at, 5))
        self.first[space].setdefault(name, self.count[space])
        self.count[space] += 1
        if self.count[space] > MOST_DECLARED.get(space, self.count[space]):
            self.faults.append((at, 18))

    def declare(self, item: Item, declared: Dict[str, str]) -> None:
        """What an item declares."""
        if isinstance(item, Declaration):
            self.declare_thing(item, declared)
        elif isinstance(item, RawClause):
            self.clauses.append(item)
        elif isinstance(item, RawStage):
            self.add("stage", item.name.text, item.name.at)
            self.stages.append(item)
            for rule in item.rules:
                self.declare_rule(rule, len(self.stages) - 1)
        elif isinstance(item, RawRule):
            self.declare_rule(item, None)
        elif isinstance(item, RawContext):
            self.add("context", item.name.text, item.name.at)
            self.contexts.append(item)
        elif isinstance(item, Interactive):
            self.interactive.append(item.stage)
        else:
            self.traces.append(item)

    def declare_thing(self, item: Declaration, declared: Dict[str, str]) -> None:
        """A type, a predicate, a constructor, or the clause that `x : y.` is if y is a predicate and no type."""
        name, result = item.name, item.type
        if item.kind == "type":
            self.add("type", name.text, name.at)
            self.types.append(name.text)
        elif item.kind == "colon" and result and declared.get(result.text) == "predicate":
            self.clauses.append(RawClause([Raw(result.at, "Name", result.text, ())]))
        elif item.kind in ("colon", "constructor"):
            self.add("constructor", name.text, name.at)
            self.constructors.append(item)
        else:
            self.add("predicate", name.text, name.at)
            self.predicates.append(item)

    def declare_rule(self, rule: RawRule, stage: Optional[int]) -> None:
        """A rule: without a label it is named `qui/1`, `qui/2` and so on."""
        unlabelled = sum(1 for other, _, _ in self.rules if not other.label)
        name = rule.label.text if rule.label else f"qui/{unlabelled + 1}"
        self.add("rule", name, rule.at)
        self.rules.append((rule, name, stage))

    def number(self, space: str, name: str) -> Optional[int]:
        """The number of the first declaration of a name."""
        return self.first[space].get(name)

    def use(self, space: str, name: str, at: int) -> Optional[int]:
        """A use of a name: Unknown if no space has it, WrongKind if only others have."""
        number = self.number(space, name)
        if number is None:
            self.faults.append((at, 7 if any(name in names for names in self.first.values()) else 6))
        return number

    def check(self) -> None:
        """Refuses the text for the first fault of its names: the earliest, and at one place the one of the lowest
        number."""
        for declaration in self.constructors + self.predicates:
            self.check_types(declaration)
        for rule, _, stage in self.rules:
            self.check_rule(rule, stage)
        for number, clause in enumerate(self.clauses):
            self.check_clause(number, clause)
        for context in self.contexts:
            self.check_state(context.atoms)
        for name in self.interactive:
            self.use("stage", name.text, name.at)
        for number, trace in enumerate(self.traces):
            self.check_trace(number, trace)
        if not self.traces:
            self.faults.append((self.end, 14))
        if self.faults:
            raise Refused(*min(self.faults))

    def check_types(self, declaration: Declaration) -> None:
        """The types of a declaration: at most 8 of arguments."""
        result = [declaration.type] if declaration.kind in ("colon", "constructor") and declaration.type else []
        for token in declaration.args + result:
            self.use("type", token.text, token.at)
        if len(declaration.args) > 8:
            self.faults.append((declaration.args[8].at, 18))

    def kind_of(self, atom: Raw) -> Optional[str]:
        """How the predicate of an atom is declared."""
        number = self.number("predicate", atom.name)
        return None if number is None else self.predicates[number].kind

    def check_rule(self, rule: RawRule, stage: Optional[int]) -> None:
        """A rule: its stages, its atoms, and how many of each there are."""
        left = [atom for atom, _ in rule.left]
        if stage is None and (rule.quis, len(rule.leaves), len(rule.leads)) != (1, 1, 1):
            self.faults.append((rule.at, 13))
        for name in rule.leaves + rule.leads:
            self.use("stage", name.text, name.at)
        for atom in left + rule.right:
            self.check_atom(atom)
        for atom in rule.right:
            if self.kind_of(atom) == "bwd":
                self.faults.append((atom.at, 11))
        self.check_most([atom for atom in left if self.kind_of(atom) in STATE_KINDS], 16)
        self.check_most([atom for atom in left if self.kind_of(atom) == "bwd"], 8)
        self.check_most(rule.right, 32)
        self.check_most(first_occurrences(left), 32)

    def check_clause(self, number: int, clause: RawClause) -> None:
        """A clause: atoms of backward predicates, at most 8 goals and 32 variables, and at most 4,096 clauses."""
        for atom in clause.atoms:
            self.check_atom(atom)
            if self.kind_of(atom) in STATE_KINDS:
                self.faults.append((atom.at, 12))
        self.check_most(clause.atoms[1:], 8)
        self.check_most(first_occurrences(clause.atoms), 32)
        if number >= 4_096:
            self.faults.append((clause.atoms[0].at, 18))

    def check_most(self, things: List[Raw], most: int) -> None:
        """OverLimit at the first thing that is one too many."""
        if len(things) > most:
            self.faults.append((things[most].at, 18))

    def check_atom(self, atom: Raw) -> None:
        """An atom: its predicate, as many arguments as that has, and the constructors in it."""
        number = self.use("predicate", atom.name, atom.at)
        if number is not None and len(self.predicates[number].args) != len(atom.args):
            self.faults.append((atom.at, 8))
        for arg in atom.args:
            self.check_term(arg)

    def check_term(self, term: Raw) -> None:
        """A term: likewise for its constructor."""
        if term.kind == "Name":
            number = self.use("constructor", term.name, term.at)
            if number is not None and len(self.constructors[number].args) != len(term.args):
                self.faults.append((term.at, 8))
        for arg in term.args:
            self.check_term(arg)

    def check_state(self, atoms: List[Raw]) -> None:
        """The atoms of a context or of braces: without variables, of no backward predicate, and fit."""
        for atom in atoms:
            self.check_atom(atom)
            self.faults += [(term.at, 10) for term in variables_in(atom)]
            if self.kind_of(atom) == "bwd":
                self.faults.append((atom.at, 11))
            if written_nodes(atom) > MOST_NODES or written_depth(atom) > MOST_DEPTH:
                self.faults.append((atom.at, 18))

    def is_context(self, atom: Raw) -> bool:
        """In braces of `#trace` a name without arguments that is no predicate but a context stands for the context's
        atoms."""
        number, context = self.number("predicate", atom.name), self.number("context", atom.name)
        return not atom.args and number is None and context is not None

    def check_trace(self, number: int, trace: Trace) -> None:
        """What is played: the names, the number of turns, and that there is one such item, whose start state is within
        the limits."""
        self.use("stage", trace.stage.text, trace.stage.at)
        if trace.context:
            self.use("context", trace.context.text, trace.context.at)
        self.check_state([atom for atom in trace.atoms if not self.is_context(atom)])
        if trace.number and not 1 <= turns_of(trace.number) <= 1_000_000:
            self.faults.append((trace.number.at, 18))
        if number > 0:
            self.faults.append((trace.at, 15))
        elif self.is_too_large(self.start_atoms(trace)):
            self.faults.append((trace.at, 18))

    def start_atoms(self, trace: Trace) -> List[Raw]:
        """The atoms with which the world starts, each as often as it is listed."""
        named = [Raw(trace.context.at, "Name", trace.context.text, ())] if trace.context else []
        atoms: List[Raw] = []
        for atom in named + trace.atoms:
            if atom in named or self.is_context(atom):
                number = self.number("context", atom.name)
                atoms += [] if number is None else self.contexts[number].atoms
            else:
                atoms.append(atom)
        return atoms

    def is_too_large(self, atoms: List[Raw]) -> bool:
        """LIMITS, Texts: a start state over 100,000 copies or 4,194,304 nodes, each copy counted but those of a
        fact."""
        facts = {without_places(atom): atom for atom in atoms if self.kind_of(atom) == "fact"}
        counted = [atom for atom in atoms if self.kind_of(atom) != "fact"] + list(facts.values())
        return len(counted) > MOST_COPIES or sum(written_nodes(atom) for atom in counted) > MOST_STATE_NODES


def turns_of(number: Token) -> int:
    """The number after `#trace`; of one with too many digits another one that is too large."""
    digits = number.text.lstrip("0")
    return int(digits[:8] or "0")


def without_places(atom: Raw) -> Tuple[object, ...]:
    """The written tree of an atom."""
    return (atom.kind, atom.name) + tuple(without_places(arg) for arg in atom.args)


def variables_in(term: Raw) -> List[Raw]:
    """The variables and blanks of an atom or a term, in written order."""
    found = [term] if term.kind != "Name" else []
    for arg in term.args:
        found += variables_in(arg)
    return found


def first_occurrences(atoms: List[Raw]) -> List[Raw]:
    """The variables of atoms, in the order in which they first occur; each blank is one of its own."""
    seen: Dict[str, Raw] = {}
    for atom in atoms:
        for term in variables_in(atom):
            seen.setdefault(term.name if term.kind == "Variable" else f"_{len(seen)}", term)
    return list(seen.values())


def written_nodes(term: Raw) -> int:
    """LANGUAGE, What is refused: a node for each constructor and variable, and one for the predicate."""
    return 1 + sum(written_nodes(arg) for arg in term.args)


def written_depth(term: Raw) -> int:
    """The depth is 1 without arguments, and else 1 more than the deepest argument."""
    return 1 + max((written_depth(arg) for arg in term.args), default=0)
