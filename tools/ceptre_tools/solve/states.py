"""States as the search has them: atoms by numbers, and what a step of a rule makes of a state."""

from __future__ import annotations

from typing import NamedTuple

from ceptre_tools.items import Rule, Term
from ceptre_tools.world import World

# The limits of docs/LIMITS.md: of an atom its nodes and its depth, of a state its copies and its nodes.
MOST_ATOM, MOST_DEPTH, MOST_COPIES, MOST_NODES = 65_536, 512, 100_000, 4_194_304

# The atoms of a state by their numbers, each with its copies, in order.
Atoms = tuple[tuple[int, int], ...]


class State(NamedTuple):
    """A stage, the atoms that rules can change, and how many words of the seed were drawn."""

    stage: str
    atoms: Atoms
    draws: int = 0


class Template:
    """An atom of a rule, as a text with places for values."""

    def __init__(self, atom: Term, variables: list[str]) -> None:
        self.text = atom.bare({name: "%s" for name in variables})
        self.places = [variables.index(term.name) for term in atom.parts() if term.is_variable]

    def of(self, values: list[str]) -> str:
        """The atom with these values of the rule's variables."""
        return self.text % tuple(values[place] for place in self.places) if self.places else self.text


class Move:
    """A rule as what it takes and puts."""

    def __init__(self, world: World, rule: Rule) -> None:
        self.rule, self.name, self.next_stage = rule, rule.name, rule.next_stage
        self.variables = list(world.variables(rule))
        self.taken = [Template(atom, self.variables) for atom in rule.taken]
        self.put = [Template(atom, self.variables) for atom in rule.put]

    def offer(self, values: list[str]) -> str:
        """The offer with these values, as transcripts write it."""
        return " ".join([self.name, *(f"{name}={value}" for name, value in zip(self.variables, values))])


class Changing:
    """The atoms that rules of a world can change, by numbers; what never changes stands apart."""

    def __init__(self, world: World, start: dict[str, int]) -> None:
        rules = world.rules.values()
        changed = {atom.name for rule in rules for atom in (*rule.taken, *rule.put)}
        self.predicates = {name for name in changed if name in world.predicates}
        self.facts = {name for name in self.predicates if world.predicates[name].word == "fact"}
        self.numbers: dict[str, int] = {}
        self.texts: list[str] = []
        self.nodes: list[int] = []
        self.fixed = {text: n for text, n in start.items() if text.split(" ")[0] not in self.predicates}
        self.fixed_nodes = sum(n * (1 + text.count(" ")) for text, n in self.fixed.items())
        self.start = self.atoms_of({text: n for text, n in start.items() if text not in self.fixed})
        self.is_fact: dict[int, bool] = {}

    def number(self, text: str) -> int:
        """The number of an atom."""
        found = self.numbers.get(text)
        if found is None:
            found = self.numbers[text] = len(self.texts)
            self.texts.append(text)
            self.nodes.append(1 + text.count(" "))
        return found

    def atoms_of(self, state: dict[str, int]) -> Atoms:
        """A state by the numbers of its atoms."""
        return tuple(sorted((self.number(text), copies) for text, copies in state.items()))

    def after(self, atoms: Atoms, move: Move, values: list[str]) -> Atoms:
        """The atoms after a step."""
        counts = dict(atoms)
        for template in move.taken:
            number = self.numbers[template.of(values)]
            if counts[number] == 1:
                del counts[number]
            else:
                counts[number] -= 1
        for template in move.put:
            text = template.of(values)
            number = self.number(text)
            is_fact = text.split(" ", 1)[0] in self.facts if self.facts else False
            counts[number] = 1 if is_fact else counts.get(number, 0) + 1
        return tuple(sorted(counts.items()))

    def passes_a_limit(self, atoms: Atoms) -> bool:
        """Whether a step to these atoms would end a run: an atom or the state is too large."""
        if any(self.nodes[number] > 500 and is_large(self.texts[number]) for number, _ in atoms):
            return True
        copies = sum(copies for _, copies in atoms) + sum(self.fixed.values())
        nodes = sum(self.nodes[number] * copies for number, copies in atoms) + self.fixed_nodes
        return copies > MOST_COPIES or nodes > MOST_NODES


def is_large(text: str) -> bool:
    """Whether an atom is over the limits."""
    depth = deepest = 0
    for letter in text:
        depth += (letter == "(") - (letter == ")")
        deepest = max(deepest, depth)
    return 1 + text.count(" ") > MOST_ATOM or deepest + 2 > MOST_DEPTH
