"""What applies in many states of one stage, asked of the program at once.

The states stand side by side in one world: each atom that rules can change has its state's tag as a
further argument, each rule asks for atoms of one tag, and puts nothing. So the first turn of one run
offers what applies in all of them, in the program's own order. What never changes stands there once.
"""

from __future__ import annotations

import re
from typing import NamedTuple, Optional

from ceptre_tools.items import Clause, Declared, Element
from ceptre_tools.program import DONE, LIMIT, NO_MEMORY, REFUSED, CannotRun, run
from ceptre_tools.solve.states import Changing, Move, State
from ceptre_tools.world import World

VALUES = re.compile(r" [A-Z_][A-Za-z0-9_/']*=")

# The most arguments of a predicate, variables of a rule, and constructors (docs/LIMITS.md).
MOST_ARGUMENTS, MOST_VARIABLES, MOST_CONSTRUCTORS = 8, 32, 65_536

# So many bytes of atoms are put into one text: the rest is for tags and declarations.
MOST_ATOMS = 400_000


class Offer(NamedTuple):
    """An instance of a rule that applies."""

    move: Move
    values: list[str]


class Offers(NamedTuple):
    """What applies in a state: rules of its stage, or if there are none those that leave it. It is not
    known where a run would end by a limit, or where no text can hold the state: `ended` says so."""

    own: list[Offer]
    outer: list[Offer]
    ended: str = ""


def fresh(beginnings: str, names: set[str]) -> str:
    """A word with which no name begins."""
    word = beginnings
    while any(name.startswith(word) for name in names):
        word += beginnings[-1]
    return word


class Batches:
    """The texts in which states of a world stand side by side."""

    def __init__(self, world: World, changing: Changing, height: Optional[int]) -> None:
        self.world, self.changing = world, changing
        self.options = [f"height={height}"] if height else []
        names = {token.text for token in world.tokens}
        self.tag, self.variable = fresh("w", names), fresh("W", names)
        self.moves = [Move(world, rule) for rule in world.rules.values()]
        self.heads: dict[tuple[str, bool], str] = {}
        # A world that is at a limit has no room for tags, and its states are asked one at a time.
        wide = [name for name in changing.predicates if len(world.predicates[name].arguments) == MOST_ARGUMENTS]
        full = [move for move in self.moves if len(move.variables) >= MOST_VARIABLES]
        self.is_tagged = not wide and not full and len(world.predicates) < 1_000
        most = min(4_096, (MOST_CONSTRUCTORS - len(world.constructors)) // 2)
        self.most_states = max(1, most) if self.is_tagged else 1
        self.declared = self.declarations()
        self.fixed = [text for text, copies in changing.fixed.items() for _ in range(copies)]

    def declarations(self) -> str:
        """The types, predicates, constructors and clauses, with tags."""
        lines = [f"{self.tag} : type.", f"{self.tag}m {self.tag} : fact."]
        for item in self.world.parts():
            if isinstance(item, Declared):
                tag = [self.tag] if self.is_tagged and item.name in self.changing.predicates else []
                tag = tag if item.kind == "predicate" else []
                lines.append(f"{' '.join([item.name, *tag, *item.types])} : {item.result.text}.")
            elif isinstance(item, Clause) or item.kind == "type":
                lines.append(self.world.text_of(item))
        return "\n".join(lines)

    def premise(self, element: Element) -> str:
        """An atom of a left side, with its tag."""
        blanks = {term.name: "_" for term in element.term.parts() if term.name[:1] == "_"}
        name, *rest = element.term.bare(blanks).split(" ", 1)
        tag = [self.variable] if self.is_tagged and name in self.changing.predicates else []
        return " ".join(["$" * element.kept + name, *tag, *rest])

    def rule(self, number: int, move: Move) -> str:
        """A rule that asks for what a rule of the world asks for, and puts nothing."""
        premises = [self.premise(element) for element in move.rule.premises]
        changing = self.changing.predicates
        if self.is_tagged and not any(element.term.name in changing for element in move.rule.premises):
            premises.insert(0, f"{self.tag}m {self.variable}")
        return f"{self.tag}r{number} : {' * '.join(premises) or '()'} -o ()."

    def head(self, stage: str, with_outer: bool) -> str:
        """The text before the tags: declarations, and the rules that are asked."""
        if (stage, with_outer) not in self.heads:
            asked = [
                self.rule(number, move)
                for number, move in enumerate(self.moves)
                if move.rule.stage == stage or (with_outer and move.rule.from_stage == stage)
            ]
            rules = "\n".join(asked)
            self.heads[stage, with_outer] = (
                f"{self.declared}\nstage {self.tag} = {{\n{rules}\n}}\n#interactive {self.tag}.\n"
            )
        return self.heads[stage, with_outer]

    def text(self, states: list[State], with_outer: bool) -> str:
        """The world in which these states stand side by side."""
        parts = [self.head(states[0].stage, with_outer)]
        atoms = list(self.fixed)
        for number, state in enumerate(states):
            tag = f" {self.tag}{number}" if self.is_tagged else ""
            parts.append(f"{self.tag}{number} : {self.tag}.\n")
            atoms.append(f"{self.tag}m {self.tag}{number}")
            for text, copies in self.pairs(state):
                name, space, rest = text.partition(" ")
                atoms += [f"{name}{tag}{space}{rest}"] * copies
        parts.append(f"#trace 1 {self.tag} {{ {', '.join(atoms)} }}.\n")
        return "".join(parts)

    def pairs(self, state: State) -> list[tuple[str, int]]:
        """The atoms of a state that rules can change, with their copies."""
        return [(self.changing.texts[number], copies) for number, copies in state.atoms]

    def parted(self, states: list[State], jobs: int) -> list[list[State]]:
        """States in batches of one stage each, which a text can hold, for so many at once."""
        found: list[list[State]] = []
        size, most = 0, min(self.most_states, max(64, -(-len(states) // jobs)))
        for state in states:
            length = sum((len(text) + 12) * copies for text, copies in self.pairs(state))
            batch = found[-1] if found else []
            if not batch or batch[0].stage != state.stage or len(batch) == most or size + length > MOST_ATOMS:
                batch, size = [], 0
                found.append(batch)
            batch.append(state)
            size += length
        return found

    def offers(self, states: list[State], with_outer: bool = True) -> list[Offers]:
        """What applies in each of these states, which are of one stage."""
        answer = run(
            "play", "/dev/stdin", *self.options, typed=self.text(states, with_outer).encode("latin-1")
        )
        if answer.status == DONE and answer.lines[0] == "ceptre 2":
            return self.read(len(states), answer.lines)
        if answer.status not in (LIMIT, NO_MEMORY, REFUSED):
            raise CannotRun(answer.line)
        if len(states) > 1:
            half = len(states) // 2
            return self.offers(states[:half], with_outer) + self.offers(states[half:], with_outer)
        return [self.alone(states[0], with_outer, answer.line if answer.status == REFUSED else "")]

    def alone(self, state: State, with_outer: bool, refusal: str) -> Offers:
        """What applies in a state in which the rules of its stage and those that leave it, asked at once,
        have too many offers."""
        if refusal and not refusal.endswith((" TooLong", " OverLimit")):
            raise CannotRun(f"a state cannot be asked: {refusal}")
        if refusal:
            return Offers([], [], "a state that is too large to ask about")
        found = self.offers([state], with_outer=False)[0] if with_outer else None
        return found if found and (found.own or found.ended) else Offers([], [], "a state with too many offers")

    def read(self, states: int, lines: list[str]) -> list[Offers]:
        """The offers that a run has written, by their tags."""
        found = [Offers([], []) for _ in range(states)]
        start, tag = len(self.tag), f" {self.variable}="
        for line in lines:
            if line[:2] != "? " or line == "? choose":
                continue
            head, *values = VALUES.split(line)
            move = self.moves[int(head.split(" ")[2][start + 1 :])]
            number = 0
            if self.is_tagged:
                place = line[: line.index(tag)].count("=")
                number = int(values.pop(place)[start:])
            part = found[number].outer if move.rule.from_stage else found[number].own
            part.append(Offer(move, values))
        return found
