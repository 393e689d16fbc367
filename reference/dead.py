"""FORMATS, Dead rules; MODEL, Dead rules."""
from typing import Dict, List, NamedTuple, Optional, Set, Tuple

from reference.program import Program, Rule, Variable
from reference.terms import Node


class Table(NamedTuple):
    """What is possible: stages, predicates, and constructors at a position of a predicate's atoms."""
    stages: Set[int]
    predicates: Set[int]
    constructors: Set[Tuple[int, int, int]]


class Shape(NamedTuple):
    """A rule or a clause: its premises, what it adds, its variables, the stage that it is in, and the one to which it
    leads."""
    premises: List[Node]
    adds: List[Node]
    variables: List[Variable]
    stage: Optional[int] = None
    leads: Optional[int] = None


def shape_of(rule: Rule) -> Shape:
    """The shape of a rule: the premises that a state has to meet and then the backward ones."""
    return Shape(rule.premises + rule.backward, rule.right, rule.variables, rule.group // 2, rule.leads)


def is_open(table: Table, atom: Node) -> bool:
    """Whether the predicate of an atom and each constructor that it has are there."""
    return atom[0] in table.predicates and all((atom[0], position, arg[0]) in table.constructors
                                               for position, arg in enumerate(atom[1:]) if not isinstance(arg, int))


def sets_of(table: Table, shape: Shape) -> Dict[int, Set[int]]:
    """The sets of the variables that stand by themselves at some position of a premise."""
    sets: Dict[int, Set[int]] = {}
    for atom in shape.premises:
        for position, arg in enumerate(atom[1:]):
            if isinstance(arg, int):
                there = {number for predicate, at, number in table.constructors
                         if (predicate, at) == (atom[0], position)}
                sets[arg] = sets.get(arg, there) & there
    return sets


def passes(table: Table, shape: Shape) -> bool:
    """Whether all premises are open, no such set is empty, and the stage is there."""
    return (shape.stage is None or shape.stage in table.stages) and all(
        is_open(table, atom) for atom in shape.premises) and all(sets_of(table, shape).values())


def next_table(program: Program, table: Table, shapes: List[Shape]) -> Table:
    """The table of the next round: with what those add that pass this one."""
    stages, predicates, constructors = set(table.stages), set(table.predicates), set(table.constructors)
    for shape in shapes:
        if passes(table, shape):
            stages |= set() if shape.leads is None else {shape.leads}
            predicates |= {atom[0] for atom in shape.adds}
            constructors |= {(atom[0], position, number) for atom in shape.adds for position, arg in enumerate(atom[1:])
                             for number in possible(program, table, shape, arg)}
    return Table(stages, predicates, constructors)


def possible(program: Program, table: Table, shape: Shape, arg: object) -> Set[int]:
    """The constructors that an argument can begin with: its own, the set of a variable, or all constructors of its
    type."""
    if isinstance(arg, tuple):
        return {arg[0]}
    assert isinstance(arg, int)
    of_type = {number for number, each in enumerate(program.constructors) if each.type == shape.variables[arg].type}
    return sets_of(table, shape).get(arg, of_type)


def last_table(program: Program) -> Table:
    """From the start, round by round, until a round adds nothing."""
    table = Table({program.stage}, {atom[0] for atom in program.state},
                  {(atom[0], position, arg[0]) for atom in program.state for position, arg in enumerate(atom[1:])})
    shapes = [shape_of(rule) for rule in program.rules]
    shapes += [Shape(each.goals, [each.head], each.variables) for each in program.clauses]
    while True:
        more = next_table(program, table, shapes)
        if more == table:
            return table
        table = more


def why(program: Program, table: Table, rule: Rule) -> str:
    """Why a rule can never apply, or nothing."""
    shape = shape_of(rule)
    if shape.stage not in table.stages:
        return f"stage {program.stages[rule.group // 2]}"
    shut = [number for number, atom in enumerate(shape.premises, 1) if not is_open(table, atom)]
    if shut:
        return f"premise {shut[0]}"
    empty = [variable for variable, there in sorted(sets_of(table, shape).items()) if not there]
    return f"var {rule.variables[empty[0]].name}" if empty else ""


def dead(program: Program) -> List[str]:
    """A line for each rule that can never apply, and their number."""
    table = last_table(program)
    lines = [f"dead {rule.name} {why(program, table, rule)}" for rule in program.rules if why(program, table, rule)]
    return lines + [f"dead {len(lines)}"]
