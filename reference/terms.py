"""Terms, atoms, their order and their texts (LANGUAGE, What a world is; FORMATS, Terms, atoms and offers).

A term is a variable's number, or a tuple: its constructor's number, and its arguments. An atom is such a tuple with a
predicate's number. So tuples compare as FORMATS orders terms and atoms: by the head's number, and then by the arguments
from left to right.
"""
from typing import Any, Dict, NamedTuple, Optional, Sequence, Tuple, Union

MOST_NODES, MOST_DEPTH, MOST_COPIES, MOST_STATE_NODES = 65_536, 512, 100_000, 4_194_304
Node = Tuple[Any, ...]
Term = Union[int, Node]
Values = Tuple[Optional[Node], ...]


class Sized(NamedTuple):
    """How many nodes a term has, and how deep it is."""
    nodes: int
    depth: int


def size(term: Node) -> Sized:
    """LANGUAGE, What is refused: a node for each constructor and variable, an atom one more for its predicate; the
    depth is 1 without arguments, and else 1 more than the deepest argument."""
    nodes, depth = 1, 0
    for arg in term[1:]:
        inner = size(arg)
        nodes, depth = nodes + inner.nodes, max(depth, inner.depth)
    return Sized(nodes, depth + 1)


def is_fit(atom: Node) -> bool:
    """LIMITS, Runs: at most 65,536 nodes and depth 512."""
    nodes, depth = size(atom)
    return nodes <= MOST_NODES and depth <= MOST_DEPTH


def instance(pattern: Term, values: Sequence[Optional[Term]]) -> Any:
    """MODEL, Terms, order, multisets: the pattern with each variable that has a value replaced by it."""
    if isinstance(pattern, int):
        value = values[pattern]
        return pattern if value is None else value
    return (pattern[0],) + tuple([instance(arg, values) for arg in pattern[1:]])


def meet(pattern: Term, ground: Node, values: Values) -> Optional[Values]:
    """The values with those of further variables by which the pattern is the ground term, if there are any."""
    if isinstance(pattern, int):
        if values[pattern] is None:
            return values[:pattern] + (ground,) + values[pattern + 1:]
        return values if values[pattern] == ground else None
    if pattern[0] != ground[0]:
        return None
    for part, whole in zip(pattern[1:], ground[1:]):
        met = meet(part, whole, values)
        if met is None:
            return None
        values = met
    return values


def variables_of(pattern: Term) -> Dict[int, None]:
    """The variables of a pattern, each once."""
    if isinstance(pattern, int):
        return {pattern: None}
    found: Dict[int, None] = {}
    for arg in pattern[1:]:
        found.update(variables_of(arg))
    return found
