"""The graphs of a world as Graphviz reads them: stages, rules by what they make and need, and rooms."""

from collections import Counter
from collections.abc import Iterable, Iterator

from ceptre_tools.text import shown
from ceptre_tools.world import World

# An edge: from where, to where, and what is written at it.
Edge = tuple[str, str, str]


def quoted(text: str) -> str:
    """A text as Graphviz has it between quotation marks."""
    escaped = shown(text).replace("\\", "\\\\").replace('"', '\\"')
    return f'"{escaped}"'


def labelled(rows: list[str]) -> str:
    """Rows of text one below another."""
    return '"' + "\\n".join(quoted(row)[1:-1] for row in rows) + '"'


def lines_of(name: str, nodes: dict[str, str], edges: Iterable[Edge]) -> Iterator[str]:
    """A directed graph; each node has its attributes, and each edge a label or none."""
    yield f"digraph {quoted(name)} {{"
    yield '  node [fontname="sans-serif"]; edge [fontname="sans-serif", fontsize=10];'
    yield from (f"  {quoted(node)} [{attributes}];" for node, attributes in nodes.items())
    for start, end, label in edges:
        yield f"  {quoted(start)} -> {quoted(end)}" + (f" [label={quoted(label)}];" if label else ";")
    yield "}"


def stages(world: World) -> Iterator[str]:
    """Stages, and the rules that lead from one to another when it grows quiet. The first is drawn bold, those
    in which the player chooses as boxes."""
    first = world.trace.stage.text if world.trace and world.trace.stage else ""
    nodes = {
        name: f"shape={'box' if name in world.interactive else 'ellipse'}{', style=bold' * (name == first)}"
        for name in world.stages
    }
    edges = [(rule.from_stage, rule.next_stage, name) for name, rule in world.rules.items() if rule.from_stage]
    return lines_of("stages", nodes, edges)


def rules(world: World) -> Iterator[str]:
    """Rules, and from each to those that need what it makes, by the predicates."""
    makes = {name: {term.name for term in rule.put} for name, rule in world.rules.items()}
    needs = {name: {term.name for term in (*rule.taken, *rule.kept)} for name, rule in world.rules.items()}
    edges = []
    for one, made in makes.items():
        for other, needed in needs.items():
            if made & needed:
                edges.append((one, other, ", ".join(sorted(made & needed))))
    return lines_of("rules", {name: "shape=box" for name in world.rules}, edges)


def ways(world: World) -> list[str]:
    """The predicates of two arguments of one type of which the start, or a clause, says something."""
    types = {name: declared.arguments for name, declared in world.predicates.items()}
    return [name for name, kinds in types.items() if len(kinds) == 2 and kinds[0] == kinds[1]]


def rooms(world: World) -> Iterator[str]:
    """What is joined to what: each atom of a predicate of two equal types as an edge, and at each thing what
    else the start says of it."""
    joins, said = set(ways(world)), Counter[str]()
    edges: list[Edge] = []
    things: dict[str, list[str]] = {}
    for item in world.parts():
        for role, atom in world.atoms(item):
            is_said = role == "start" or (role == "head" and not getattr(item, "goals", []))
            if not is_said or any(term.is_variable for term in atom.parts()):
                continue
            words = [term.bare({}) for term in atom.arguments]
            if atom.name in joins:
                edges.append((words[0], words[1], atom.name))
            elif words and said[atom.bare({})] == 0:
                things.setdefault(words[-1], []).append(" ".join([atom.name, *words[:-1]]))
                said[atom.bare({})] += 1
    if len({label for _, _, label in edges}) == 1:
        edges = [(start, end, "") for start, end, _ in edges]
    names = dict.fromkeys(name for start, end, _ in edges for name in (start, end))
    nodes = {name: f"shape=box, label={labelled([name, *things.get(name, [])])}" for name in names}
    return lines_of("rooms", nodes, edges)
