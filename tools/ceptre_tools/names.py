"""The names of a world that complete a word: `rules`, or `atoms` of its start with its predicates."""

from ceptre_tools.program import MOST_WORLD
from ceptre_tools.text import read_text, shown
from ceptre_tools.world import World


def names(kind: str, path: str) -> list[str]:
    """The names of this kind in a file, which need not be accepted."""
    world = World(read_text(path, MOST_WORLD))
    if kind == "rules":
        return [shown(name) for name in world.rules]
    atoms = [atom.bare({}) for item in world.parts() for role, atom in world.atoms(item) if role == "start"]
    states = [name for name, declared in world.predicates.items() if declared.word != "bwd"]
    return [shown(atom) for atom in dict.fromkeys([*atoms, *states])]
