"""A state as a start that can be pasted into a world."""

from ceptre_tools.transcript import Transcript
from ceptre_tools.world import World


def context_lines(world: World, log: Transcript, number: int) -> list[str]:
    """A context with the atoms after a step, and a `#trace` that begins there; the world's own goes."""
    stage, state = next(found for done, found in enumerate(log.states(world)) if done == number)
    names = (f"after/{number}{mark}" for mark in ("", "'", "''"))
    name = next(name for name in names if not world.find("context", name))
    atoms = [atom for atom, copies in state.items() for _ in range(copies)]
    trace = world.trace
    turns = trace.turns.text if trace and trace.turns else "_"
    listed = ",\n".join(f"  {atom}" for atom in atoms).split("\n")
    return [f"context {name} = {{", *listed, "}.", f"#trace {turns} {stage} {name}."]
