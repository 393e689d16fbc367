"""The script `map`."""

from argparse import Namespace

from ceptre_tools.map.graph import rooms, rules, stages
from ceptre_tools.program import MOST_WORLD, opened, refusal
from ceptre_tools.terminal import complain, script
from ceptre_tools.world import World


def map_script(words: Namespace) -> int:
    with opened(words.world, MOST_WORLD) as (text, path):
        line = refusal(path)
        if line:
            return complain("map", f"{words.world}: {line}")
    world = World(text)
    draw = rules if words.rules else rooms if words.state else stages
    print("\n".join(draw(world)))
    return 0


def main() -> int:
    return script("map", map_script)
