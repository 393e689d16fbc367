"""The script `sample`: runs by many seeds, and what is counted of them."""

import csv
import os
import random
import shutil
import statistics
import sys
from argparse import Namespace
from collections import Counter
from typing import NamedTuple

from ceptre_tools.grade.goals import Goal, goals_of
from ceptre_tools.play.run import Run
from ceptre_tools.program import MOST_WORLD, opened, options, refusal
from ceptre_tools.terminal import USAGE, complain, script, side_by_side
from ceptre_tools.transcript import last_listing
from ceptre_tools.world import World

# Rows of a name, a count and what else is said.
Rows = list[tuple[str, int, str]]


class Sample(NamedTuple):
    """What is counted of one run."""

    seed: int
    end: str
    stage: str
    fired: "Counter[str]"
    reached: list[bool]

    @property
    def steps(self) -> int:
        return sum(self.fired.values())


def sampled(words: list[str], seed: int, goals: list[Goal], players_by_seed: bool, keep: str = "") -> Sample:
    """A run by a seed, whose transcript is kept in a folder if one is named."""
    run = Run([*words, f"seed={seed}"], os.path.join(keep, f"{seed}.log") if keep else "")
    draw = random.Random(seed)
    run.play()
    while run.offers and players_by_seed:
        run.choose(int(draw.random() * len(run.offers)) + 1)
    run.close()
    if not run.end:
        raise run.stopped()
    fired = Counter(line.split(" ", 2)[1] for line in run.lines if line.startswith("step "))
    stages = [line.removeprefix("stage ") for line in run.lines if line.startswith("stage ")]
    last = last_listing("\n".join(run.lines))
    return Sample(seed, run.end, stages[-1], fired, [goal.reached(last) for goal in goals])


def write_rows(world: World, goals: list[Goal], samples: list[Sample]) -> None:
    """A row for each run: its seed, its end, its last stage, its steps, its goals, and each rule."""
    table = csv.writer(sys.stdout, lineterminator="\n")
    table.writerow(["seed", "end", "stage", "steps", *[f"goal {goal.name}" for goal in goals], *world.rules])
    for sample in samples:
        goal_cells = ["yes" if reached else "no" for reached in sample.reached]
        counts = [sample.fired[rule] for rule in world.rules]
        table.writerow([sample.seed, sample.end, sample.stage, sample.steps, *goal_cells, *counts])


def bars(rows: Rows, heading: str) -> list[str]:
    """Rows of a name and a count, each with its share of the greatest as a bar."""
    if not rows:
        return []
    margin = max(len(name) for name, _, _ in rows)
    width = max(10, min(50, (shutil.get_terminal_size().columns or 80) - margin - 22))
    most = max(count for _, count, _ in rows) or 1
    lines = [heading]
    for name, count, more in rows:
        bar = "#" * round(width * count / most) or ("." if count else "")
        lines.append(f"  {name:{margin}} {count:8} {more:>8}  {bar}".rstrip())
    return lines


def share(count: int, of_all: int) -> str:
    return f"{100 * count / of_all:.0f} %"


def lengths(samples: list[Sample]) -> list[str]:
    """How many runs had how many steps, in ten classes at most."""
    steps = sorted(sample.steps for sample in samples)
    middle, mean = statistics.median(steps), statistics.mean(steps)
    size = max(1, -(-(steps[-1] - steps[0] + 1) // 10))
    classes = Counter((count - steps[0]) // size for count in steps)
    rows = []
    for place in range((steps[-1] - steps[0]) // size + 1):
        low = steps[0] + place * size
        name = f"{low} to {low + size - 1}" if size > 1 else str(low)
        rows.append((name, classes[place], share(classes[place], len(steps))))
    heading = f"steps: least {steps[0]}, median {middle:g}, mean {mean:.1f}, most {steps[-1]}"
    return bars(rows, heading)


def summary(world: World, goals: list[Goal], samples: list[Sample]) -> list[str]:
    """The table, with bars."""
    runs = len(samples)

    def shares(counts: list[tuple[str, int]]) -> Rows:
        return [(name, n, share(n, runs)) for name, n in counts]

    lines = [f"{runs} runs by the seeds {samples[0].seed} to {samples[-1].seed}"]
    ends = Counter(f"{sample.end} in {sample.stage}" for sample in samples)
    lines += bars(shares(ends.most_common()), "ended:") + lengths(samples)
    counts = [(goal.name, sum(s.reached[i] for s in samples)) for i, goal in enumerate(goals)]
    lines += bars(shares(counts), "goals, and in how many runs:")
    fired = sum((sample.fired for sample in samples), Counter[str]())
    within = Counter(rule for sample in samples for rule in sample.fired)
    rows = [(rule, fired[rule], share(within[rule], runs)) for rule in world.rules if fired[rule]]
    lines += bars(rows, "rules: how often, and in how many of the runs:")
    never = [rule for rule in world.rules if not fired[rule]]
    return lines + (["never: " + ", ".join(never)] if never else [])


def sample(words: Namespace) -> int:
    with opened(words.world, MOST_WORLD) as (text, path):
        line = refusal(path)
        if line:
            return complain("sample", f"{words.world}: {line}")
        try:
            goals = goals_of(words.goal, text)
        except ValueError as error:
            return complain("sample", str(error), USAGE)
        call = [path, *options(height=words.height, turns=words.turns)]
        if words.keep:
            os.makedirs(words.keep, exist_ok=True)
        seeds = range(words.seed, words.seed + words.runs)
        samples = side_by_side(
            lambda seed: sampled(call, seed, goals, words.players_by_seed, words.keep or ""), seeds, words.jobs
        )
    world = World(text)
    if words.csv:
        write_rows(world, goals, samples)
        return 0
    print("\n".join(summary(world, goals, samples)))
    if not words.players_by_seed and any(sample.end == "input" for sample in samples):
        print("sample: a player is to choose in this world: --players-by-seed draws that", file=sys.stderr)
    return 0


def main() -> int:
    return script("sample", sample)
