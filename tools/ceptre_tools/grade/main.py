"""The script `grade`."""

import csv
import json
import os
import sys
from argparse import Namespace
from typing import NamedTuple

from ceptre_tools.grade.goals import Goal, goals_of
from ceptre_tools.grade.grading import COLUMNS, Asked, Grade, cell, graded, name_the_same, results
from ceptre_tools.program import MOST_WORLD, opened, options, refusal
from ceptre_tools.terminal import FAILED, USAGE, complain, script, side_by_side
from ceptre_tools.text import printable

ALL_AS_ASKED, SOME_REFUSED, NOT_AS_ASKED = 0, 1, 4


class File(NamedTuple):
    """A path, and whether the call names it or it was found in a folder."""

    path: str
    named: bool


def files_of(logs: list[str]) -> tuple[list[File], list[str], list[str]]:
    """The files that the words name, and in order those of folders that end with .log or .LOG; then what
    was passed over in folders, and the folders without such files."""
    found, passed_over, empty = [], [], []
    for path in logs:
        if not os.path.isdir(path):
            found.append(File(path, True))
            continue
        within = sorted(os.path.join(folder, name) for folder, _, names in os.walk(path) for name in names)
        ending = [name for name in within if name.lower().endswith(".log")]
        found += [File(name, False) for name in ending]
        passed_over += [name for name in within if name not in ending]
        empty += [] if ending else [path]
    return found, passed_over, empty


def write_table(goals: list[Goal], grades: list[Grade]) -> None:
    """Writes the rows as CSV."""
    columns = COLUMNS + [goal.name for goal in goals] + ["points"] * bool(goals) + ["unmet"]
    table = csv.writer(sys.stdout, lineterminator="\n")
    table.writerow(columns)
    for grade in grades:
        row = [cell(grade.row[name]) for name in COLUMNS]
        row += ["yes" if is_reached else "no" for is_reached in grade.reached]
        row += [""] * (len(goals) - len(grade.reached))
        row += [str(grade.points(goals))] if goals else []
        table.writerow(row + [cell("; ".join(grade.unmet))])


def write_json(asked: Asked, grades: list[Grade], logs: list[str]) -> None:
    found = [results(asked, grade) for grade in grades]
    alone = len(logs) == 1 and not os.path.isdir(logs[0])
    json.dump(found[0] if alone else found, sys.stdout, indent=1)
    print()


def status_of(grades: list[Grade]) -> int:
    verdicts = {grade.row["verdict"] for grade in grades}
    if "unread" in verdicts:
        return FAILED
    if "refused" in verdicts:
        return SOME_REFUSED
    return ALL_AS_ASKED if all(grade.is_as_asked for grade in grades) else NOT_AS_ASKED


def grade_all(asked: Asked, words: Namespace) -> list[Grade]:
    """The grades of all files; what was passed over is said."""
    files, passed_over, empty = files_of(words.log)
    for path in passed_over:
        print(f"grade: {printable(path)}: passed over, since it does not end with .log", file=sys.stderr)
    grades = side_by_side(lambda file: graded(asked, file.path, file.named), files, words.jobs)
    return grades + [Grade(path).unread("no file of this folder ends with .log") for path in empty]


def grade(words: Namespace) -> int:
    with opened(words.world, MOST_WORLD) as (text, world):
        line = refusal(world)
        if line:
            return complain("grade", f"{words.world}: {line}")
        try:
            goals = goals_of(words.goal, text)
        except ValueError as error:
            return complain("grade", str(error), USAGE)
        play = options(seed=words.seed, turns=words.turns)
        asked = Asked(world, goals, words.height, words.end or "", words.typed, play)
        grades = grade_all(asked, words)
    name_the_same(grades)
    if words.json:
        write_json(asked, grades, words.log)
    else:
        write_table(goals, grades)
    return status_of(grades)


def main() -> int:
    return script("grade", grade)
