"""What is asked of transcripts of one world, and the row of each in the table of tools/grade."""

from __future__ import annotations

import hashlib
import os
import re
import stat
from typing import Any, NamedTuple

from ceptre_tools.commands import END_WORDS
from ceptre_tools.explain.transcripts import likely
from ceptre_tools.grade.goals import Goal
from ceptre_tools.program import DONE, LIMIT, MOST_LOG, REJECTED, CannotRun, opened, run
from ceptre_tools.text import bytes_of, shown, unreadable
from ceptre_tools.transcript import deeds, last_listing, record

COLUMNS = ["file", "verdict", "line", "cause", "likely", "text", "steps", "height", "end", "same"]

# The most characters of a cell of the table.
MOST_CELL = 200


def cell(text: str) -> str:
    """A text of others in a cell: printable, short, and never read as a formula."""
    text = shown(text[: 4 * MOST_CELL])
    if len(text) > MOST_CELL:
        text = text[: MOST_CELL - 2] + ".."
    return "'" + text if text[:1] in ("=", "+", "-", "@", "\t") else text


class Asked(NamedTuple):
    """What is asked of each transcript of a world."""

    world: str
    goals: list[Goal]
    height: int
    end: str
    typed: str
    options: list[str]

    def typed_for(self, path: str) -> str:
        """The file of what was typed: the same for all, or beside each one, by its ending."""
        beside = self.typed.startswith(".") and "/" not in self.typed
        return os.path.splitext(path)[0] + self.typed if beside else self.typed

    def played(self, typed: str, height: str) -> str:
        """The transcript of what was typed, as the program plays it again."""
        with open(typed, "rb") as file:
            bytes_typed = file.read()
        answer = run("play", self.world, f"height={height}", *self.options, typed=bytes_typed)
        return "\n".join([*answer.of(DONE, LIMIT).lines, ""])


class Grade:
    """What is found of one transcript: its row, which goals it reached, and what else is not as it was
    asked. Those that did the same have the same key."""

    def __init__(self, path: str, goals: int = 0) -> None:
        self.row = {**dict.fromkeys(COLUMNS, ""), "file": bytes_of(path)}
        self.reached = [False] * goals
        self.unmet: list[str] = []
        self.key = ""

    @property
    def accepted(self) -> bool:
        return self.row["verdict"] == "accepted"

    @property
    def is_as_asked(self) -> bool:
        return self.accepted and not self.unmet and all(self.reached)

    def points(self, goals: list[Goal]) -> int:
        """How many points it has."""
        pairs = zip(goals, self.reached) if self.accepted and not self.unmet else ()
        return sum(goal.points for goal, is_reached in pairs if is_reached)

    def unread(self, cause: str) -> Grade:
        """That there is no verdict on it."""
        self.row.update(verdict="unread", cause=cause)
        self.reached = []
        return self


def claims(text: str) -> tuple[str, str]:
    """The height and the end word that a transcript claims, or nothing where they do not stand there."""
    head = record(text[:4096])
    height = re.fullmatch(r"height ([0-9]{1,3})", head[1]) if len(head) > 1 else None
    if head[:1] not in (["ceptre 1"], ["ceptre 2"]) or not height:
        return "", ""
    end = re.search(r"^end (.*?)\r?$", text, re.MULTILINE)
    return height[1], end[1] if end and end[1] in END_WORDS else ""


def differs(own: list[str], played: list[str]) -> str:
    """Where what was done is other than what was played again, or nothing."""
    for number, (one, other) in enumerate(zip(own, played)):
        if one != other:
            done = sum(line.startswith("step ") for line in own[: number + 1])
            place = f"step {done}" if one.startswith("step ") else f"after step {done}"
            return f"{place}: {one}, and not {other}"
    return "" if len(own) == len(played) else "it has another number of steps"


def sum_of(lines: list[str]) -> str:
    return hashlib.sha256("\n".join(lines).encode("latin-1")).hexdigest() if lines else ""


def no_file(path: str, named: bool) -> str:
    """Why a path is not read, or nothing: of what is found in a folder files alone are."""
    mode = os.stat(path).st_mode
    if stat.S_ISREG(mode) or (named and stat.S_ISFIFO(mode)):
        return ""
    return "" if named and stat.S_ISCHR(mode) else "no file"


def graded(asked: Asked, path: str, named: bool = True) -> Grade:
    """What is found of the transcript in a file, which the call names or which was found in a folder."""
    grade = Grade(path, len(asked.goals))
    try:
        if no_file(path, named):
            return grade.unread("no file")
        with opened(path, MOST_LOG) as (text, readable):
            answer = run("check", asked.world, readable)
            if answer.status not in (DONE, REJECTED) or not re.match(r"accepted \d+$|refused \d+ ", answer.line):
                return grade.unread(answer.line)
            if answer.status == DONE:
                accepted(asked, path, grade, answer.line, text)
            else:
                refused(asked, grade, answer.line, text)
    except OSError as error:
        return grade.unread(error.strerror or str(error))
    return grade


def accepted(asked: Asked, path: str, grade: Grade, verdict: str, text: str) -> None:
    row, done = grade.row, deeds(text)
    row["height"], row["end"] = claims(text)
    row.update(verdict="accepted", steps=verdict.removeprefix("accepted "))
    last = last_listing(text)
    grade.reached = [goal.reached(last) for goal in asked.goals]
    if int(row["height"]) > asked.height:
        grade.unmet.append(f"height {row['height']} over {asked.height}")
    if asked.end and row["end"] != asked.end:
        grade.unmet.append(f"end {row['end']} and not {asked.end}")
    if asked.typed:
        compare_with_typed(asked, path, grade, done)
    if row["steps"] != "0":
        grade.key = sum_of(done)


def compare_with_typed(asked: Asked, path: str, grade: Grade, done: list[str]) -> None:
    """Plays what was typed again, and notes where that did other than the transcript."""
    typed = asked.typed_for(path)
    try:
        other = differs(done, deeds(asked.played(typed, grade.row["height"])))
        grade.unmet += [other] if other else []
    except OSError as error:
        grade.unread(unreadable(error))
    except CannotRun as error:
        grade.unread(f"{typed}: {error}")


def refused(asked: Asked, grade: Grade, verdict: str, text: str) -> None:
    row = grade.row
    number, row["cause"] = verdict.removeprefix("refused ").split(" ", 1)
    row.update(verdict="refused", line=number)
    row["likely"] = "; ".join(likely(asked.world, text, verdict)[0])
    if row["cause"] == "TooLong":
        return
    row["height"], row["end"] = claims(text)
    lines = text.split("\n", int(number))
    if 0 < int(number) <= len(lines):
        row["text"] = lines[int(number) - 1].removesuffix("\r")
    grade.key = sum_of(record(text)) if text else ""


def name_the_same(grades: list[Grade]) -> None:
    """Puts into each row the first file before it in which the same was done."""
    first: dict[str, str] = {}
    for grade in grades:
        if grade.key:
            file = first.setdefault(grade.key, grade.row["file"])
            grade.row["same"] = file if file != grade.row["file"] else ""


def results(asked: Asked, grade: Grade) -> dict[str, Any]:
    """A transcript's grade in the shape of Gradescope's `results.json`."""
    row = {name: shown(str(value))[:MOST_CELL] for name, value in grade.row.items()}
    said = " ".join(row[name] for name in ("verdict", "line", "cause") if row[name])
    output = said + (f"\n{row['line']} | {row['text']}" if row["text"] else "")
    output += f"\nlikely: {row['likely']}" if row["likely"] else ""
    tests = [test("the transcript is accepted", grade.accepted, output)]
    if grade.accepted:
        tests.append(test("it is as it was asked", not grade.unmet, shown("; ".join(grade.unmet))))
    for goal, is_reached in zip(asked.goals, grade.reached):
        counted = goal.points if is_reached and not grade.unmet else 0
        found = test(f"goal {goal.name}", is_reached, "")
        tests.append({**found, "score": counted, "max_score": goal.points})
    extra = {name: row[name] for name in ("file", "steps", "height", "end", "same")}
    most = sum(goal.points for goal in asked.goals)
    scores = {"score": grade.points(asked.goals), **({"max_score": most} if asked.goals else {})}
    return {**scores, "output": said, "tests": tests, "extra_data": extra}


def test(name: str, passed: bool, output: str) -> dict[str, Any]:
    return {"name": name, "status": "passed" if passed else "failed", "output": output}
