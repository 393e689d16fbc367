"""What the program's judgment of claims about weights says, in words."""

import re

from ceptre_tools.program import DONE, REJECTED, run
from ceptre_tools.text import printable, shown

# The status of judgments of which one is `no`.
NOT_KEPT = 5

# What each fault of a file of claims means.
MEANINGS = {
    "TooLong": "The file has more than 1,048,576 bytes",
    "Keep": "This is no claim: write `keep NAME = SUM`, `most NAME = SUM` or `fall NAME = SUM`",
    "KeepName": "A part of the sum names no linear predicate of the world",
    "KeepTwice": "An earlier claim has this name, or an earlier part of the sum this predicate",
    "KeepSign": "A `fall` has a negative factor",
}


def are_claims(text: str) -> bool:
    """Whether a text looks like claims: its first line that says something begins as one."""
    return re.match(r"(?:[ \t]*(?:%[^\n]*)?\r?\n)*(?:keep|most|fall) ", text) is not None


def judged(world: str, path: str, text: str, name: str) -> tuple[bool, list[str]]:
    """Whether all claims of a file are kept, and what is said of them."""
    answer = run("weigh", world, path).of(DONE, REJECTED, NOT_KEPT)
    name = printable(name)
    if answer.status != REJECTED:
        return answer.status == DONE, [f"{name}: {shown(said(line))}" for line in answer.lines]
    _, number, cause = answer.line.split()[:3]
    row = text.split("\n")[int(number) - 1].rstrip("\r") if number != "0" else ""
    excerpt = [f"{int(number):5} | {shown(row)}"] if row else []
    return False, [f"{name}:{number}: {cause}", *excerpt, f"reason: {MEANINGS.get(cause, cause)}"]


def said(line: str) -> str:
    """A line of the program's judgments in words."""
    word, *rest = line.split(" ")
    if word == "yes":
        return f"{rest[0]} is kept: the start weighs {rest[1]}"
    if word == "no":
        return f"{rest[0]} is not kept: the rule {rest[1]} takes {rest[2]} and puts {rest[3]}"
    if word == "bound":
        return f"no state has more than {rest[1]} {rest[0]}"
    return f"a run has at most {rest[0]} steps" if word == "turns" else line
