"""What `explain` writes of refusals and hints, as lines for people and as compilers write them."""

from ceptre_tools.explain.expected import expectation
from ceptre_tools.explain.location import Location
from ceptre_tools.explain.refusal import Refusal
from ceptre_tools.explain.repairs import Judge
from ceptre_tools.program import refusal_of as refusal_by_the_program
from ceptre_tools.text import shown

# How many columns of a line are shown.
WIDTH = 100


def lines(refusal: Refusal, path: str, refusal_of: Judge = refusal_by_the_program) -> list[str]:
    """All that is said of a refusal."""
    here = refusal.location
    said = [f"{path}:{here.line}:{here.column}: {here.reason}", *excerpt(here), f"reason: {refusal.meaning}"]
    if refusal.cause:
        said.append(f"likely: {refusal.cause}")
    said.append(f"mend:   {refusal.advice}")
    if refusal.tried:
        said.append(f"tried:  {refusal.tried}")
    else:
        hoped = expectation(here, refusal.cause, refusal_of)
        said += [f"wanted: {shown(hoped)}"] if hoped else []
    said += refusal.notes(refusal_of)
    return said + [f"did you mean {name}? ({what})" for name, what in refusal.near]


def gcc(refusal: Refusal, path: str) -> str:
    """The same in one line, as compilers write it."""
    here = refusal.location
    said = f"{here.reason}: {refusal.message}" + (f"; {refusal.tried}" if refusal.tried else "")
    return f"{path}:{here.line}:{here.column}: error: {said}"


def excerpt(here: Location) -> list[str]:
    """The line of the refusal with a caret at the column, and the lines that belong to it: the one of the
    token before, and those over which an atom goes on."""
    around = [here.token(-1), *(here.atom() if here.reason == "WrongArity" else [])]
    numbers = {here.line, *(token.line for token in around if token)}
    end = here.column + here.end - here.start
    first = max(0, here.column - WIDTH // 2) if end > WIDTH + 1 else 0
    rows, said = here.text.split("\n"), []
    for number in sorted(numbers):
        part = rows[number - 1].rstrip("\r")[first : first + WIDTH]
        said.append(f"{number:5} | {shown(part)}".rstrip())
        if number == here.line:
            before = shown(rows[number - 1][first : here.column - 1])
            margin = "".join("\t" if letter == "\t" else " " for letter in before)
            said.append(f"      | {margin}^")
    return said
