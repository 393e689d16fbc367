"""Why a transcript is refused: what the program's verdict means, what is likely wrong with its form, and
the shell lines that mend that.

The program decides: a change of the text is named only where the program says something else of the
changed text.
"""

from __future__ import annotations

import re
import shlex
from collections.abc import Callable
from typing import NamedTuple

from ceptre_tools.program import DONE, REJECTED
from ceptre_tools.program import verdict as judged
from ceptre_tools.text import printable, shown
from ceptre_tools.transcript import record

# What each cause of the program means, in plain words.
MEANINGS = {
    "TooLong": "The file has more than 67,108,864 bytes",
    "NoRule": "The world has no rule of this name",
    "Line": "This is no line of a transcript that may stand here",
    "StartStage": "The world begins in another stage",
    "StartState": "The world begins with other atoms",
    "OtherStage": "The rule belongs to another stage than the one the world is in",
    "NotContained": "The step takes something that is not there",
    "NotProved": "The derivation does not prove the backward premise",
    "TooHigh": "The derivation is higher than the header allows",
    "NotQuiet": "It is said that no rule applies, and one does",
    "OverLimit": "The step passes a limit of the language",
    "StageLine": "The rule leads to another stage",
    "MidState": "The state after the step is another one",
    "NotEnded": "The transcript stops before its end",
    "EndState": "The last state is another one",
}

# The lines of a transcript, and the shell line that keeps them alone.
OF_A_TRANSCRIPT = re.compile(r"(?:ceptre|height|stage|have|\?|step|by|state|end) ")
STRANGE = re.compile(r"^(?!(?:ceptre|height|stage|have|\?|step|by|state|end) ).*(?:\n|\Z)", re.MULTILINE)
KEPT = "grep -aE '^(ceptre|height|stage|have|\\?|step|by|state|end) ' LOG >NEW"

EMPTY = "an empty file"
TOO_LONG = "a conversation that makes it too long"
LARGE = "more than a transcript may have"
NONE = "no transcript"
OTHER_WORLD = "another world"
CUT = "cut before its end"

# Likely causes that no change of the text mends, and what to do, in which LOG is the transcript.
ADVICE = {
    EMPTY: "Play the world, and keep what is written: ./ceptre play WORLD >LOG",
    TOO_LONG: "grep -av '^?' LOG >NEW",
    LARGE: "Hand in a run of fewer steps",
    NONE: "Hand in what ./ceptre play wrote; its first line is `ceptre 2`",
    OTHER_WORLD: "Check it against the very text that was played",
    CUT: "End the input and let the game write its end; tools/follow WORLD LOG shows how far it goes",
}

# How much of a line is shown.
WIDTH = 200


class Change(NamedTuple):
    """A fault of form: where it is there, what mends it, and the shell line that does the same, in which
    LOG is the transcript and NEW the mended one."""

    cause: str
    is_there: Callable[[str], bool]
    mended: Callable[[str], str]
    shell: str


def is_utf_16(text: str) -> bool:
    seconds = text[1:2000:2]
    return text[:2] in ("\xff\xfe", "\xfe\xff") or seconds.count("\0") * 2 > max(1, len(seconds))


def utf_8(text: str) -> str:
    """A text in UTF-16 as UTF-8."""
    coding = "utf-16" if text[:2] in ("\xff\xfe", "\xfe\xff") else "utf-16-le"
    return text.encode("latin-1").decode(coding, errors="replace").encode("utf-8").decode("latin-1")


def without_strange_lines(text: str) -> str:
    """The lines that begin as those of a transcript do."""
    return STRANGE.sub("", text)


def has_strange_lines(text: str) -> bool:
    """Whether some lines, and not all, begin otherwise; what is after the last line end is no such line."""
    strange = STRANGE.search(text[: text.rfind("\n") + 1] or text)
    return strange is not None and strange.group() != "" and without_strange_lines(text) != ""


EDGES = re.compile(r"^[ \t]+|[ \t]+(?=\r?$)", re.MULTILINE)


def trimmed(text: str) -> str:
    """The text without spaces at the edges of those lines that then begin as a transcript's do."""
    if not EDGES.search(text):
        return text
    pairs = ((EDGES.sub("", line), line) for line in text.split("\n"))
    return "\n".join(line if not line or OF_A_TRANSCRIPT.match(line) else old for line, old in pairs)


ECHO = re.compile(r"^\? (?:choose(?: \d+)?|no)\r?\n(?!\? |step |end )", re.MULTILINE)

# In the order in which they are tried.
CHANGES = [
    Change("a text in UTF-16", is_utf_16, utf_8, "iconv -f UTF-16 -t UTF-8 LOG >NEW"),
    Change(
        "a byte-order mark",
        lambda text: text.startswith("\xef\xbb\xbf"),
        lambda text: text[3:],
        "tail -c +4 LOG >NEW",
    ),
    Change(
        "line ends of carriage returns alone",
        lambda text: "\r" in text and "\n" not in text,
        lambda text: text.replace("\r", "\n"),
        "tr '\\r' '\\n' <LOG >NEW",
    ),
    Change(
        "no-break spaces",
        lambda text: "\xc2\xa0" in text,
        lambda text: text.replace("\xc2\xa0", " "),
        "sed 's/\\xc2\\xa0/ /g' LOG >NEW",
    ),
    Change(
        "spaces at the edges of lines",
        lambda text: trimmed(text) != text,
        trimmed,
        "sed -E 's/^[ \\t]+//; s/[ \\t]+(\\r?)$/\\1/' LOG >NEW",
    ),
    Change(
        "a copy of the terminal with what was typed",
        lambda text: ECHO.search(text[: text.rfind("\n") + 1]) is not None and has_strange_lines(text),
        without_strange_lines,
        KEPT,
    ),
    Change("a prompt or other lines around it", has_strange_lines, without_strange_lines, KEPT),
]

MENDS = {**ADVICE, **{change.cause: change.shell for change in CHANGES}}


def changes(text: str) -> tuple[list[str], str]:
    """The faults of form that are there, and the text once all are mended."""
    found = []
    for change in CHANGES:
        if change.is_there(text):
            text = change.mended(text)
            found.append(change.cause)
    return found, text


def likely(world: str, text: str, line: str) -> tuple[list[str], str]:
    """The likely causes of a refusal (`refused LINE CAUSE ..`), each a name of the table above, and what the
    program says of the text that is mended, or nothing."""
    number, cause = line.removeprefix("refused ").split(" ")[:2]
    if cause == "TooLong":
        return [TOO_LONG if re.search(r"^\?", text, re.MULTILINE) else LARGE], ""
    if not text.strip():
        return [EMPTY], ""
    found, mended = changes(text) if cause in ("Line", "NoRule", "NotEnded") else ([], "")
    verdict = judged(world, mended).line if found else line
    if verdict != line:
        return found, verdict
    last = text.count("\n")
    if cause == "NotEnded" or (cause == "Line" and last and int(number) > last):
        return [CUT], ""
    head = record(text[:4096])
    if not re.fullmatch(r"ceptre [12]", head[0] if head else ""):
        return [NONE], ""
    if cause in ("StartStage", "StartState", "NoRule") or is_stage_of_the_header(text, int(number)):
        return [OTHER_WORLD], ""
    return [], ""


def is_stage_of_the_header(text: str, number: int) -> bool:
    """Whether a line is the header's `stage`, which names no stage of another world."""
    lines = record("\n".join(text.split("\n", number)[:number]))
    return len(lines) == 3 and lines[2].startswith("stage ")


class Verdict:
    """The program's verdict on a transcript, with the name of the file and its text, and for each likely
    cause the line that mends it."""

    def __init__(self, path: str, line: str, text: str) -> None:
        self.path, self.line, self.text = path, line, text
        self.accepted = line.startswith("accepted ")
        self.causes: list[str] = []
        self.mends: list[str] = []
        self.mended = ""

    @classmethod
    def of(cls, world: str, log: str, text: str) -> Verdict:
        """The verdict on a text, which people know as this file."""
        verdict = cls(log, judged(world, text).of(DONE, REJECTED).line, text)
        if not verdict.accepted:
            verdict.causes, verdict.mended = likely(world, text, verdict.line)
            verdict.mends = shell_lines(world, log, verdict.causes)
        return verdict

    @property
    def number(self) -> int:
        """The line of the transcript."""
        return int(self.line.split()[1])

    @property
    def cause(self) -> str:
        """The program's cause."""
        return self.line.split()[2]

    @property
    def meaning(self) -> str:
        """The cause in plain words."""
        meaning = MEANINGS.get(self.cause, self.cause)
        if self.cause in ("NotProved", "TooHigh"):
            premise = self.line.split()[3]
            return meaning.replace("derivation", f"derivation of backward premise {premise}").replace(
                "prove the backward premise", "prove it"
            )
        return meaning

    def lines(self) -> list[str]:
        """All that is said."""
        path = printable(self.path)
        if self.accepted:
            return [f"{path}: {self.line}"]
        said = [f"{path}:{self.number}: {shown(self.line.split(' ', 2)[2])}"]
        row = self.text.split("\n", self.number)[self.number - 1 : self.number] if self.number else []
        if row and row[0]:
            said.append(f"{self.number:5} | {shown(row[0][:WIDTH])}".rstrip())
        said.append(f"reason: {self.meaning}")
        for cause, mend in zip(self.causes, self.mends):
            said += [f"likely: {cause}", f"mend:   {printable(mend)}"]
        return said + ([f"tried:  so mended it is {shown(self.mended)}"] if self.mended else [])

    def gcc(self) -> str:
        """The same in one line, as compilers write it."""
        path = printable(self.path)
        if self.accepted:
            return f"{path}: {self.line}"
        said = [f"{self.cause}: {self.meaning}"]
        said += [f"likely {cause}; {printable(mend)}" for cause, mend in zip(self.causes, self.mends)]
        return f"{path}:{max(1, self.number)}:1: error: {'; '.join(said)}"


def shell_lines(world: str, log: str, causes: list[str]) -> list[str]:
    """The lines that mend the causes of a transcript one after another."""
    lines, source = [], log
    for number, cause in enumerate(causes, 1):
        target = f"new{number if len(causes) > 1 else ''}.log"
        line = MENDS[cause].replace("LOG", shlex.quote(source)).replace("NEW", target)
        lines.append(line.replace("WORLD", shlex.quote(world)))
        source = target
    return lines
