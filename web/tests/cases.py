"""Reads the files of cases of `crates/cep_cases`, asks a program what comes of each, and writes that as `stdout` there has it.

This is `cep_cases` once more, for programs that cannot be linked with its fakes: `crates/cep_cases/src/player.rt` says how cases are run,
`crates/cep_case_texts` how their files are spelled. Cases in which something outside fails are left out. Texts are bytes, in strings of
Latin-1.
"""

from __future__ import annotations

import re
from collections.abc import Callable, Iterator
from dataclasses import dataclass, field
from pathlib import Path
from typing import Optional

# What is asked of the program: words, files and what is typed; its answer: the status and what it said.
Ask = Callable[[list[str], dict[str, str], str], tuple[int, str]]

ESCAPE = re.compile(r"\\(?:<([^>]*)>?|x(..)|\[((?:[^\]\\]|\\.)*)\]|(.)|)", re.DOTALL)
ESCAPED = {"n": "\n", "r": "\r", "t": "\t", "\\": "\\", "]": "]", "\n": ""}
LINES = re.compile(r"[^\n]*\n|[^\n]+")


@dataclass(frozen=True)
class Section:
    """A section: whether each line is a case of its own, what its body is for, and of which text it says a change."""

    each: bool
    target: str
    base: Optional[str]
    body: str

    @classmethod
    def of(cls, lines: str) -> Section:
        head, _, body = lines.partition("\n")
        each = head.startswith("each ")
        target, of, base = head.removeprefix("each ").partition(" of ")
        return cls(each, target, base if of else None, body.rstrip("\n"))


@dataclass
class Case:
    """A case: the words, what is typed, and whether something outside fails."""

    words: list[str] = field(default_factory=list)
    typed: str = ""
    fails: bool = False


class Cases:
    """Runs cases: the texts that have names, the files that are there, and what came of the cases, without what was asked for."""

    def __init__(self, ask: Ask) -> None:
        self.ask = ask
        self.texts: dict[str, str] = {}
        self.files: dict[str, str] = {}
        self.case = Case()
        self.most = 0
        self.told: list[str] = []

    def run_folder(self, folder: Path) -> list[str]:
        """What comes of each case that the index of the folder names; of those that are left out, nothing."""
        for line in (folder / "index").read_text(encoding="latin-1").splitlines():
            name, most = line.split(" ")
            self.most = int(most)
            self.run_file((folder / name).read_bytes().decode("latin-1"))
        return self.told

    def run_file(self, content: str) -> None:
        self.files = {}
        first, *chunks = content.split("\n== ")
        self.take(first)
        for chunk in chunks:
            name, _, words = chunk.partition("\n-- ")[0].partition(":")
            self.case = Case((words or "play f").split())
            each = self.take(chunk)
            if each:
                self.run_each(name, each)
            else:
                self.run_one(name)

    def take(self, chunk: str) -> Optional[Section]:
        """Takes the sections of these lines, and answers the last one if each of its lines is a case."""
        last = None
        for lines in chunk.split("\n-- ")[1:]:
            section = Section.of(lines)
            last = section if section.each else None
            if not section.each:
                self.set(section.target, self.text(section))
        return last

    def set(self, target: str, text: str) -> None:
        """Puts a text where it belongs: it is typed, says what fails, has a name, or is a file."""
        if target == "typed":
            self.case.typed = text
        elif target in ("failing call", "failing load"):
            self.case.fails = True
        else:
            name = target.removeprefix("text ")
            if name == target:
                self.files[name] = text
            self.texts[name] = text

    def run_each(self, name: str, section: Section) -> None:
        """Runs a case for each line of the section, for each text that it changes."""
        if section.target == "failing call" and not section.body:
            self.told.append("")
            return
        if section.base is None:
            self.run_lines(name, section, "")
            return
        for base in section.base.split(" and "):
            if section.target.startswith("cut "):
                self.run_cuts(name, section.target[4:], self.texts[base])
            else:
                self.run_lines(f"{name}, {base}", section, self.texts[base])

    def run_lines(self, name: str, section: Section, base: str) -> None:
        for number, line in enumerate(section.body.split("\n"), 1):
            if section.target == "words":
                self.case.words = line.split()
            elif section.base is None:
                self.set(section.target, self.spelled(line)[0])
            else:
                self.set(section.target, self.changed(base, line))
            self.run_one(f"{name}/{number}")

    def run_one(self, name: str) -> None:
        """Asks the program, writes what came of it, and keeps what it said under the name `said`."""
        if self.case.fails:
            self.told.append("")
            return
        status, said = self.ask(self.case.words, self.files, self.case.typed)
        self.texts["said"] = said
        self.told.append(f"{name}: status {status}, said{account(said, self.most)}")

    def run_cuts(self, name: str, file: str, text: str) -> None:
        """Runs the case with each beginning of a text as this file, and writes where what comes of it becomes another."""
        self.files[file] = text
        _, whole = self.ask(self.case.words, self.files, self.case.typed)
        told, last = f"{name}:\n", None
        for length in range(len(text) + 1):
            self.files[file] = text[:length]
            status, said = self.ask(self.case.words, self.files, self.case.typed)
            part = "all" if said == whole else "a beginning" if whole.startswith(said) else "something else"
            if last != (status, part):
                last = status, part
                told += f"    from {length} on status {status} and {part}\n"
        self.told.append(told)

    def text(self, section: Section) -> str:
        """The text that the whole body says."""
        if section.base is not None:
            text = self.texts[section.base]
            for change in section.body.splitlines():
                text = self.changed(text, change)
            return text
        text, ends_line = self.spelled(section.body)
        return text + "\n" if ends_line and section.body else text

    def spelled(self, body: str) -> tuple[str, bool]:
        """What a body spells, and whether its end is the end of a line."""
        return "".join(self.pieces(body, 0)), not re.search(r"(?<!\\)(?:\\\\)*\\$", body)

    def pieces(self, body: str, number: int) -> Iterator[str]:
        at = 0
        for found in ESCAPE.finditer(body):
            yield body[at : found.start()]
            at = found.end()
            name, byte, repeated, other = found.groups()
            if name is not None:
                yield self.texts[name]
            elif byte is not None:
                yield chr(int(byte, 16))
            elif repeated is not None:
                yield from self.repeated(repeated)
            elif other is not None:
                yield str(number) if other == "#" else ESCAPED[other]
        yield body[at:]

    def repeated(self, inner: str) -> Iterator[str]:
        times, _, body = inner.partition("|")
        if "\\#" not in body:
            yield "".join(self.pieces(body, 0)) * int(times)
            return
        for number in range(int(times)):
            yield from self.pieces(body, number)

    def changed(self, text: str, change: str) -> str:
        """A text with the change that a line names."""
        lines = LINES.findall(text)
        if change == "-":
            return text
        if change == "returns":
            return text.replace("\n", "\r\n")
        if change == "open":
            return text.removesuffix("\n")
        if change == "record":
            return "".join(line for line in lines if not line.startswith("?"))
        if change.startswith("~ "):
            old, _, new = change[2:].partition(" => ")
            before, found, after = text.partition(self.spelled(old)[0])
            assert found, f"a part that is not there: {change}"
            return before + self.spelled(new)[0] + after
        number, bar, body = change.partition(" |")
        if not bar:
            return "".join(lines[: int(number)])
        place = int(number) - 1
        if body and place < len(lines) and lines[place].endswith("\n"):
            return "".join([*lines[:place], self.spelled(body.removeprefix(" "))[0] + "\n", *lines[place + 1 :]])
        return "".join(lines[:place] + lines[place + 1 :])


def account(said: str, most: int) -> str:
    """How what was said is written: in the same line if it is one, in lines below, or by its length and sum if it is long."""
    if len(said) > most:
        return f" {len(said)} bytes, sum {checksum(said):016x}\n"
    if not said:
        return " nothing\n"
    if said.endswith("\n") and said.count("\n") == 1:
        return f" {said}"
    lines = "".join(f"    {line}" for line in LINES.findall(said))
    return "\n" + lines + ("" if said.endswith("\n") else "\\\n")


def checksum(said: str) -> int:
    """A sum of bytes in which each place counts (Fowler, Noll and Vo, 64 bits)."""
    value = 0xCBF29CE484222325
    for byte in said.encode("latin-1"):
        value = (value ^ byte) * 0x100000001B3 & 0xFFFFFFFFFFFFFFFF
    return value


def expected(text: str) -> list[str]:
    """What `stdout` has of each case, without what was asked for."""
    text = re.sub(r"^([^ ].*?: status [0-9]+), asked.*?, said", r"\1, said", text, flags=re.MULTILINE)
    return re.findall(r"^[^ \n].*\n(?:    .*\n)*", text, re.MULTILINE)
