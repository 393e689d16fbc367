"""A run of `ceptre play` as a child, which is given one choice at a time and writes its transcript."""

import re
import subprocess
from collections.abc import Iterable
from typing import IO, Optional

from ceptre_tools.program import CannotRun, ended, started

OFFER = re.compile(r"\? ([0-9]+) (.*)")


class Run:
    """The child, the lines that it wrote, the choices that it was given, and the offers of its last
    question, which are none once it has ended. A transcript is copied to the file `log` as it comes."""

    def __init__(self, words: list[str], log: str = "") -> None:
        self.words, self.path = words, log
        self.log: Optional[IO[bytes]] = None
        self.lines: list[str] = []
        self.typed: list[int] = []
        self.offers: list[str] = []
        # In a session of its own, so that Ctrl-C at the terminal does not end it.
        streams = {"stdin": subprocess.PIPE, "stdout": subprocess.PIPE}
        self.child = started("play", *words, start_new_session=True, **streams)
        assert self.child.stdin and self.child.stdout
        self.input, self.output = self.child.stdin, self.child.stdout

    def play(self, typed: Iterable[int] = ()) -> None:
        """Reads the first question, and gives these choices as long as there are questions."""
        self.read()
        for choice in typed:
            if not self.offers:
                break
            self.choose(choice)

    def read(self) -> None:
        """Reads up to the next question, or up to the end."""
        self.offers = []
        for line in self.output:
            text = self.take(line)
            if text == "? choose":
                break
            offer = OFFER.fullmatch(text)
            if offer:
                self.offers.append(offer[2])
            else:
                self.offers.clear()
        else:
            self.offers = []
            self.child.wait()
        if self.log:
            self.log.flush()

    def take(self, line: bytes) -> str:
        """Takes in a line that the child wrote."""
        if self.path and not self.lines and line == b"ceptre 2\n":
            self.log = open(self.path, "wb")
        if self.log:
            self.log.write(line)
        self.lines.append(line.decode("latin-1").removesuffix("\n"))
        return self.lines[-1]

    def choose(self, choice: int) -> None:
        """Gives the number of one of the offers."""
        self.typed.append(choice)
        try:
            self.input.write(f"{choice}\n".encode())
            self.input.flush()
        except BrokenPipeError:
            pass  # A child that is gone is seen by what it wrote.
        self.read()

    def close(self) -> int:
        """Ends the input, reads what the child then writes, and answers its status."""
        try:
            self.input.close()
        except BrokenPipeError:
            pass
        if not self.output.closed:
            for line in self.output:
                self.take(line)
            self.output.close()
        self.offers = []
        if self.log:
            self.log.close()
            self.log = None
        return self.child.wait()

    @property
    def end(self) -> str:
        """The end word, or nothing while the run goes on."""
        ends = (line for line in reversed(self.lines) if line.startswith("end "))
        return next(ends, "").removeprefix("end ")

    def stopped(self) -> CannotRun:
        """What is said of a child that ended without an end word."""
        is_transcript = self.lines[:1] == ["ceptre 2"]
        said = ended(self.child.wait())
        return CannotRun(self.lines[0] if self.lines and not is_transcript else said)
