"""Asks the program, with a limit of time and of memory, for as long as the answer is wanted."""

from __future__ import annotations

import os
import subprocess
import sys
import tempfile
import time
from typing import Callable, Optional

from ceptre_tools.program import REFUSED, REJECTED, Answer, CannotRun, command

# How long the program may take for one answer, and how much memory.
SECONDS, MEMORY = 10.0, 4 << 30

# How often it is asked whether the answer is still wanted, in seconds.
OFTEN = 0.02


class Stale(Exception):
    """The answer is not wanted any more: the text was changed."""


class Asker:
    """Asks about texts, which it keeps in a folder of its own."""

    def __init__(self, is_stale: Callable[[], bool] = lambda: False) -> None:
        self.is_stale = is_stale
        self.folder = tempfile.TemporaryDirectory(prefix="ceptre-server-")

    def close(self) -> None:
        """Takes its folder away."""
        self.folder.cleanup()

    def written(self, text: str, name: str) -> str:
        """The path of a file with this text; the next one of the name takes its place."""
        path = os.path.join(self.folder.name, name)
        with open(path, "wb") as file:
            file.write(text.encode("latin-1"))
        return path

    def run(self, *words: str) -> Answer:
        """What the program answers, called with these words."""
        if self.is_stale():
            raise Stale
        program = command()
        try:
            child = subprocess.Popen(
                [program, *words],
                stdin=subprocess.DEVNULL,
                stdout=subprocess.PIPE,
                stderr=subprocess.DEVNULL,
            )
        except OSError as error:
            raise CannotRun(f"{program}: {error.strerror}") from error
        with child:
            try:
                limit_memory(child.pid)
                text = self.output(child).decode("latin-1")
            except BaseException:
                child.kill()
                raise
        if child.returncode < 0:
            raise CannotRun(f"the program was ended by signal {-child.returncode}")
        return Answer(child.returncode, text.removesuffix("\n").split("\n") if text else [])

    def output(self, child: subprocess.Popen[bytes]) -> bytes:
        """All that a child writes."""
        end = time.monotonic() + SECONDS
        while True:
            try:
                return child.communicate(timeout=OFTEN)[0]
            except subprocess.TimeoutExpired:
                if self.is_stale():
                    raise Stale from None
                if time.monotonic() > end:
                    raise CannotRun(f"the program took longer than {SECONDS:.0f} seconds") from None

    def refusal_of(self, text: str) -> Optional[str]:
        """The line by which the program refuses a text, or None where it accepts it."""
        answer = self.run("check", self.written(text, "asked.cep"), os.devnull)
        if answer.status == REJECTED and answer.lines == ["refused 1 Line"]:
            return None
        return answer.of(REFUSED).line

    def verdict(self, world: str, log: str) -> str:
        """What the program says of a transcript of a world, both given as texts."""
        answer = self.run("check", self.written(world, "asked.cep"), self.written(log, "asked.log"))
        return answer.line


def limit_memory(process: int) -> None:
    """Sets the most memory of a process, where the system can."""
    if sys.platform == "linux":
        import resource

        try:
            resource.prlimit(process, resource.RLIMIT_AS, (MEMORY, MEMORY))
        except OSError:
            pass
