"""Runs the program: what CEPTRE names, or the one of this checkout or installation."""

import contextlib
import functools
import os
import subprocess
from collections.abc import Iterator
from typing import Any, NamedTuple, Optional

try:
    import resource
except ImportError:  # Only where there are no such limits.
    resource = None  # type: ignore[assignment]

from ceptre_tools.text import read_text

# The folder that has `tools/` in it: of a checkout, or `share/ceptre` of an installation.
TOP = os.path.dirname(os.path.dirname(os.path.dirname(os.path.realpath(__file__))))

# Statuses of the program, as docs/FORMATS.md has them.
DONE, REJECTED, USAGE, REFUSED, LIMIT, UNREAD, NO_MEMORY = 0, 1, 2, 3, 4, 7, 9

# The most bytes of memory that the program may take, unless --memory says another number.
MEMORY = 4 << 30

# The most bytes of a world and of a transcript, as docs/LIMITS.md has them.
MOST_WORLD, MOST_LOG = 1 << 20, 1 << 26


class CannotRun(Exception):
    """The program is not there, or ended without an answer."""


class Answer(NamedTuple):
    """What the program answers: its status, and the lines that it writes."""

    status: int
    lines: list[str]

    @property
    def line(self) -> str:
        """The first line, or what is said of a program that wrote none."""
        return self.lines[0] if self.lines else ended(self.status)

    def of(self, *statuses: int) -> "Answer":
        """The same, if it has one of these statuses and wrote something; else it is no answer."""
        if self.status not in statuses or not self.lines:
            raise CannotRun(ended(self.status) if self.status == NO_MEMORY else self.line)
        return self


def ended(status: int) -> str:
    """What is said of a program that ended without an answer."""
    return "out of memory" if status == NO_MEMORY else f"the program ended with status {status}"


@functools.lru_cache(maxsize=None)
def found() -> str:
    """The path of the program of this checkout, which is built where no up-to-date one is there, or
    else of the release or the installation."""
    finder = os.path.join(TOP, ".ci", "program")
    if not os.path.exists(finder):
        released = os.path.join(TOP, "lib", "ceptre", "ceptre")
        installed = os.path.normpath(os.path.join(TOP, "..", "..", "lib", "ceptre", "ceptre"))
        return released if os.path.exists(released) else installed
    done = subprocess.run([finder], stdout=subprocess.PIPE, check=False)
    if done.returncode != 0:
        raise CannotRun("there is no up-to-date program")
    return os.fsdecode(done.stdout.removesuffix(b"\n"))


def command() -> str:
    """The path of the program."""
    return os.environ.get("CEPTRE") or found()


def limit_memory(size: int) -> None:
    """Has each program that is started from now on take at most so many bytes of memory."""
    globals()["MEMORY"] = size


def started(*words: str, **streams: Any) -> "subprocess.Popen[bytes]":
    """The program as a child, called with these words, under the limit of memory."""
    program = command()
    try:
        child = subprocess.Popen([program, *words], **streams)
    except OSError as error:
        raise CannotRun(f"{program}: {error.strerror}") from error
    if hasattr(resource, "prlimit"):
        # A child that is gone needs no limit, and one that is under a lower limit already keeps that.
        with contextlib.suppress(OSError, ValueError):
            resource.prlimit(child.pid, resource.RLIMIT_AS, (MEMORY, MEMORY))
    return child


def run(*words: str, typed: bytes = b"") -> Answer:
    """What the program answers, called with these words."""
    with started(*words, stdin=subprocess.PIPE, stdout=subprocess.PIPE) as child:
        try:
            text = child.communicate(typed)[0].decode("latin-1")
        except BaseException:
            child.kill()
            raise
    return Answer(child.returncode, text.removesuffix("\n").split("\n") if text else [])


def refusal(world: str) -> Optional[str]:
    """The line by which a world is refused, or None where it is accepted.

    An empty transcript is refused without a run, and only after an accepted world.
    """
    answer = run("check", world, os.devnull)
    if answer.status == REJECTED and answer.lines == ["refused 1 Line"]:
        return None
    return answer.of(REFUSED).line


def refusal_of(text: str) -> Optional[str]:
    """The line by which a text is refused, or None where it is accepted."""
    with written(text, ".cep") as path:
        return refusal(path)


def verdict(world: str, text: str) -> Answer:
    """What the program says of a transcript with this text."""
    with written(text, ".log") as path:
        return run("check", world, path)


@contextlib.contextmanager
def written(text: str, suffix: str) -> Iterator[str]:
    """The path of a file with this text, which goes away afterwards."""
    import tempfile  # Few calls need it, and it takes a tenth of the time in which a script starts.

    with tempfile.NamedTemporaryFile(suffix=suffix) as file:
        file.write(text.encode("latin-1"))
        file.flush()
        yield file.name


@contextlib.contextmanager
def opened(path: str, most: int) -> Iterator[tuple[str, str]]:
    """The text of a file of at most so many bytes, and a path by which the program reads the same.

    A pipe gives its bytes only once, and the program takes a name only in UTF-8, so it gets the text
    of others in a file of its own.
    """
    text = read_text(path, most)
    if os.path.isfile(path) and not any("\ud800" <= letter <= "\udfff" for letter in path):
        yield text, path
    else:
        with written(text, os.path.splitext(path)[1] if path.isascii() else "") as copy:
            yield text, copy


def options(**given: Optional[int]) -> list[str]:
    """Options of a run, such as seed=7, where they are given."""
    return [f"{name}={value}" for name, value in given.items() if value is not None]
