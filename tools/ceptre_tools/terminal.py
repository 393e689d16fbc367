"""How a script begins and ends wherever its output goes, and how it says what it does meanwhile."""

import argparse
import errno
import io
import os
import signal
import sys
import time
from collections.abc import Callable, Iterable, Iterator
from typing import Optional, TypeVar

from ceptre_tools import commands
from ceptre_tools.program import CannotRun, limit_memory
from ceptre_tools.text import unreadable

# The status of a script that could not read, run or write something, and of words that have no form.
FAILED, USAGE = 3, 2

Item = TypeVar("Item")
Result = TypeVar("Result")

Work = Callable[[argparse.Namespace], int]

# The name of the script that runs, so that a library says nothing of how far it is.
running = ""


class Closed(io.TextIOBase):
    """A stream that was closed before the script began: what is written to it cannot be."""

    def write(self, _text: str) -> int:
        raise OSError(errno.EBADF, "standard error is closed")


def script(name: str, work: Work) -> int:
    """The status of a script: what its work answers, once all that it wrote is where it belongs.

    A pipe that closes, and Ctrl-C, end the script in silence, as they end other commands. What the
    output cannot show is written by its number.
    """
    closed = fill_the_standard_streams(commands.SCRIPTS[name].needs_input)
    if closed:
        return complain(name, f"{closed} is closed")
    for stream in (sys.stdout, sys.stderr):
        if isinstance(stream, io.TextIOWrapper):
            stream.reconfigure(errors="backslashreplace")
    globals()["running"] = name
    try:
        status = answered(name, work)
        sys.stdout.flush()
        return status
    except BrokenPipeError:
        end_by(signal.SIGPIPE)
    except KeyboardInterrupt:
        end_by(signal.SIGINT)
    except OSError as error:
        complain(name, unreadable(error))
    # What is left in the buffer would fail again when Python ends.
    os.dup2(os.open(os.devnull, os.O_WRONLY), 1)
    return FAILED


def answered(name: str, work: Work) -> int:
    """The status of a script's work. What cannot be read, run or written is said in one line."""
    try:
        words = commands.parser(name).parse_args()
        if getattr(words, "memory", None):
            limit_memory(words.memory)
        return work(words)
    except BrokenPipeError:
        raise
    except CannotRun as error:
        return complain(name, str(error))
    except OSError as error:
        return complain(name, unreadable(error))
    except MemoryError:
        return complain(name, "out of memory")


def complain(name: str, said: str, status: int = FAILED) -> int:
    """Says something in a line of standard error, as far as that can be, and answers a status."""
    try:
        print(f"{name}: {said}", file=sys.stderr)
    except OSError:
        pass
    return status


def fill_the_standard_streams(needs_input: bool) -> str:
    """Sees to it that no file takes the number of a standard stream that is closed, and answers which
    of input and output is."""
    for number in range(3):
        try:
            os.fstat(number)
        except OSError:
            os.open(os.devnull, os.O_RDWR)
    streams = {"output": sys.stdout, **({"input": sys.stdin} if needs_input else {})}
    if sys.stderr is None:
        sys.stderr = Closed()
    return next((f"standard {name}" for name, stream in streams.items() if stream is None), "")


def end_by(number: int) -> None:
    """Ends this process by a signal, as if nothing had caught it."""
    signal.signal(number, signal.SIG_DFL)
    os.kill(os.getpid(), number)


def followed(results: Iterable[Result], of_all: int) -> Iterator[Result]:
    """The same results. Where a script runs and standard error is a terminal, it says once a second has
    passed how many of all are there, and in which time the others are to be expected."""
    begun, is_shown = time.monotonic(), False
    try:
        for done, result in enumerate(results, 1):
            taken = time.monotonic() - begun
            if taken > 1 and done < of_all and running and sys.stderr.isatty():
                left = of_all - done
                said = f"{running}: {done} of {of_all}, {left} left, {taken / done * left:.0f} s"
                print(f"\r{said}\033[K", end="", file=sys.stderr, flush=True)
                is_shown = True
            yield result
    finally:
        if is_shown:
            print("\r\033[K", end="", file=sys.stderr, flush=True)


def side_by_side(work: Callable[[Item], Result], items: Iterable[Item], jobs: Optional[int]) -> list[Result]:
    """What the work answers for each item, so many at once, while it is said how far it came."""
    from concurrent.futures import ThreadPoolExecutor  # It takes as long as half of a script's start.

    waiting = list(items)
    with ThreadPoolExecutor(jobs or os.cpu_count()) as pool:
        return list(followed(pool.map(work, waiting), len(waiting)))
