"""The script `player`."""

import os
import signal
import sys
import threading
import time
from argparse import Namespace

from ceptre_tools.play.table import Table
from ceptre_tools.program import MOST_WORLD, opened, refusal
from ceptre_tools.terminal import complain, script

# Terms may be nested 512 deep, and writing one takes some calls for each.
CALLS = 10_000


ENDINGS = [getattr(signal, name) for name in ("SIGTERM", "SIGHUP") if hasattr(signal, name)]


def leave(*_: object) -> None:
    for number in ENDINGS:
        signal.signal(number, signal.SIG_IGN)
    sys.exit(0)


def insist(told: int) -> None:
    """Sends a signal that ends the game again until it has. One that comes just before Python waits for a line is
    kept until the line is there, and without this the game would go on till then."""
    while True:
        (number,) = os.read(told, 1)
        while number in ENDINGS:
            time.sleep(0.1)
            signal.pthread_kill(threading.main_thread().ident or 0, number)


def leave_by_signals() -> None:
    """Sees to it that a signal ends the game as its player would."""
    for number in ENDINGS:
        signal.signal(number, leave)
    told, tell = os.pipe()
    os.set_blocking(tell, False)
    signal.set_wakeup_fd(tell, warn_on_full_buffer=False)
    threading.Thread(target=insist, args=(told,), daemon=True).start()


def player(words: Namespace) -> int:
    sys.setrecursionlimit(CALLS)
    leave_by_signals()
    with opened(words.world, MOST_WORLD) as (text, world):
        line = refusal(world)
        if line:
            complain("player", f"{words.world}: {line}")
            return complain("player", f"tools/explain {words.world} says how it is mended")
        table = Table(text, [world, *words.option], words)
        try:
            status = table.sit()
            sys.stdout.flush()
            return status
        except BrokenPipeError:
            # Nobody reads on, and the transcript is kept all the same.
            os.dup2(os.open(os.devnull, os.O_WRONLY), 1)
            return 0
        finally:
            table.leave()


def main() -> int:
    return script("player", player)
