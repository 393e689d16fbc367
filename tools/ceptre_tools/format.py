"""Writes worlds in the one layout: `tools/format [--check] [WORLD..]`."""

from __future__ import annotations

import argparse
import os
import sys
from typing import Optional

from ceptre_tools.layout import formatted
from ceptre_tools.program import MOST_WORLD
from ceptre_tools.server.asking import Asker
from ceptre_tools.server.formatting import is_left
from ceptre_tools.terminal import complain, script
from ceptre_tools.text import printable, read_text, unreadable

DONE, NOT_DONE = 0, 1


def laid_out(path: str, text: str, asker: Asker) -> Optional[str]:
    """The text in the one layout, or None where it is left as it is, which is said."""
    refusal = asker.refusal_of(text)
    if not is_left(refusal):
        return formatted(text)
    complain("format", f"{path}: {refusal}: it is left as it is")
    return None


def of_file(path: str, check: bool, asker: Asker) -> bool:
    """Brings a file into the one layout, or looks whether it is; answers whether it is then."""
    old = read_text(path, MOST_WORLD)
    new = laid_out(path, old, asker)
    if new is None or new == old:
        return new is not None
    if check:
        print(f"{printable(path)}: it is not in the layout")
        return False
    write(path, new)
    print(f"{printable(path)}: written")
    return True


def write(path: str, text: str) -> None:
    """Puts a text in place of a file at once, so that it is never there in part."""
    path = os.path.realpath(path)
    other = f"{path}.new"
    with open(other, "wb") as file:
        file.write(text.encode("latin-1"))
    os.chmod(other, os.stat(path).st_mode)
    os.replace(other, path)


def of_input(check: bool, asker: Asker) -> bool:
    """Writes what comes at standard input in the one layout; with `check` it only answers whether it is."""
    old = sys.stdin.buffer.read().decode("latin-1")
    new = laid_out("standard input", old, asker)
    if not check:
        sys.stdout.buffer.write((old if new is None else new).encode("latin-1"))
        sys.stdout.buffer.flush()
    return new is not None and (new == old or not check)


def laid_out_all(words: argparse.Namespace) -> int:
    """The status of a call."""
    asker, status = Asker(), DONE
    try:
        if not words.world and not of_input(words.check, asker):
            status = NOT_DONE
        for path in words.world:
            try:
                status = max(status, DONE if of_file(path, words.check, asker) else NOT_DONE)
            except OSError as error:
                status = complain("format", unreadable(error))
    finally:
        asker.close()
    return status


def main() -> int:
    """The status of a call."""
    return script("format", laid_out_all)
