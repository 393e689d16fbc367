"""The program as a module for browsers, `ceptre.wasm`: the one that is there, or one that is made."""

from __future__ import annotations

import os
import subprocess

from ceptre_tools.program import TOP, CannotRun

NAME = "ceptre.wasm"


def sources() -> str:
    """What the sources of this checkout are, as its own script says it."""
    script = os.path.join(TOP, ".ci", "sources")
    return subprocess.run([script], stdout=subprocess.PIPE, text=True, check=False).stdout.strip()


def is_of(path: str, now: str) -> bool:
    """Whether a module that was made in this checkout is of its present sources, as a file beside it says."""
    stamp = path + ".sources"
    if not os.path.exists(path) or not os.path.exists(stamp):
        return False
    with open(stamp, encoding="utf-8") as file:
        return file.read().strip() == now


def make(folder: str) -> bool:
    """Makes the module in a folder, and notes of which sources it is; answers whether that could be done."""
    now, words = sources(), [os.path.join(TOP, ".ci", "wasm"), folder]
    if subprocess.run(words, stdout=subprocess.DEVNULL, check=False).returncode != 0:
        return False
    with open(os.path.join(folder, NAME + ".sources"), "w", encoding="utf-8") as file:
        file.write(now + "\n")
    return True


def path_of_module() -> str:
    """The path of the module: what CEPTRE_WASM names, that of an installation, or that of this checkout."""
    folder = os.path.join(TOP, "out")
    installed, own = os.path.join(TOP, "web", NAME), os.path.join(folder, NAME)
    for path in (os.environ.get("CEPTRE_WASM"), installed if os.path.exists(installed) else None):
        if path:
            return path
    if not os.path.exists(os.path.join(TOP, ".ci", "wasm")):
        raise CannotRun(f"there is no {NAME}, which a page needs")
    if not is_of(own, sources()) and not make(folder):
        raise CannotRun(f"there is no up-to-date {NAME}, and none can be made")
    return own


def module() -> bytes:
    """The bytes of the module."""
    with open(path_of_module(), "rb") as file:
        return file.read()
