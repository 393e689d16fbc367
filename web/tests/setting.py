"""What the tests of pages share: where things stand, how a page is made, and what the program says."""

from __future__ import annotations

import os
import subprocess
import sys

WEB = os.path.dirname(os.path.dirname(os.path.abspath(__file__)))
TOP = os.path.dirname(WEB)
WORLDS = os.path.join(TOP, "worlds")
sys.path.insert(0, os.path.join(TOP, "tools"))

# The gate tests what it has built.
os.environ.setdefault("CEPTRE", os.path.join(TOP, "crates", "ceptre", "out", "ceptre"))
os.environ.setdefault("CEPTRE_WASM", os.path.join(TOP, "out", "ceptre.wasm"))
MISSING = "" if os.path.exists(os.environ["CEPTRE_WASM"]) else "ceptre.wasm is not made"


def publish(folder: str, *words: str) -> str:
    """Calls the script in a folder, and answers what it prints."""
    command = [os.path.join(TOP, "tools", "publish"), *words]
    done = subprocess.run(command, cwd=folder, capture_output=True, text=True, check=False)
    if done.returncode != 0:
        raise AssertionError(f"publish {words}: {done.stdout}{done.stderr}")
    return done.stdout


def made(folder: str, name: str, text: str, *words: str) -> str:
    """The path of the page of a world with this text."""
    world = os.path.join(folder, name + ".cep")
    with open(world, "w", encoding="utf-8") as file:
        file.write(text)
    publish(folder, world, *words)
    return os.path.join(folder, name + ".html")


def changed(path: str, old: str, new: str) -> str:
    """The path of a page in which a text is another."""
    with open(path, encoding="utf-8") as file:
        text = file.read()
    if old not in text:
        raise AssertionError(f"{path} has no {old}")
    other = path.replace(".html", "-changed.html")
    with open(other, "w", encoding="utf-8") as file:
        file.write(text.replace(old, new))
    return other


def native(typed: str, *words: str) -> bytes:
    """What the program writes, called with these words."""
    command = [os.environ["CEPTRE"], *words]
    return subprocess.run(command, input=typed.encode(), stdout=subprocess.PIPE, check=False).stdout


def read(path: str) -> str:
    with open(path, encoding="utf-8") as file:
        return file.read()


def choices_of(world: str) -> list[str]:
    """What was typed when a world was played once."""
    return read(os.path.join(WORLDS, world + ".in")).split()


def words_of(world: str) -> list[str]:
    """The options with which a world was played once."""
    path = os.path.join(WORLDS, world + ".words")
    return read(path).split() if os.path.exists(path) else []
