"""The script `publish`."""

from __future__ import annotations

import os
import sys
from argparse import Namespace
from typing import Any, Optional

from ceptre_tools.explain import report
from ceptre_tools.explain.refusal import Refusal
from ceptre_tools.program import MOST_LOG, MOST_WORLD, CannotRun, opened, refusal
from ceptre_tools.publish.about import title_of, words_beside
from ceptre_tools.publish.module import module
from ceptre_tools.publish.page import Run, page, prose_of
from ceptre_tools.publish.site import Entry, index, worlds_of
from ceptre_tools.publish.walk import verdict, walk_of
from ceptre_tools.terminal import USAGE, complain, script
from ceptre_tools.text import printable, shown

WRITTEN, REJECTED = 0, 1

# A derivation of more levels may need more of a browser's stack than there is.
MOST_HEIGHT = 128

HEIGHT = f"a page has derivations of at most {MOST_HEIGHT} levels, since more need more of the stack than browsers have"

# Terms may be nested 512 deep, and writing one takes some calls for each.
CALLS = 10_000


class Rejected(Exception):
    """There is no page of it, and why, in lines."""


def accepted(path: str, text: str, readable: str) -> None:
    """Nothing where a world is accepted, or else the account of its refusal."""
    line = refusal(readable)
    if line:
        raise Rejected("\n".join(report.lines(Refusal.of(text, line), printable(path))))


def say_faults(path: str, text: str) -> None:
    """Names the templates that do not fit the world."""
    for fault in prose_of(text).faults:
        print(f"publish: {printable(path)}:{fault.line}: {shown(fault.said)}", file=sys.stderr)


def run_of(words: Namespace, path: str) -> Run:
    """How a world is played: by the words of the call; in a site else by what stands beside it."""
    beside = words_beside(path) if words.site else None

    def given(name: str) -> Optional[int]:
        own: Optional[int] = getattr(words, name)
        return getattr(beside, name) if own is None and beside else own

    seed, height = given("seed"), given("height")
    if height is not None and height > MOST_HEIGHT:
        raise Rejected(f"{printable(path)}: height={height}: {HEIGHT}")
    return Run(42 if seed is None else seed, given("players") or 0, height, given("turns"))


def walked(words: Namespace, text: str, world: str, run: Run) -> tuple[dict[str, Any], Run]:
    """What is shown of the transcript, and how one goes on from it."""
    with opened(words.transcript, MOST_LOG) as (log_text, log):
        said = verdict(world, log)
        if said:
            raise Rejected(f"{printable(words.transcript)}: {shown(said)}")
        data, run = walk_of(text, world, log_text, log, run)
    if run.height and run.height > MOST_HEIGHT:
        raise Rejected(f"{printable(words.transcript)}: height {run.height}: {HEIGHT}")
    return data, run


def name_of_page(path: str) -> str:
    """The name of a world's page, which is never that of a list."""
    name = os.path.splitext(os.path.basename(path))[0]
    return "index-world.html" if name == "index" else name + ".html"


def page_of(words: Namespace, path: str, code: bytes) -> tuple[str, Entry]:
    """The page of a world, and its entry in a list."""
    with opened(path, MOST_WORLD) as (text, readable):
        accepted(path, text, readable)
        say_faults(path, text)
        run, walk = run_of(words, path), None
        if words.transcript:
            walk, run = walked(words, text, readable, run)
        title = words.title if words.title and not words.site else title_of(path)
        return page(path, text, title, run, code, walk), Entry.of(name_of_page(path), title, path, text)


def is_page(path: str) -> bool:
    """Whether a file is empty or a page, so that another may take its place."""
    with open(path, "rb") as file:
        return file.read(15) in (b"", b"<!DOCTYPE html>")


def write(path: str, text: str) -> None:
    """Writes a page, and prints where it is."""
    if os.path.isfile(path) and not is_page(path):
        raise CannotRun(f"{printable(path)}: it is no page, and is kept")
    with open(path, "w", encoding="utf-8", newline="\n") as file:
        file.write(text)
    print(printable(path))


def one(words: Namespace) -> int:
    """Writes the page of one world."""
    try:
        text, entry = page_of(words, words.world, module())
    except Rejected as error:
        print(error)
        return REJECTED
    write(words.output or entry.page, text)
    return WRITTEN


def site(words: Namespace) -> int:
    """Writes the pages of a folder's worlds, and their list. What is refused has none."""
    code, entries, status = module(), [], WRITTEN
    folder = words.output or "site"
    os.makedirs(folder, exist_ok=True)
    for path in worlds_of(words.site):
        try:
            text, entry = page_of(words, path, code)
        except Rejected as error:
            print(error)
            status = REJECTED
            continue
        write(os.path.join(folder, entry.page), text)
        entries.append(entry)
    title = words.title or title_of(os.path.abspath(words.site))
    write(os.path.join(folder, "index.html"), index(title, entries))
    return status


def publish(words: Namespace) -> int:
    sys.setrecursionlimit(CALLS)
    if bool(words.world) == bool(words.site):
        return complain("publish", "either a WORLD or --site FOLDER is named", USAGE)
    if words.transcript and (words.site or words.players):
        return complain("publish", "--transcript is for one WORLD, and for one player", USAGE)
    return site(words) if words.site else one(words)


def main() -> int:
    return script("publish", publish)
