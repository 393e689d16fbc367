"""What the tests of the tools share: where things stand, and how a tool is called."""

import contextlib
import functools
import io
import os
import importlib
import re
import subprocess
import sys

TOP = os.path.dirname(os.path.dirname(os.path.dirname(os.path.abspath(__file__))))
TOOLS = os.path.join(TOP, "tools")
WORLDS = os.path.join(TOP, "worlds")
sys.path.insert(0, TOOLS)

from ceptre_tools.program import run
from ceptre_tools.terminal import answered

# The gate tests what it has built.
os.environ.setdefault("CEPTRE", os.path.join(TOP, "crates", "ceptre", "out", "ceptre"))


def tool(name, *words, folder=TOP, **environment):
    """The status, the output and the errors of a tool that is called in a folder."""
    done = subprocess.run(
        [os.path.join(TOOLS, name), *words],
        cwd=folder,
        env={**os.environ, **environment},
        capture_output=True,
        text=True,
        check=False,
    )
    return done.returncode, done.stdout, done.stderr


def called(name, *words):
    """The same as `tool` at the top, within this process, which is quicker."""
    work, output, errors = work_of(name), io.StringIO(), io.StringIO()
    argv, folder, sys.argv = sys.argv, os.getcwd(), [name, *words]
    os.chdir(TOP)
    try:
        with contextlib.redirect_stdout(output), contextlib.redirect_stderr(errors):
            status = answered(name, work)
    except SystemExit as end:
        status = end.code
    finally:
        sys.argv = argv
        os.chdir(folder)
    return status, output.getvalue(), errors.getvalue()


@functools.lru_cache(maxsize=None)
def work_of(name):
    """What a tool does with its words, for the tests that call it often."""
    launcher = read(TOOLS, name)
    module = importlib.import_module(re.search(r"^from (\S+) import main$", launcher, re.MULTILINE)[1])
    return getattr(module, re.search(r'script\("\w+", (\w+)\)', read(module.__file__))[1])


def read(*path):
    with open(os.path.join(*path), encoding="utf-8") as file:
        return file.read()


def usage():
    """The usage line: the forms of each command, as words and options."""
    forms = run().line.removeprefix("usage: ").split(" | ")
    return {
        form.split()[0]: (
            [word for word in form.split()[1:] if "=" not in word],
            re.findall(r"(\w+=)N", form),
        )
        for form in forms
    }


def scripts():
    """The names of all scripts of tools/."""
    names = sorted(os.listdir(TOOLS))
    return [name for name in names if "." not in name and os.path.isfile(os.path.join(TOOLS, name))]


def world_names():
    return sorted(name[:-4] for name in os.listdir(WORLDS) if name.endswith(".cep"))


def typed_and_words(world):
    """What was typed when a world was played, as a path, and its options."""
    typed = os.path.join(WORLDS, world + ".in")
    words = os.path.join(WORLDS, world + ".words")
    return (
        typed if os.path.exists(typed) else os.devnull,
        read(words).split() if os.path.exists(words) else [],
    )


# A world where one atom makes itself again, and the transcript of a hundred steps of it, in version 2.
ROUNDS = """\
a : pred.
stage main = { r : a -o a. }
#trace _ main { a }.
"""
HUNDRED = (
    "ceptre 2\nheight 128\nstage main\nhave 1 a\n"
    + "? 1 r\nstep r\n" * 100
    + "state 100\nhave 1 a\nend turns\nhave 1 a\n"
)
