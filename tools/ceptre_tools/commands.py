"""The commands: those of the program and the scripts beside it, with their words and options.

The parsers of the scripts are made from this table, and by `.ci/commands` the usage in `./ceptre`,
the completions, the manuals and the tables of docs/FORMATS.md. What completes a word is the ending of
a file (`.cep`), `FILE` for any, the names of something in the world (`rules`, `atoms`), or some words.
"""

import argparse
import os
from collections.abc import Callable
from typing import Any, NamedTuple

from ceptre_tools.program import TOP

END_WORDS = ("quiet", "turns", "offers", "input", "typed", "atom", "state")


class Setting(NamedTuple):
    """An option of the program, such as `seed=N`: what it says, its bounds and what holds without it."""

    name: str
    says: str
    bounds: str
    default: str


class Command(NamedTuple):
    """A command of the program: its words, its options in brackets if they may be left out, one line
    of help, and what the page of formats says of it."""

    name: str
    words: str
    help: str
    says: str

    @property
    def form(self) -> str:
        return f"{self.name} {self.words}"


class Option(NamedTuple):
    """An option of a script, or with a name in capital letters a word."""

    name: str
    help: str
    value: str = ""
    completed: str = ""
    kind: Callable[[str], Any] = str
    default: Any = None
    times: str = ""
    group: str = ""
    short: str = ""

    @property
    def is_word(self) -> bool:
        return not self.name.startswith("-")

    @property
    def choices(self) -> list[str]:
        """The words that complete it, if these are all that may be given."""
        return self.completed.split() if " " in self.completed else []


class Script(NamedTuple):
    """A script: what it is for, its words and options, and its statuses."""

    says: str
    options: tuple[Option, ...]
    statuses: str
    needs_input: bool = False


RUN = "[seed=N] [height=N] [turns=N]"

COMMANDS = (
    Command(
        "play",
        f"FILE {RUN}",
        "play a world",
        "plays the program in the file with the person at standard input and output",
    ),
    Command(
        "check",
        "FILE LOG",
        "check a transcript against a world",
        "checks the transcript in the file LOG against the program in FILE",
    ),
    Command(
        "world",
        f"N {RUN}",
        "run a generated world of so many rooms",
        "runs the generated world of N rooms, from 1 to 5,000, by the seed, and sums it up",
    ),
    Command(
        "renew",
        "FILE LOG",
        "write a legal transcript again in the newest version",
        "checks it likewise, and writes it again in version 2, without the conversation",
    ),
    Command(
        "cause",
        "FILE LOG",
        "list on which earlier steps of a transcript each step rests",
        "checks it likewise, and lists [on which earlier steps each step rests](#the-graph-of-a-transcript)",
    ),
    Command(
        "again",
        "FILE LOG [seed=N]",
        "do the steps of a transcript again in another order",
        "checks it likewise, and does its steps again [in another order](#the-graph-of-a-transcript), which "
        "the seed gives",
    ),
    Command(
        "rounds",
        f"FILE players=N {RUN}",
        "play a world with several players at once",
        "plays the program with so many players, who [choose at once](#rounds)",
    ),
    Command(
        "weigh",
        "FILE KEEPS",
        "judge claims about weights by the rules of a world",
        "judges the [claims](#claims-about-weights) in the file KEEPS by the rules of the program in FILE",
    ),
    Command(
        "dead",
        "FILE",
        "list the rules of a world that can never apply",
        "lists the rules of the program that [can never apply](#dead-rules)",
    ),
)

SETTINGS = (
    Setting("players", "how many play in rounds", "2 to 16, for `rounds` alone", "it has to be given"),
    Setting("seed", "the seed of what nobody chooses", "0 to 18,446,744,073,709,551,615", "42"),
    Setting("height", "how many levels a derivation may have", "1 to 512", "128"),
    Setting(
        "turns",
        "how many turns are done at most",
        "1 to 1,000,000",
        "the number after `#trace`, or 10,000 if that is `_`",
    ),
)

# What completes the words of the commands.
FILES = {"FILE": ".cep", "LOG": ".log", "KEEPS": ".keeps"}


def usage() -> str:
    """The usage line of the program."""
    return "usage: " + " | ".join(command.form for command in COMMANDS)


def count(text: str) -> int:
    """A number of one at least."""
    if int(text) < 1:
        raise ValueError(text)
    return int(text)


def between(least: int, most: int) -> Callable[[str], int]:
    """A number within bounds."""

    def number(text: str) -> int:
        if not text.isdecimal() or not least <= int(text) <= most:
            raise ValueError(text)
        return int(text)

    return number


def size(text: str) -> int:
    """A number of bytes, such as 500M or 4G, and 16M at least."""
    number, unit = (text[:-1], text[-1]) if text[-1:] in ("K", "M", "G") else (text, "")
    found = int(number) << {"": 0, "K": 10, "M": 20, "G": 30}[unit]
    if found < 1 << 24:
        raise ValueError(text)
    return found


WORLD = Option("WORLD", "the file of the world", completed=".cep")
SEED = Option("--seed", "as for `ceptre play`", "N", kind=int)
HEIGHT = Option("--height", "as for `ceptre play`", "N", kind=int)
TURNS = Option("--turns", "as for `ceptre play`", "N", kind=int)
JOBS = Option("--jobs", "how many at once; else one for each processor", "N", kind=count)
MEMORY = Option("--memory", "the most that the program may take, such as 500M (4G)", "SIZE", kind=size)
PROGRAM = "CEPTRE names the program; else it is the one that ./ceptre runs."

EXPLAIN = Script(
    """Explains why a world is refused: the line with a caret, the reason, how it is likely mended, and
what came of trying that. Of an accepted world it hints at what may not be meant. With a transcript it
explains why that is refused, and names the shell line that mends its form; with claims about weights,
which of them is not read.

The program decides; docs/LANGUAGE.md says what each refusal is. A comment that says "meant", in the line
of a hint or in the line before, silences it.""",
    (
        WORLD,
        Option("LOG", "a transcript of it, or claims about it", completed=".log", times="?"),
        Option("--all", "several refusals, at most ten"),
        Option("--hints", "of an accepted world the hints alone"),
        Option(
            "--format",
            "as lines for people, or as a line each in the form of compilers",
            completed="text gcc",
            default="text",
        ),
        MEMORY,
    ),
    """0 the world (and the transcript) is accepted, 1 it is refused and that is explained, or --hints
has some, 2 usage, 3 something could not be read, run or written.""",
)

FOLLOW = Script(
    """Shows a transcript step by step: each offer with its rule, what the step takes (-), needs and keeps
($) and puts (+), and the clauses of each of its `by` lines; or, with --at, the stage and the state
after a step. The program decides first whether the transcript is legal; one that was cut before its
end, as by Ctrl-C, is shown as far as it goes.

With --causes, the earlier steps that a step rests on are shown, as the program's command `cause` says
them: those that put what it uses, and those that used what it takes. What these rest on follows, up
to the start. A transcript that was cut has none. `tools/follow WORLD LOG --dot | dot -Tsvg >PICTURE.svg`
draws all of them.""",
    (
        WORLD,
        Option("LOG", "the transcript", completed=".log"),
        Option("--at", "the state after step K; 0 is the start", "K", kind=int, group="part"),
        Option("--context", "with --at, as a context and a `#trace` that can be pasted into the world"),
        Option("--causes", "the earlier steps that step K rests on", "K", kind=int, group="part"),
        Option("--dot", "all of these causes, as a picture for Graphviz", group="part"),
        MEMORY,
    ),
    """0 it is shown; 1 the transcript is refused, or has no such step; 2 usage; 3 the world is refused, or
the program, the world or the transcript could not be read, or the program has no command `cause`; 4 it
was cut, and is shown as far as it goes.""",
)

GRADE = Script(
    """Grades transcripts of one world: a table as CSV, a row for each.

The program decides. The columns are the file; `accepted`, `refused` or `unread`; for a refused one
the line, the cause, what is likely wrong with its form, and the text of that line; for an accepted
one the number of steps; the height and the end word that it claims; the first file in which the same
was done; then a column for each goal, the points, and what else is not as it was asked.

Of an accepted transcript the states and steps are right. Its height is the one that it was checked
by, so ask for one of at most your own; an end word other than `quiet` is its own claim.""",
    (
        WORLD,
        Option("LOG", "a transcript, or a folder: all of its files NAME.log", completed=".log", times="+"),
        Option(
            "--goal",
            "an atom of the last state (`_` for any term), `have N ATOM` or `none ATOM`, and what it counts "
            "(1); may come again",
            "ATOM[=POINTS]",
            completed="atoms",
            times="*",
        ),
        Option("--height", "the most that is allowed", "N", kind=int, default=512),
        Option("--end", "the end word that is asked", "WORD", completed=" ".join(END_WORDS)),
        Option(
            "--typed",
            "what all were to type: it is played again, and each has to have done the same; an ending such "
            "as .in names a file beside each LOG",
            "FILE",
            completed="FILE",
            default="",
        ),
        Option("--seed", "the seed of what is played again", "N", kind=int),
        Option("--turns", "the turns of what is played again", "N", kind=int),
        Option(
            "--json", "in the shape of Gradescope's results.json, for several transcripts a list of such"
        ),
        JOBS,
        MEMORY,
    ),
    """0 all are accepted, and all that is asked is met; 1 some are refused; 2 usage, or the world has no
such atom as a goal names; 3 the world is refused, or the program, the world or a transcript could not
be read; 4 all are accepted, and something that is asked is not met.""",
)

PLAYER = Script(
    """Plays a world at a terminal: readable offers, a page at a time, chosen by number or by words; undo,
the state, saving and loading. The program plays; this script only reads what it writes and types the
numbers. Templates in comments of the world make prose of it: docs/FORMATS.md lists their forms.
`help` in the game lists its commands.""",
    (
        WORLD,
        Option(
            "OPTION",
            "as for `ceptre play`: seed=N, height=N, turns=N",
            completed="seed= height= turns=",
            times="*",
        ),
        Option("--log", "keep the transcript, as the program writes it", "FILE", completed="FILE"),
        Option(
            "--load",
            "begin with the choices that were saved there",
            "FILE",
            completed="FILE",
            group="begin",
        ),
        Option(
            "--from",
            "begin with the steps of this transcript, which may be cut, by its height where no OPTION "
            "names one, and by the seed that OPTION names",
            "LOG",
            completed=".log",
            group="begin",
        ),
        Option("--rows", "the rows of a page; else the terminal's", "N", kind=int),
        Option("--plain", "the program's own texts, without prose"),
        MEMORY,
    ),
    """0 the game was ended or left, 2 usage, 3 the world is refused, or the transcript of --from is
refused or cannot be done again, or something could not be read, run or written.""",
    needs_input=True,
)

PUBLISH = Script(
    """Makes a page of a world: one file of HTML that plays it in a browser, from a disk or from anywhere, and
asks nothing of a server. In it are the program, the world and its prose: offers as buttons, the story,
the state, undo, saving and loading, the transcript, and the check of one. For several players it is
played in rounds, one after another at one screen. With --transcript the page shows a transcript as a
story to be walked through, from which one may go on. With --site it makes pages of all worlds of a
folder, by the words beside each, and a list of them.

The page runs the same sources as the program, by another back end of the compiler, and without proofs;
what it did can be checked by `ceptre check`. docs/PUBLISH.md says how a world is made ready for it.""",
    (
        Option("WORLD", "the file of the world", completed=".cep", times="?"),
        Option("--title", "the title of the page, or of the list; else the file's name", "T"),
        Option(
            "--output",
            "where the page is written (NAME.html), or for --site the folder (site); -o FILE is the same",
            "FILE",
            completed="FILE",
            short="-o",
        ),
        Option("--transcript", "show this transcript of the world", "LOG", completed=".log"),
        Option("--site", "make pages of all worlds of this folder", "FOLDER", completed="FILE"),
        Option("--players", "how many play in rounds, from 2 to 16", "N", kind=between(2, 16)),
        Option("--seed", "the seed of the first game (42)", "N", kind=between(0, 2**64 - 1)),
        Option("--height", "as for `ceptre play`, at most 128", "N", kind=between(1, 512)),
        Option("--turns", "as for `ceptre play`", "N", kind=between(1, 1_000_000)),
    ),
    """0 it is written, and its path is printed; 1 a world or the transcript is refused and that is explained,
or a height is over 128; 2 usage; 3 something could not be read, run, made or written.""",
)

REPLAY = Script(
    """Writes what a player would type to do the steps of a transcript again: for each step at which the
program asks, the number of its offer as a line. So `tools/replay WORLD LOG | ./ceptre play WORLD`
plays the game once more, and more can be typed after it. Where the program does not ask, it has to
do the transcript's next step by itself: by the seed and the limit of turns that are named here, and by
the height in the transcript, which `play` has to be given too (--words writes them).

The program decides whether the transcript is legal, and its own dialogue says what is offered. The
conversation in the transcript is passed over, and derivations may be others.""",
    (
        WORLD,
        Option("LOG", "the transcript, of either version", completed=".log"),
        SEED,
        TURNS,
        Option("--typed", "write what is typed, as without this", group="written"),
        Option("--words", "write the options of `ceptre play` for it", group="written"),
        MEMORY,
    ),
    """0 it is written; 1 the transcript is refused, or the run does something else, and nothing is written
but the step and why; 2 usage; 3 the world is refused, or something could not be read, run or written.""",
)

SAMPLE = Script(
    """Runs a world many times by different seeds, and shows how the runs ended, how long they were, and
which rules fired how often. Where the player is to choose nothing is typed, and the run ends there;
with --players-by-seed a number of one of the offers is typed, drawn by the seed too. The program
runs the world, and what is counted is what it wrote.""",
    (
        WORLD,
        Option("--runs", "how many runs (100)", "N", kind=count, default=100),
        Option("--seed", "the seed of the first run (1)", "N", kind=int, default=1),
        Option("--players-by-seed", "draw what a player chooses"),
        HEIGHT,
        TURNS,
        Option("--goal", "count the last states that have it", "ATOM", completed="atoms", times="*"),
        Option("--csv", "a row for each run in place of the table"),
        Option("--keep", "keep the transcript of each run there, as SEED.log", "FOLDER", completed="FILE"),
        JOBS,
        MEMORY,
    ),
    """0 it is shown; 2 usage, or the world has no such atom as a goal names; 3 the world is refused, or
something could not be read, run or written.""",
)

SOLVE = Script(
    """Searches the states of a world for one that has all goals, breadth first: typed choices are branches,
and choices of nobody too. It answers a way of the fewest steps, with what is typed, or that there is none.
The program says of each state what applies there, and checks the transcript of each way that is shown.

A state is a stage and a multiset, and equal ones are asked once. *none: all M states were seen* is said
only where each state that can be reached was asked, and no run ended by a limit. With --stuck all states
are searched, and those from which no goal can be reached are shown, with a way to each.""",
    (
        WORLD,
        Option(
            "--goal",
            "an atom (`_` stands for any term), `have N ATOM` or `none ATOM`; of several all at once",
            "ATOM",
            completed="atoms",
            times="*",
        ),
        Option("--stuck", "the states from which no goal can be reached"),
        Option("--states", "how many states are seen at most (100000)", "N", kind=count, default=100_000),
        Option("--seconds", "how long to search at most", "N", kind=count),
        Option("--by-seed", "keep to what the seed chooses"),
        SEED,
        HEIGHT,
        TURNS,
        Option("--log", "write the transcript of the way", "FILE", completed="FILE"),
        Option("--typed", "write what is typed", "FILE", completed="FILE"),
        Option("--plain", "the program's own texts, without prose"),
        JOBS,
        MEMORY,
    ),
    """0 a way is shown, or with --stuck a goal can be reached from everywhere; 1 there is none, or with
--stuck some states from which there is none; 2 usage, or the world has no such atom as a goal names; 3 the
world is refused, or something could not be read, run or written; 4 none was found before a limit.""",
)

MAP = Script(
    """Draws a world for Graphviz: `tools/map WORLD | dot -Tsvg >PICTURE.svg`. Without an option its stages,
with the rules that lead from one to another; the player chooses in those that are boxes.""",
    (
        WORLD,
        Option("--rules", "the rules, and which make what which need", group="part"),
        Option(
            "--state", "what the start joins by predicates of two equal types, such as rooms", group="part"
        ),
        MEMORY,
    ),
    """0 it is written, 2 usage, 3 the world is refused, or something could not be read, run or written.""",
)

WHY = Script(
    """Says why a rule is or is not offered after step K of an accepted transcript (0 is the start): which
of its premises are met by what, in how many ways, and which one nothing meets. Values that are given
(such as X=ann) are kept to. Backward premises are asked of the program, which decides.""",
    (
        WORLD,
        Option("LOG", "the transcript", completed=".log"),
        Option("K", "the step; 0 is the start", kind=int),
        Option("RULE", "the name of the rule", completed="rules"),
        Option("X=VALUE", "values of its variables", times="*"),
        MEMORY,
    ),
    """0 the rule is offered there, 1 it is not, 2 usage, or there is no such step, rule or variable, 3 the
world or the transcript is refused, or something could not be read, run or written.""",
)

FORMAT = Script(
    """Writes worlds in the one layout, in place; without a WORLD what comes at standard input to standard
output. No token is changed, and comments stay where they are. A text that the program refuses at its
tokens or its grammar is left as it is.""",
    (
        Option("WORLD", "a file of a world", completed=".cep", times="*"),
        Option("--check", "write nothing; status 1 if a world is not in the layout"),
        MEMORY,
    ),
    """0 all are in the layout now, 1 --check found one that is not, or one is refused and left as it is,
2 usage, 3 something could not be read, run or written.""",
)

SERVER = Script(
    """A language server for editors: it speaks the language server protocol 3.17 over standard input and
output, and an editor starts it. It shows what the program refuses while one types, with causes and
mends, hints and dead rules; and it answers what names are, where they stand and what fits at a place.
editors/README.md has the settings.""",
    (),
    """0 the editor ended it, 1 the editor is gone, 2 usage, 3 standard input or output is closed.""",
)

SCRIPTS = {
    "explain": EXPLAIN,
    "follow": FOLLOW,
    "format": FORMAT,
    "grade": GRADE,
    "map": MAP,
    "player": PLAYER,
    "publish": PUBLISH,
    "replay": REPLAY,
    "sample": SAMPLE,
    "server": SERVER,
    "solve": SOLVE,
    "why": WHY,
}


def version() -> str:
    """The version of the program and of what stands beside it."""
    try:
        with open(os.path.join(TOP, "VERSION"), encoding="utf-8") as file:
            return file.read().strip()
    except OSError:
        return "of unknown version"


class Names(argparse.Action):
    """What the completions ask for: the names of a kind in a world, and nothing else."""

    def __call__(self, made: argparse.ArgumentParser, _namespace: object, values: Any, _option: object = None) -> None:
        from ceptre_tools.names import names

        print("\n".join(names(*values)))
        made.exit()


def parser(name: str) -> argparse.ArgumentParser:
    """The parser of a script's words."""
    script = SCRIPTS[name]
    epilog = f"statuses: {script.statuses} {PROGRAM}"
    made = argparse.ArgumentParser(prog=name, description=script.says, epilog=epilog)
    made.add_argument("--version", action="version", version=f"ceptre-{name} {version()}")
    made.add_argument("--names", nargs=2, action=Names, help=argparse.SUPPRESS)
    names = dict.fromkeys(option.group for option in script.options if option.group)
    groups = {name: made.add_mutually_exclusive_group() for name in names}
    for option in script.options:
        place = groups[option.group] if option.group else made
        names_of = [option.name.lower()] if option.is_word else [option.name, option.short]
        place.add_argument(*filter(None, names_of), **keywords(option))
    return made


def keywords(option: Option) -> dict[str, Any]:
    """What argparse is to know of a word or an option."""
    if not option.is_word and not option.value and not option.choices:
        return {"action": "store_true", "help": option.help}
    found: dict[str, Any] = {"help": option.help, "type": option.kind, "default": option.default}
    if option.is_word:
        found["metavar"] = option.name
        if option.times:
            found["nargs"] = option.times
        return found
    if option.value:
        found["metavar"] = option.value
    if option.choices:
        found["choices"] = option.choices
    if option.times == "*":
        found.update(action="append", default=[])
    return found
