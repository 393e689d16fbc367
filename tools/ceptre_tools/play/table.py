"""The player's table: what is shown of a game, and the commands beside its choices."""

import re
import shutil
import signal
import sys
import textwrap
from argparse import Namespace
from typing import Optional

from ceptre_tools.play import saved
from ceptre_tools.play.prose import Prose
from ceptre_tools.play.replay import again
from ceptre_tools.play.run import Run
from ceptre_tools.program import NO_MEMORY, CannotRun
from ceptre_tools.text import bytes_of, shown
from ceptre_tools.transcript import Transcript, listing
from ceptre_tools.world import World

try:
    import readline  # noqa: F401
except ImportError:
    pass

HELP = """\
A number chooses an offer. Words show the offers that have words that begin so,
and choose an offer that is alone with them, if they have three letters.
  Enter           the next page of offers
  all             all offers again
  undo [N]        take the last choice back, or the last N
  state [WORDS]   what there is, perhaps only what has these words
  again           what came so far
  history         what was done so far
  save FILE       keep what was chosen
  load FILE       begin again, and choose what was saved there
  quit, Ctrl-D    leave the game
Where an offer has the words of a command it is meant: `:save` is the command
in any case. Ctrl-C drops the line that you type, and a step that takes too
long; the game goes on."""

COMMANDS = ("quit", "exit", "more", "save", "load", "undo", "state", "history", "again", "all", "help", "?")

# So many letters at least choose an offer.
LETTERS = 3


def words_in(text: str) -> list[str]:
    """The words of a text in small letters, by which offers are found."""
    return [word for word in re.split(r"[^0-9a-z\x80-\xff']+", text.lower()) if word]


def has_words(text: str, words: list[str]) -> bool:
    """Whether each of these words begins one of a text."""
    own = words_in(text)
    return all(any(word.startswith(beginning) for word in own) for beginning in words)


class Table:
    """A game, the page of offers that is shown, and how to show it."""

    def __init__(self, text: str, words: list[str], options: Namespace) -> None:
        self.words, self.options = words, options
        self.world = World(text)
        self.prose = Prose() if options.plain else Prose.of(text, self.world)
        self.game = saved.Game.of(options.world, text, words)
        self.run: Optional[Run] = None
        self.waits = False
        self.kept, self.shown_up_to, self.first = 0, 0, 0
        self.filter: list[str] = []
        for fault in self.prose.faults:
            print(f"player: {options.world}:{fault.line}: {shown(fault.said)}", file=sys.stderr)

    # The game.

    def sit(self) -> int:
        """Plays until the game ends or is left."""
        signal.signal(signal.SIGINT, self.interrupt)
        self.begin(self.opening())
        while self.now.offers or self.goes_on():
            said = self.ask()
            if said is None or not self.do(said):
                break
        return 0

    @property
    def now(self) -> Run:
        """The run, once it has begun."""
        assert self.run
        return self.run

    def opening(self) -> list[int]:
        """The choices that the game begins with: none, those of a file, or those of a transcript, whose
        height is then the game's."""
        if self.options.load:
            return self.choices(self.options.load)
        if not getattr(self.options, "from"):
            return []
        replay = again(self.words, getattr(self.options, "from"), may_be_cut=True)
        self.words = replay.words
        return replay.typed

    def choices(self, path: str) -> list[int]:
        """The choices in a file; what is to be said of them is said."""
        found, said = saved.choices(path, self.game)
        if said:
            self.say(said)
        self.kept = len(found)
        return found

    def begin(self, typed: list[int]) -> None:
        """Another run, with these choices made: of what it shows so the last step is shown again."""
        if self.run:
            self.run.close()
        self.first, self.filter = 0, []
        self.run = Run(self.words, self.options.log or "")
        self.run.play(typed)
        if self.run.lines[:1] and self.run.lines[0].startswith(("usage: ", "cannot read")):
            raise CannotRun(self.run.lines[0])
        if len(self.run.typed) < len(typed):
            self.say(f"Only {len(self.run.typed)} of {len(typed)} choices could be made.")
        steps = [at for at, line in enumerate(self.run.lines) if line.startswith("step ")]
        self.shown_up_to = steps[-1] if steps else 0
        self.tell()

    def goes_on(self) -> bool:
        """After the end: whether a player at a terminal goes on, by undoing or loading."""
        if self.now.end:
            return sys.stdin.isatty()
        # The child was stopped, since it took too long or too much: the game goes on before that choice.
        if not self.now.typed:
            raise self.now.stopped()
        is_full = self.now.child.wait() == NO_MEMORY
        self.say("Out of memory: that choice is undone." if is_full else "That took too long, and is undone.")
        self.begin(self.now.typed[:-1])
        return True

    def leave(self) -> None:
        """Ends the run, whose transcript is then whole."""
        if self.run:
            self.run.close()

    def interrupt(self, *_: object) -> None:
        """Ctrl-C: drops the line that is typed, or stops a step that takes too long."""
        if self.waits:
            raise KeyboardInterrupt
        if self.run:
            self.run.child.kill()

    def ask(self, prompt: str = "> ") -> Optional[str]:
        """A line that is typed, or None at the end of the input."""
        while True:
            try:
                self.waits = True
                return input(prompt).strip()
            except KeyboardInterrupt:
                print("\n(quit or Ctrl-D leaves the game)")
            except EOFError:
                print()
                return None
            finally:
                self.waits = False

    # Commands.

    def do(self, said: str) -> bool:
        """Does what a line says; answers whether the game goes on."""
        number = re.fullmatch(r"0*([1-9][0-9]{0,5})", said)
        command, _, rest = said.removeprefix(":").partition(" ")
        if number:
            self.choose(int(number[1]))
        elif not said:
            self.show_offers(self.first + self.page())
        elif command not in COMMANDS or (said[0] != ":" and said != "?" and self.matching(words_in(bytes_of(said)))):
            self.narrow(words_in(bytes_of(said)))
        elif command in ("quit", "exit"):
            return not self.may_leave()
        else:
            self.command(command, rest.strip())
        return True

    def may_leave(self) -> bool:
        """Whether the player leaves, who is asked if choices would be lost."""
        lost = len(self.now.typed) - self.kept
        if self.options.log or lost <= 0 or not sys.stdin.isatty():
            return True
        answer = self.ask(f"{lost} choices are not saved. Leave? (y/n) ")
        return answer is None or answer.lower() in ("y", "yes")

    def command(self, command: str, rest: str) -> None:
        """Does a command that does not leave the game."""
        if command in ("save", "load"):
            self.file(command, rest)
        elif command == "undo":
            self.undo(rest)
        elif command == "state":
            self.say(self.state_text(words_in(bytes_of(rest))))
        elif command == "history":
            for number, step in enumerate(self.steps(), 1):
                self.say(f"{number:4}  {self.told(step) or step}")
        elif command == "again":
            self.shown_up_to = 0
            self.tell()
        elif command == "all":
            self.filter = []
            self.show_offers(0)
        elif command == "more":
            self.show_offers(self.first + self.page())
        else:
            self.say(HELP)

    def choose(self, number: int) -> None:
        """Makes a choice."""
        if not self.now.offers:
            self.say("The game has ended; `undo` takes a choice back.")
        elif not 1 <= number <= len(self.now.offers):
            self.say(f"There are the offers 1 to {len(self.now.offers)}; `help` lists what else there is.")
        else:
            self.filter = []
            self.now.choose(number)
            self.tell()

    def undo(self, rest: str) -> None:
        """Takes choices back."""
        if not re.fullmatch(r"[0-9]{0,6}", rest):
            self.say("`undo N` takes N choices back.")
        elif not self.now.typed:
            self.say("Nothing was chosen yet.")
        else:
            self.begin(self.now.typed[: max(0, len(self.now.typed) - int(rest or 1))])

    def file(self, command: str, path: str) -> None:
        """Saves what was chosen, or goes on from what was saved."""
        try:
            if not path:
                self.say(f"`{command} FILE` names a file.")
            elif command == "load":
                self.begin(self.choices(path))
            else:
                saved.save(path, self.game, self.now.typed)
                self.kept = len(self.now.typed)
                self.say(f"Saved: {self.kept} choices in {bytes_of(path)}.")
        except CannotRun as error:
            self.say(bytes_of(str(error)))

    # What is shown.

    def say(self, text: str) -> None:
        """A text in lines as wide as the terminal."""
        width = max(20, shutil.get_terminal_size().columns or 80)
        for line in map(shown, text.split("\n")):
            margin = re.match(r" *(?:[0-9]+  )?", line)
            indent = " " * (margin.end() if margin else 0)
            print("\n".join(textwrap.wrap(line, width, subsequent_indent=indent)) or line)

    def steps(self) -> list[str]:
        """The offers that were done."""
        return [line.removeprefix("step ") for line in self.now.lines if line.startswith("step ")]

    def told(self, offer: str) -> str:
        """What a step says."""
        return offer if self.options.plain else self.prose.told(offer)

    def tell(self) -> None:
        """What came since the last question, and then the offers."""
        fresh = self.now.lines[self.shown_up_to :]
        if self.shown_up_to == 0:
            self.say(self.prose.start or self.state_text([]))
        self.shown_up_to = len(self.now.lines)
        for line in fresh:
            word, _, rest = line.partition(" ")
            said = ""
            if word == "step":
                said = self.told(rest)
            elif word == "stage" and self.prose.stages:
                said = self.prose.stages.get(rest, "")
            elif word == "end":
                said = self.prose.ends.get(rest, f"The game has ended: {rest}.")
            if said:
                self.say(said)
        if self.now.end:
            self.say(self.state_text([]))
        if self.now.offers:
            self.show_offers(0)

    def matching(self, words: list[str]) -> list[tuple[int, str]]:
        """The offers with words that begin so, by number, as they are shown: a raw offer too, where no
        template says how it reads."""
        offers = self.now.offers if self.options.plain else self.prose.offers(self.now.offers)
        found = []
        for number, (text, offer) in enumerate(zip(offers, self.now.offers), 1):
            has_template = self.prose.rules.get(offer.split(" ")[0], ("", None))[1]
            if has_words(text if has_template else f"{text} {offer}", words):
                found.append((number, text))
        return found

    def narrow(self, words: list[str]) -> None:
        """Shows the offers with these words; one that is alone is chosen, if they are long enough."""
        found = self.matching(words) if words else []
        if len(found) == 1 and sum(map(len, words)) >= LETTERS:
            self.choose(found[0][0])
        elif found:
            self.filter = words
            self.show_offers(0)
        else:
            self.say("No offer has these words; `help` lists what else there is.")

    def page(self) -> int:
        """How many offers are shown at once."""
        if self.options.rows:
            return max(1, int(self.options.rows))
        return max(5, (shutil.get_terminal_size().lines or 24) - 6) if sys.stdout.isatty() else 1 << 20

    def show_offers(self, first: int) -> None:
        """A page of the offers that match, from the first again after the last."""
        found, offers = self.matching(self.filter), len(self.now.offers)
        self.first = first if first < len(found) else 0
        upto = min(len(found), self.first + self.page())
        for number, text in found[self.first : upto]:
            self.say(f"{number:4}  {text}")
        if upto - self.first < len(found):
            of_all = f" of {offers}" if self.filter else ""
            part = f"{self.first + 1} to {upto} of {len(found)}{of_all}"
            self.say(f"({part} offers; Enter shows more, a word fewer)")
        elif len(found) < offers:
            self.say(f"({len(found)} of {offers} offers; `all` shows the others)")

    def state_text(self, words: list[str]) -> str:
        """The stage and the state, perhaps only the atoms that have all of these words."""
        log = Transcript.of("\n".join(self.now.lines))
        *_, (stage, state) = log.states(self.world)
        lines = []
        for line in listing(self.world, state):
            _, copies, atom = line.split(" ", 2)
            text = line if self.options.plain else self.prose.atom(atom, int(copies))
            if has_words(f"{text} {atom}", words):
                lines.append(f"  {text}")
        return "\n".join([f"[{stage}]", *lines])
