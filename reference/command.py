"""The command: FORMATS, The command. What it writes, and its status, for words, files and what is typed."""
import sys
import threading
from typing import Callable, Dict, List, NamedTuple, Optional, Tuple

from reference.check import Graph, checked_or_line
from reference.claims import weigh
from reference.dead import dead
from reference.derive import NotAnswered
from reference.grammar import Refused
from reference.play import Run, Settings, world_text
from reference.program import Program, accept
from reference.texts import number_of
from reference.transcript import Unread

USAGE = ("usage: play FILE [seed=N] [height=N] [turns=N] | check FILE LOG | world N [seed=N] [height=N] [turns=N] | "
         "renew FILE LOG | cause FILE LOG | again FILE LOG [seed=N] | "
         "rounds FILE players=N [seed=N] [height=N] [turns=N] | weigh FILE KEEPS | dead FILE\n")
BOUNDS = {"players": (2, 16), "seed": (0, 2 ** 64 - 1), "height": (1, 512), "turns": (1, 1_000_000)}
RUN = ("seed", "height", "turns")
FORMS: Dict[str, Tuple[int, Tuple[str, ...]]] = {
    "play": (1, RUN), "check": (2, ()), "world": (1, RUN), "renew": (2, ()), "cause": (2, ()), "again": (2, ("seed",)),
    "rounds": (1, RUN + ("players",)), "weigh": (2, ()), "dead": (1, ())}
MOST_WORK = 3_000_000


class Asked(NamedTuple):
    """What words ask for: a command, its files (or the number of rooms), and its options."""
    command: str
    files: List[str]
    options: Dict[str, int]


class Answer(NamedTuple):
    """What is written, the status, and the names of the files that were asked for."""
    text: str
    status: int
    names: Tuple[str, ...] = ()


def asked_by(words: List[str]) -> Optional[Asked]:
    """What words ask for, if they have a form: options come last, in any order, each at most once."""
    if not words or words[0] not in FORMS:
        return None
    count, allowed = FORMS[words[0]]
    files, options = words[1:count + 1], dict.fromkeys(words[count + 1:])
    values: Dict[str, int] = {}
    for option in options:
        name, _, digits = option.partition("=")
        number = number_of(digits, *BOUNDS[name]) if name in allowed and name not in values else None
        if number is None:
            return None
        values[name] = number
    right = len(files) == count and len(words) == count + 1 + len(values)
    players = words[0] != "rounds" or "players" in values
    rooms = words[0] != "world" or number_of("".join(files), 1, 5_000) is not None
    return Asked(words[0], files, values) if right and players and rooms else None


def settings_of(program: Program, options: Dict[str, int]) -> Settings:
    """MODEL, The command: the options; else 42, 128, and the turns of the program or 10,000."""
    return Settings(options.get("seed", 42), options.get("height", 128), options.get("turns", program.turns or 10_000),
                    options.get("players"))


def run(words: List[str], files: Dict[str, str], typed: str, most_work: int = MOST_WORK) -> Answer:
    """The whole command. Files are texts of bytes by their names; of one that is not there the command says that it
    cannot be read."""
    asked = asked_by(words)
    if not asked:
        return Answer(USAGE, 2)
    if asked.command == "world":
        return world(int(asked.files[0]), asked.options, most_work)
    if asked.files[0] not in files:
        return Answer("cannot read program\n", 7, (asked.files[0],))
    text = files[asked.files[0]]
    try:
        program = accept(text)
    except Refused as refusal:
        return Answer(refusal.line(text) + "\n", 3, (asked.files[0],))
    names = tuple(asked.files)
    if len(names) == 2 and names[1] not in files:
        return Answer(f"cannot read {'claims' if asked.command == 'weigh' else 'transcript'}\n", 7, names)
    return Answer(*done(asked, program, files, typed, most_work), names)


def done(asked: Asked, program: Program, files: Dict[str, str], typed: str, most_work: int) -> Tuple[str, int]:
    """What is written, and the status, of an accepted program."""
    if asked.command in ("play", "rounds"):
        played = Run(program, settings_of(program, asked.options), typed, most_work)
        return status_of(played.play(), played.lines)
    if asked.command == "dead":
        return lined(dead(program)), 0
    if asked.command == "weigh":
        try:
            lines, status = weigh(program, files[asked.files[1]])
        except Unread as fault:
            return fault.text + "\n", 1
        return lined(lines), status
    return examined(asked, program, files[asked.files[1]], most_work)


def examined(asked: Asked, program: Program, text: str, most_work: int) -> Tuple[str, int]:
    """What is reported of a transcript."""
    checked, refusal = checked_or_line(program, text, most_work)
    if not checked:
        return refusal, 1
    if asked.command == "check":
        return f"accepted {len(checked.states)}\n", 0
    if asked.command == "renew":
        return checked.renewed()
    graph = Graph(checked)
    return (lined(graph.lines()), 0) if asked.command == "cause" else graph.again(asked.options.get("seed", 42))


def world(rooms: int, options: Dict[str, int], most_work: int) -> Answer:
    """FORMATS, A generated world: the summary of its run."""
    program = accept(world_text(rooms))
    settings = settings_of(program, options)
    played = Run(program, settings, "", most_work)
    word = played.play()
    return Answer(*status_of(word, [f"world {rooms}", f"seed {settings.seed}", f"turns {played.turns}",
                                    f"offers {played.offered}", f"copies {sum(played.state.values())}", f"end {word}"]))


def status_of(word: str, lines: List[str]) -> Tuple[str, int]:
    """The status of a run: 0 if it ended in quiet or at the end of the input, 4 by a limit."""
    return lined(lines), 0 if word in ("quiet", "input") else 4


def lined(lines: List[str]) -> str:
    """Lines, each with its line feed."""
    return "".join([line + "\n" for line in lines])


def deep(work: Callable[[], int]) -> int:
    """Does work that recurs as deep as terms and derivations may be, and gives its status."""
    statuses: List[int] = []
    sys.setrecursionlimit(200_000)
    threading.stack_size(512 * 1024 * 1024)
    thread = threading.Thread(target=lambda: statuses.append(work()))
    thread.start()
    thread.join()
    return statuses[0] if statuses else 70


def main() -> int:
    """Runs the command as the program would; status 9 if it would take too long here."""
    words, files = sys.argv[1:], {}
    for name in words[1:3]:
        try:
            with open(name, "rb") as file:
                files[name] = file.read().decode("latin-1")
        except OSError:
            pass
    typed = "" if sys.stdin.isatty() else sys.stdin.buffer.read().decode("latin-1")
    try:
        answer = run(words, files, typed, 10 ** 9)
    except NotAnswered:
        return 9
    sys.stdout.buffer.write(answer.text.encode("latin-1"))
    return answer.status
