"""The program and the reference on drawn cases, to the byte: what differs is shrunk, and printed in the form of
crates/cep_cases."""
import argparse
import collections
import os
import re
import subprocess
import sys
import tempfile
from typing import Callable, Counter, List, Optional, Tuple

from reference.command import Answer, deep, run
from reference.derive import NotAnswered
from reference.draw import MOST_WORK, Drawn, drawn


def of_reference(case: Drawn) -> Optional[Answer]:
    """What the reference answers, if it does."""
    try:
        return run(case.words, case.files, case.typed, MOST_WORK)
    except NotAnswered:
        return None


class Asked:
    """The program, which is asked in a folder of its own."""

    def __init__(self, program: str) -> None:
        self.program, self.folder = os.path.abspath(program), tempfile.TemporaryDirectory()

    def answer(self, case: Drawn) -> Optional[Answer]:
        """What the program answers, if it does within ten seconds and its memory."""
        for name in ("f", "g", "x"):
            path = os.path.join(self.folder.name, name)
            if name in case.files:
                with open(path, "wb") as file:
                    file.write(case.files[name].encode("latin-1"))
            elif os.path.exists(path):
                os.remove(path)
        try:
            ran = subprocess.run([self.program] + case.words, input=case.typed.encode("latin-1"), timeout=10,
                                 stdout=subprocess.PIPE, cwd=self.folder.name, check=False)
        except subprocess.TimeoutExpired:
            return None
        return None if ran.returncode == 9 else Answer(ran.stdout.decode("latin-1"), ran.returncode)


def differs(case: Drawn, asked: Asked) -> bool:
    """Whether the two answer, and not the same."""
    one, other = of_reference(case), asked.answer(case)
    return one is not None and other is not None and one[:2] != other[:2]


def shrunk(case: Drawn, fails: Callable[[Drawn], bool]) -> Drawn:
    """A smallest case that fails: parts of the files and of what is typed are left out as long as it does."""
    for name in list(case.files) + [""]:
        for parts in (r"[^\n]*\n?", r"[^.*,]*[.*,]?", r"\s*\S+"):
            text = case.files[name] if name else case.typed
            pieces = [piece for piece in re.findall(parts, text) if piece]
            kept = without_parts(pieces, lambda some: fails(put(case, name, "".join(some))))
            case = put(case, name, "".join(kept))
    return case


def put(case: Drawn, name: str, text: str) -> Drawn:
    """The case with another text as this file, or typed."""
    return case._replace(files={**case.files, name: text}) if name else case._replace(typed=text)


def without_parts(pieces: List[str], fails: Callable[[List[str]], bool]) -> List[str]:
    """The pieces that have to stay so that it fails: runs of them are left out, shorter and shorter ones."""
    length = len(pieces) // 2
    while length:
        at = 0
        while at < len(pieces):
            fewer = pieces[:at] + pieces[at + length:]
            if "".join(fewer) != "".join(pieces) and fails(fewer):
                pieces = fewer
            else:
                at += length
        length //= 2
    return pieces


def spelled(text: str) -> str:
    """A text as the body of a section of a case."""
    text = text.replace("\\", "\\\\")
    text = re.sub(r"[^\n -\[\]-~\\]", lambda found: f"\\x{ord(found.group()):02x}", text)
    text = re.sub(r"^(==|--) ", lambda found: f"\\x{ord(found.group()[0]):02x}{found.group()[1:]}", text,
                  flags=re.MULTILINE)
    body = text.rstrip("\n")
    ends = len(text) - len(body)
    return (body + "\\n" * (ends - 1) + ("\n" if ends else "\\\n")) if text else ""


def as_case(name: str, case: Drawn) -> str:
    """The form of crates/cep_cases."""
    sections = "".join([f"-- {file}\n{spelled(text)}" for file, text in case.files.items()])
    return f"== {name}: {' '.join(case.words)}\n{sections}" + (f"-- typed\n{spelled(case.typed)}" if case.typed else "")


def kind_of(case: Drawn, answer: Optional[Answer]) -> List[str]:
    """What a histogram counts of a case."""
    if answer is None:
        return ["not answered here"]
    kinds = [f"command {case.words[0] if answer.status != 2 else 'without a form'}", f"status {answer.status}"]
    refused = re.match(r"refused (?:\d+:\d+ \d+ )?(?:\d+ )?(\w+( atom| state)?)", answer.text)
    if refused:
        kinds.append(f"refused {refused.group(1)}")
    ended = re.search(r"^end (\w+)$", answer.text, re.MULTILINE)
    if ended and answer.status in (0, 4):
        kinds.append(f"end {ended.group(1)}")
    return kinds


def used() -> float:
    """The seconds of the processor that were used, by the programs too."""
    return sum(os.times()[:4])


def compared(asked: Asked, seed: int, count: int, seconds: float) -> Tuple[Counter[str], int]:
    """Compares cases from a seed on, as many as were asked for or as there is time for; the histogram, and how many
    differ."""
    kinds: Counter[str] = collections.Counter()
    begun, different, number = used(), 0, 0
    while number < count and used() - begun < seconds:
        case = drawn(seed + number)
        answer = of_reference(case)
        kinds.update(["cases"] + kind_of(case, answer))
        if differs(case, asked):
            different += 1
            print(as_case(f"seed {seed + number}", shrunk(case, lambda some: differs(some, asked))), end="", flush=True)
        number += 1
    return kinds, different


def main() -> int:
    """compare [--cases N] [--seed S] [--seconds T] [--histogram] [PROGRAM]"""
    parser = argparse.ArgumentParser(prog="compare", description=__doc__)
    parser.add_argument("--cases", type=int, default=10 ** 9, help="how many cases, if not 1,000")
    parser.add_argument("--seed", type=int, default=1, help="the seed of the first case; each further one has the next")
    parser.add_argument("--seconds", type=float, default=0, help="seconds of the processor after which it stops")
    parser.add_argument("--histogram", action="store_true", help="what was drawn")
    parser.add_argument("program", nargs="?", default=os.environ.get("CEPTRE", "crates/ceptre/out/ceptre"))
    said = parser.parse_args()
    count = said.cases if said.cases < 10 ** 9 or said.seconds else 1_000
    kinds, different = compared(Asked(said.program), said.seed, count, said.seconds or 10 ** 9)
    if said.histogram:
        for kind, number in sorted(kinds.items()):
            print(f"{number:8} {kind}")
    unanswered = kinds["not answered here"]
    print(f"compare: {kinds['cases']} cases from seed {said.seed}, {unanswered} not answered here, {different} differ")
    return 1 if different else 0


def start() -> None:
    """The launcher's."""
    sys.exit(deep(main))
