"""The cases of crates/cep_cases, whose expectations are made again by the reference (.ci/cases --by-reference)."""
import re
import sys
from typing import Dict, Iterator, List, NamedTuple, Optional, Tuple

from reference.command import MOST_WORK, Answer, deep, run
from reference.derive import NotAnswered

ESCAPE = re.compile(r"\\(?:\[(\d+)\|((?:[^\\\]]|\\.)*)\]|<([^>]*)>|x([0-9a-fA-F]{2})|(.)|(\n)|$)", re.DOTALL)
LETTERS = {"n": "\n", "r": "\r", "t": "\t", "\\": "\\", "]": "]"}


class Section(NamedTuple):
    """A section of a case: what its body is for, and of which texts the body says a change."""
    each: bool
    target: str
    bases: List[str]
    body: str


class Case(NamedTuple):
    """A case that is run, by its name; `series` stands for one that cannot be said by one outcome of the reference."""
    name: str
    words: List[str]
    files: Dict[str, str]
    typed: str
    series: bool


def section_of(lines: str) -> Section:
    """The section of its lines, of which the first is `[each] TARGET [of BASE]`."""
    head, _, body = lines.partition("\n")
    each = head.startswith("each ")
    target, _, bases = head[5 * each:].partition(" of ")
    return Section(each, target, bases.split(" and ") if bases else [], body.rstrip("\n"))


class Player:
    """The texts that have names, and the files of the cases so far."""

    def __init__(self, wrong_bytes: bool = False) -> None:
        self.texts: Dict[str, Optional[str]] = {}
        self.files: Dict[str, Optional[str]] = {}
        self.typed: Optional[str] = ""
        self.fails = wrong_bytes

    def spell(self, body: str, number: int = 0) -> str:
        """What a body spells, with its escapes; `\\#` is the number of a repetition."""
        def spelled(found: "re.Match[str]") -> str:
            times, repeated, name, digits, letter, _ = found.groups()
            if times:
                return "".join([self.spell(repeated, each) for each in range(int(times))])
            if name:
                return self.text(name)
            if digits:
                return chr(int(digits, 16))
            return str(number) if letter == "#" else LETTERS.get(letter or "", "")
        return ESCAPE.sub(spelled, body)

    def text(self, name: str) -> str:
        """The text of a name, if it is known."""
        text = self.texts[name]
        if text is None:
            raise NotAnswered
        return text

    def body_text(self, section: Section) -> str:
        """The text that a whole body says."""
        if section.bases:
            text = self.text(section.bases[0])
            for change in section.body.split("\n") if section.body else []:
                text = self.changed(text, change)
            return text
        open_end = (len(section.body) - len(section.body.rstrip("\\"))) % 2 == 1
        return self.spell(section.body) + ("\n" if section.body and not open_end else "")

    def changed(self, text: str, line: str) -> str:
        """A text with the change that a line names."""
        if line in ("-", "open", "returns", "record"):
            return {"-": text, "open": text[:-1] if text.endswith("\n") else text,
                    "returns": text.replace("\n", "\r\n"),
                    "record": "".join([each for each in text.splitlines(True) if not each.startswith("?")])}[line]
        if line.startswith("~ "):
            old, _, new = line[2:].partition(" => ")
            return text.replace(self.spell(old), self.spell(new), 1)
        digits, cut, body = line.partition(" |")
        lines = [each + "\n" for each in text.split("\n")[:-1]] + [text.split("\n")[-1]]
        if not cut:
            return "".join(lines[:int(digits)])
        put = [self.spell(body[1:] if body.startswith(" ") else body) + "\n"] if body else []
        return "".join(lines[:int(digits) - 1] + put + lines[int(digits):])

    def set(self, target: str, text: Optional[str]) -> None:
        """Puts a text where it belongs."""
        if target == "typed":
            self.typed = text
        elif target.startswith("failing"):
            self.fails = True
        elif target.startswith("text "):
            self.texts[target[5:]] = text
        else:
            self.texts[target] = self.files[target] = text

    def take(self, chunk: str) -> Optional[Section]:
        """Takes the sections of a chunk, and answers the last one if each of its lines is a case."""
        each = None
        for lines in chunk.split("\n-- ")[1:]:
            section = section_of(lines)
            each = section if section.each else None
            if not section.each:
                try:
                    self.set(section.target, self.body_text(section))
                except NotAnswered:
                    self.set(section.target, None)
        return each

    def cases(self, content: str) -> Iterator[Optional[Case]]:
        """The cases of a file, one after another; nothing in place of one whose texts are not known."""
        self.files = {}
        chunks = content.split("\n== ")
        self.take(chunks[0])
        for chunk in chunks[1:]:
            head = chunk.partition("\n-- ")[0]
            name, colon, words = head.partition(":")
            self.typed, self.fails = "", False
            section = self.take(chunk)
            if section:
                yield from self.each(name, section, words if colon else "play f")
            else:
                yield self.case(name, (words if colon else "play f").split())

    def each(self, name: str, section: Section, words: str) -> Iterator[Optional[Case]]:
        """A case for each line of a section, for each text that they change; one for what is told as a series."""
        if section.target.startswith("cut ") or (section.target == "failing call" and not section.body):
            yield None
            return
        for base in section.bases or [""]:
            text = self.texts[base] if base else ""
            for number, line in enumerate(section.body.split("\n"), 1):
                taken = words.split()
                if section.target == "words":
                    taken = line.split()
                elif text is None:
                    self.set(section.target, None)
                else:
                    self.set(section.target, self.changed(text, line) if base else self.spell(line))
                yield self.case(f"{name}, {base}/{number}" if base else f"{name}/{number}", taken)

    def case(self, name: str, words: List[str]) -> Optional[Case]:
        """The case as it stands now."""
        files = {file: text for file, text in self.files.items() if text is not None}
        known = self.typed is not None and all(self.files.get(word, "") is not None for word in words[1:3])
        return Case(name, words, files, self.typed or "", self.fails) if known else None


def told(case: Case, answer: Answer, most: int) -> str:
    """What is written of a case."""
    head = f"{case.name}: status {answer.status}, asked {' '.join(answer.names) or 'nothing'}, said"
    text = answer.text
    if len(text) > most:
        total = 0xcbf29ce484222325
        for byte in text.encode("latin-1"):
            total = (total ^ byte) * 0x100000001b3 % 2 ** 64
        return f"{head} {len(text)} bytes, sum {total:016x}\n"
    if text.count("\n") == 1 and text.endswith("\n") or not text:
        return f"{head} {text or 'nothing' + chr(10)}"
    lines = "".join(["    " + line for line in text.splitlines(True)])
    return head + "\n" + lines + ("" if lines.endswith("\n") else "\\\n")


def said_in(block: str) -> Optional[str]:
    """What is said in an expectation, if it is written out."""
    head, _, below = block.partition("\n")
    said = head.partition(", said")[2]
    if re.fullmatch(r" \d+ bytes, sum [0-9a-f]{16}", said) or not head:
        return None
    text = "".join([line[4:] for line in below.splitlines(True)]) if below else said[1:] + "\n"
    return "" if said == " nothing" else text[:-2] if text.endswith("\\\n") else text


def compared(folder: str, most_work: int) -> Tuple[int, int, List[str]]:
    """How many expectations there are, how many are made again, and what differs."""
    with open(folder + "/stdout", "rb") as file:
        blocks = re.split(r"\n(?=[^ ])", file.read().decode("utf-8"))
    player, place, made, differ = Player(), 0, 0, []
    with open(folder + "/data/index", encoding="utf-8") as index:
        names = [line.split() for line in index]
    for name, most in names:
        with open(f"{folder}/data/{name}", "rb") as file:
            content = file.read().decode("latin-1")
        for case in player.cases(content):
            block = blocks[place].rstrip("\n") + "\n"
            place += 1
            text = outcome(case, int(most), most_work)
            player.texts["said"] = said_in(block)
            made += text is not None
            if text is not None and text != block:
                differ.append(f"expected by crates/cep_cases: {block}by the reference: {text}")
    return place, made, differ


def outcome(case: Optional[Case], most: int, most_work: int) -> Optional[str]:
    """What the reference says of a case, if it answers."""
    if case is None or case.series:
        return None
    try:
        return told(case, run(case.words, case.files, case.typed, most_work), most)
    except NotAnswered:
        return None


def main() -> int:
    """Compares the expectations of the folder with those of the reference."""
    count, made, differ = compared(sys.argv[1], MOST_WORK)
    for text in differ:
        print(text, end="")
    print(f"cases: {made} of {count} expectations are made again by the reference, of which {len(differ)} differ")
    return 1 if differ else 0


if __name__ == "__main__":
    sys.exit(deep(main))
