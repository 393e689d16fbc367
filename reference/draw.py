"""Random cases, each from one seed: worlds, typed lines, transcripts, claims and words, right ones and wrong ones."""
import random
import re
from typing import Dict, List, NamedTuple, Tuple

from reference.command import FORMS, run
from reference.derive import NotAnswered
from reference.grammar import TOKEN
from reference.odd import ODD

MOST_WORK = 150_000
TOKENS = ("a b p q r t u main rest X Y _ 7 : . , * $ = ( ) { } -o <- type pred bwd fact stage context qui #trace "
          "#interactive #foo ; - %").split()
WRONG_WORDS = ["0", "01", "99", "(s z)", "nothing", "(s", "(z)"]
SLIPS = (
    "context bad = { y X }. y t : pred.", "context bad = { y a }. y t : bwd.", "bad : () -o y X. y t : pred.",
    "stage bad = { x : y _ -o y _. } y t : pred.", "stage bad = { x : y X -o y X * y Z. } y t : pred.", "y Z.",
    "y <- x. x : pred. y : bwd.", "y. y : fact.", "qui * stage main -o ().", "y -o y. y : pred.", "y (y).",
    "bad : qui * qui * stage main -o stage main.", "#trace _ main {}.", "#interactive nowhere.", "y a : bwd.",
    "y t : a.", "stage bad = { x : y a z -o y. } y t : pred.", "y : u.", "y : nothing.", "y : e.", "b : t.",
    "main : t.", "y t : pred. stage bad = { x : y z -o (). }", "; y", "y - x.", "context bad = { (), y } y : fact.",
    "y t : bwd. y X <- y X. x : z2 * y A -o (). z2 : pred.")


class Drawn(NamedTuple):
    """A drawn case: the words, the files by their names, and what is typed."""
    words: List[str]
    files: Dict[str, str]
    typed: str


class World:
    """A world that is drawn: items, mostly of the right types."""

    def __init__(self, draw: random.Random) -> None:
        self.draw = draw
        self.constructors: Dict[str, List[Tuple[str, List[str]]]] = {
            "t": [("a", []), ("b", []), ("c", [])], "u": [("z", [])]}
        if draw.random() < 0.7:
            self.constructors["u"].append(("s", ["u"]))
        if draw.random() < 0.3:
            self.constructors["u"].append(("f", ["u", draw.choice("tu")]))
        self.items = ["t : type.", "u : type."]
        for kind, all_of in self.constructors.items():
            self.items += [" ".join([name] + args) + f" : {kind}." for name, args in all_of]
        self.predicates: List[Tuple[str, str, List[str]]] = []
        for number in range(draw.randint(2, 5)):
            kind = draw.choice(("pred", "pred", "pred", "fact"))
            self.declare(f"p{number}", kind, [draw.choice("ttu") for _ in range(draw.choice((0, 1, 1, 2)))])
        self.backward()
        self.stages = ["main"] + ["rest"] * draw.randint(0, 1) + ["over"] * draw.randint(0, 1)
        self.rule_number = 0
        for stage in self.stages:
            rules = " ".join([self.rule() for _ in range(draw.choice((0, 1, 2, 2, 3)))])
            self.items.append(f"stage {stage} = {{ {rules} }}" + draw.choice(("", ".")))
            if draw.random() < 0.7:
                self.items.append(f"#interactive {stage}.")
        self.items += [self.outer() for _ in range(draw.choice((0, 1, 1, 2, 3)))]
        self.start()
        if draw.random() < 0.3:
            draw.shuffle(self.items)

    def declare(self, name: str, kind: str, args: List[str]) -> None:
        """A predicate."""
        self.predicates.append((name, kind, args))
        self.items.append(" ".join([name] + args) + f" : {kind}.")

    def backward(self) -> None:
        """Backward predicates, with clauses, some of which leave a variable to chance."""
        draw = self.draw
        if draw.random() < 0.6:
            self.declare("e", "bwd", ["t", "t"])
            self.items += [f"e {draw.choice('abc')} {draw.choice('abc')}." for _ in range(draw.randint(1, 4))]
            if draw.random() < 0.6:
                self.declare("w", "bwd", ["t", "t"])
                others = ("w X Z <- e X Y <- w Y Z.", "w X Z <- w X Y, e Y Z.", "k : w X Y <- e Y X.", "w X X.",
                          "w X Y <- w Y X.")
                self.items += draw.sample(["w X Y <- e X Y.", str(draw.choice(others))], 2)
        if draw.random() < 0.4 and len(self.constructors["u"]) > 1:
            self.declare("n", "bwd", ["u", "u"])
            step = "s" if self.constructors["u"][1][0] == "s" else "f z"
            self.items += ["n z N.", f"n ({step} M) ({step} N) <- n M N."][:draw.randint(1, 2)]
        if draw.random() < 0.2:
            self.declare("m", "bwd", ["u"])
            self.items += draw.choice(("m z. m X <- m X.", "m _.", "m z.", "m (s X) <- m X. m z.")).split("  ")

    def term(self, kind: str, scope: Dict[str, str], depth: int, fresh: bool) -> str:
        """A term of a type: a variable that there is, or a new one, or a constructor."""
        known = [name for name, each in scope.items() if each == kind]
        chance = self.draw.random()
        if known and chance < 0.55 and scope is not None:
            return self.draw.choice(known)
        if fresh and chance < 0.85:
            if chance > 0.82:
                return "_"
            name = self.draw.choice(("X", "Y", "Z", "W'", "V_1"))
            return name if scope.setdefault(name, kind) == kind else "_"
        name, args = self.draw.choice([each for each in self.constructors[kind] if depth < 2 or not each[1]])
        inner = [self.term(arg, scope, depth + 1, fresh) for arg in args]
        return f"({' '.join([name] + inner)})" if args else self.draw.choice((name, name, f"({name})"))

    def atom(self, scope: Dict[str, str], kinds: Tuple[str, ...], fresh: bool) -> str:
        """An atom of a predicate of such a kind."""
        name, _, args = self.draw.choice([each for each in self.predicates if each[1] in kinds] or self.predicates)
        return " ".join([name] + [self.term(arg, scope, 0, fresh) for arg in args])

    def sides(self) -> Tuple[List[str], List[str]]:
        """The sides of a rule."""
        draw = self.draw
        scope: Dict[str, str] = {}
        left = [draw.choice(("", "", "$")) + self.atom(scope, ("pred", "fact"), True)
                for _ in range(draw.randint(0, 3))]
        for _ in range(draw.choice((0, 0, 1, 2))):
            left.insert(draw.randint(0, len(left)), self.atom(scope, ("bwd",), draw.random() < 0.5))
        right = [self.atom(scope, ("pred", "fact"), False) for _ in range(draw.choice((0, 1, 1, 2, 3)))]
        return left or ["()"], right or ["()"]

    def rule(self) -> str:
        """A rule of a stage."""
        left, right = self.sides()
        self.rule_number += 1
        return f"r{self.rule_number} : {' * '.join(left)} -o {' * '.join(right)}."

    def outer(self) -> str:
        """A rule that leaves a stage, often without a condition."""
        left, right = self.sides() if self.draw.random() < 0.4 else ([], [])
        left += ["qui", f"stage {self.draw.choice(self.stages)}"]
        right.append(f"stage {self.draw.choice(self.stages)}")
        self.draw.shuffle(left)
        self.rule_number += 1
        label = self.draw.choice(("", "", "_ : ", f"go/{self.rule_number} : "))
        return f"{label}{' * '.join(left)} -o {' * '.join(right)}."

    def start(self) -> None:
        """What is played."""
        draw = self.draw
        atoms = [self.atom({}, ("pred", "fact"), False) for _ in range(draw.randint(0, 7))]
        turns = draw.choice(("_", "_", "3", "9", "012", "120"))
        if draw.random() < 0.4:
            self.items.append(f"context init = {{ {', '.join(atoms)} }}" + draw.choice(("", ".")))
            start = draw.choice(("init", "{ init }", "{ init, init }"))
        else:
            start = f"{{ {draw.choice((', ', ' * ')).join(atoms)} }}"
        self.items.append(f"#trace {turns} {draw.choice(self.stages + ['main'])} {start}.")


def wrong_text(draw: random.Random, items: List[str]) -> str:
    """A text with a slip: an item too many or too few, or a token."""
    items = list(items)
    chance = draw.random()
    place = draw.randrange(len(items))
    if chance < 0.1:
        del items[-1 if chance < 0.04 else place]
    elif chance < 0.17:
        items.insert(draw.randrange(len(items)), items[place])
    elif chance < 0.55:
        items.insert(place, draw.choice(SLIPS))
    else:
        tokens = [found.group() for found in TOKEN.finditer(items[place])]
        others = [found.group() for found in TOKEN.finditer(draw.choice(items))]
        at = draw.randrange(len(tokens))
        alike = [token for token in others if token[0].islower() == tokens[at][0].islower()]
        other = draw.choice(TOKENS if draw.random() < 0.2 else alike or others)
        slips: Tuple[List[str], ...] = ([], [tokens[at], tokens[at]], [other], [other], [other], [tokens[at], other])
        tokens[at:at + 1] = draw.choice(slips)
        items[place] = " ".join(tokens)
    return "\n".join(items) + draw.choice(("\n", ""))


def lines_typed(draw: random.Random) -> str:
    """Lines: mostly numbers, some that choose nothing."""
    some = ("1", "1", "2", "2", "3", "4", "7", "01", "x", "", "1 ", "2\r")
    lines = [draw.choice(some) for _ in range(draw.randint(0, 14))]
    return "\n".join(lines) + draw.choice(("\n", "\n", "", "\r"))


def wrong_log(draw: random.Random, log: str) -> str:
    """A transcript with a slip."""
    lines = log.splitlines(True)
    place = draw.randrange(len(lines))
    chance = draw.random()
    if chance < 0.1:
        return log[:draw.randrange(len(log) + 1)]
    if chance < 0.3:
        steps = [line for line in lines if line.startswith(("step", "have", "by"))] or lines
        if chance < 0.2:
            lines.insert(place, draw.choice(steps))
        else:
            del lines[place]
    elif chance < 0.45:
        words = lines[place].rstrip("\n").split(" ")
        at = draw.randrange(len(words) + 1)
        words[at:at + draw.randint(0, 1)] = [draw.choice(" ".join(lines).split() + WRONG_WORDS)]
        lines[place] = " ".join(words) + "\n"
    elif chance < 0.6:
        lines[1:2] = [f"height {draw.choice((1, 2, 3, 512, 513, 0, 128))}\n"]
    elif chance < 0.75:
        word = draw.choice(("quiet", "quiet", "input", "atom", "none"))
        lines = [re.sub("^end .*", f"end {word}", line) for line in lines]
    elif chance < 0.9:
        word, other = draw.choice(("have", "step", "stage", "by ", "state")), draw.choice("1 2 3 a b main rest".split())
        at = lines.index(draw.choice([line for line in lines if line.startswith(word)] or lines))
        lines[at] = re.sub(r"\b(\d+|a|b|main|rest|over|z|init)\b", other, lines[at], count=1)
    else:
        record, returns = [line for line in lines if line[0] != "?"], [line.replace("\n", "\r\n") for line in lines]
        first = ["ceptre 1\n"] + lines[1:]
        lines = draw.choice((returns, record, lines[:-1], lines[:1] + lines[2:], first, lines + ["\n"]))
    return "".join(lines)


def claims(draw: random.Random, world: World) -> str:
    """Claims about weights, some with a fault."""
    lines = []
    names = [name for name, _, _ in world.predicates] + ["nobody"] * (draw.random() < 0.2)
    linear = [name for name, kind, _ in world.predicates if kind == "pred"] or names
    for number in range(draw.randint(1, 4)):
        chosen = [draw.choice(linear if draw.random() < 0.93 else names) for _ in range(draw.choice((1, 1, 2)))]
        sums = " + ".join([f"{draw.choice((1, 1, 2, 3, -1, 1_000_000))} {name}" for name in chosen])
        line = f"{draw.choice(('keep', 'most', 'fall'))} c{number if draw.random() < 0.95 else 0} = {sums}"
        wrong = ("", "% said", line + " ", line.replace("1", "0"), "\r", "keep", line.replace("=", "= "))
        lines.append(line if draw.random() < 0.95 else draw.choice(wrong))
    return "\n".join(lines) + draw.choice(("\n", "\n", "", "\r\n"))


def options(draw: random.Random, names: Tuple[str, ...]) -> List[str]:
    """Some options, mostly within their bounds."""
    values = {"seed": ("0", "7", "42", "18446744073709551615"), "height": ("1", "2", "3", "9", "128"),
              "turns": ("1", "2", "5", "30", "130"), "players": ("2", "2", "3", "4", "16")}
    some = [f"{name}={draw.choice(values[name])}" for name in names if draw.random() < 0.4 or name == "players"]
    if not any(word.startswith("turns") for word in some) and "turns" in names:
        some.append(f"turns={draw.choice((7, 25, 25, 40, 101))}")
    draw.shuffle(some)
    return some


def drawn(seed: int) -> Drawn:
    """The case of a seed."""
    draw = random.Random(seed)
    if draw.random() < 0.12:
        words, files, typed = draw.choice(ODD)(draw)
        return Drawn(words, files, typed)
    world = World(draw)
    text = wrong_text(draw, world.items) if draw.random() < 0.2 else "\n".join(world.items) + "\n"
    typed = lines_typed(draw)
    twice = ("rounds", "cause", "again", "weigh", "dead") * 2
    command = draw.choice(("play",) * 6 + ("check",) * 5 + twice + ("renew",))
    if command in ("play", "rounds", "dead"):
        return Drawn([command, "f"] + options(draw, FORMS[command][1]), {"f": text}, typed)
    if command == "weigh":
        return Drawn([command, "f", "g"], {"f": text, "g": claims(draw, world)}, "")
    play = draw.choice((["play", "f"], ["play", "f"], ["rounds", "f", "players=2"]))
    log = said(Drawn(play + options(draw, ("seed", "height", "turns")), {"f": text}, typed))
    if log and draw.random() < (0.75 if command == "check" else 0.15):
        log = wrong_log(draw, log)
    return Drawn([command, "f", "g"] + options(draw, FORMS[command][1]), {"f": text, "g": log}, "")


def said(case: Drawn) -> str:
    """What the reference writes of a case."""
    try:
        return run(case.words, case.files, case.typed, MOST_WORK).text
    except NotAnswered:
        return ""
