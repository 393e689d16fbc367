"""Drawn cases of which there are few: words, files that are not there, and what goes to a limit."""
import random
from typing import Callable, Dict, List, Tuple

Odd = Tuple[List[str], Dict[str, str], str]
SMALL = "a : pred. b : pred.\nstage main = { r : a -o b. }\n#interactive main.\n#trace _ main { a, a }.\n"
USES = "t : type. c : t. f t t : t. s t : t. p t : pred. a : pred. b : pred.\n"


def words(draw: random.Random) -> Odd:
    """Words that have no form, or nearly none."""
    some = ("play check world f g seed=1 seed=01 seed= height=0 height=512 turns=1 turns=1000001 players=1 players=2 "
            "17 rounds dead again renew").split()
    said = [draw.choice(some) for _ in range(draw.randint(0, 4))]
    if draw.random() < 0.7:
        command = draw.choice(("play f", "check f g", "world 2", "again f g", "rounds f players=2", "dead f"))
        said = command.split() + [draw.choice(some) for _ in range(draw.randint(0, 2))]
    return said, {"f": SMALL, "g": "ceptre 2\n"}, "1\n"


def missing(draw: random.Random) -> Odd:
    """A file that is not there."""
    command = draw.choice(("play", "check", "renew", "weigh", "cause", "dead"))
    files = [draw.choice("fx") for _ in range(1 if command in ("play", "dead") else 2)]
    return [command] + files, {"f": SMALL}, ""


def generated(draw: random.Random) -> Odd:
    """A generated world."""
    rooms = str(draw.choice((1, 2, 3, 5, 9)))
    return ["world", rooms, f"seed={draw.randint(0, 99)}", f"turns={draw.randint(1, 60)}"], {}, ""


def long_name(draw: random.Random) -> Odd:
    """A name, a variable or a directive at the most bytes, or one more."""
    name = draw.choice("aX#") + draw.choice("ab") * draw.choice((253, 254, 255))
    return ["play", "f"], {"f": draw.choice((f"{name} : pred.\n{SMALL}", f"p {name}.\n{SMALL}", f"{name}\n"))}, "1\n"


def nested(draw: random.Random) -> Odd:
    """Parentheses, as many as may be open, or one more."""
    deep = draw.choice((511, 512, 513))
    return ["dead", "f"], {"f": USES + f"#trace _ main {{ p {'(' * deep}c{')' * deep} }}. stage main = {{}}\n"}, ""


def many(draw: random.Random) -> Odd:
    """As many premises, right atoms, arguments, goals, variables or clauses as there may be, or one more."""
    more = draw.randint(0, 1)
    premises, right = " * ".join(["a"] * (16 + more)), " * ".join(["b"] * (32 + more))
    backward = " * ".join(["e"] * (8 + more))
    variables = " * ".join(["p (f _ (f _ _))"] * 10 + ["p (f X X)"] + ["p (f Y Z)"] * more)
    goals = "e <- " + ", ".join(["e"] * (8 + more)) + "."
    item = draw.choice((f"stage x = {{ r : {premises} -o (). }}", f"stage x = {{ r : a -o {right}. }}",
                        f"stage x = {{ r : a * {backward} -o (). }}", f"stage x = {{ r : {variables} -o b. }}", goals,
                        f"k {'t ' * (8 + more)}: pred.", "e. " * (4_096 + more) if draw.random() < 0.1 else goals))
    turns = draw.choice(("1000000", "1000001", "0", "_"))
    stage = "" if "stage x" in item else "stage x = {}\n"
    return ["dead", "f"], {"f": f"{USES}e : bwd. {item}\n{stage}#trace {turns} x {{ a }}.\n"}, ""


def long_text(draw: random.Random) -> Odd:
    """A text of the most bytes, or one more."""
    return ["play", "f"], {"f": SMALL + " " * (1_048_576 - len(SMALL) + draw.randint(0, 1))}, ""


def full_state(draw: random.Random) -> Odd:
    """A state of nearly the most copies, which a step may fill, played or with a transcript of that step."""
    count = draw.choice((99_998, 100_000, 100_000, 100_001))
    start = ", ".join(["k"] * ((count - 1) // 1000) + ["b"] * ((count - 1) % 1000) + ["a"])
    text = (f"{USES}stage main = {{ r : a -o a * b. }}\ncontext k = {{ {', '.join(['b'] * 1000)} }}\n"
            f"#trace 4 main {{ {start} }}.\n")
    log = (f"ceptre 2\nheight 128\nstage main\nhave 1 a\nhave {count - 1} b\nstep r\nend atom\nhave 1 a\n"
           f"have {min(count, 100_000)} b\n")
    return draw.choice((["play", "f"], ["check", "f", "g"])), {"f": text, "g": log}, ""


def large_atom(draw: random.Random) -> Odd:
    """Atoms that grow to the most nodes, or to the greatest depth, played or with a transcript of the step that passes
    it."""
    if draw.random() < 0.2:
        text = f"{USES}stage main = {{ r : p X -o p (f X X). }}\n#trace 17 main {{ p (f (f (f c c) c) c) }}.\n"
        return ["play", "f"], {"f": text}, ""
    deep = draw.choice((509, 510, 510, 511))
    term = "(s " * deep + "c" + ")" * deep
    text = f"{USES}stage main = {{ r : p X -o p (s X). }}\n#trace _ main {{ p {term} }}.\n"
    value = draw.choice((term, term, term, f"(s {term})", f"(s (s {term}))"))
    log = f"ceptre 2\nheight 128\nstage main\nhave 1 p {term}\nstep r X={value}\nend atom\nhave 1 p {term}\n"
    return draw.choice((["play", "f"], ["check", "f", "g"])), {"f": text, "g": log}, ""


def many_offers(draw: random.Random) -> Odd:
    """As many offers as a turn may have, or more."""
    count = draw.choice((9, 256, 256, 257))
    text = "t : type. p t : pred. q t : pred.\n" + "".join([f"c{i} : t.\n" for i in range(count)])
    atoms = ", ".join([f"p c{i}, q c{i}" for i in range(count)] + ["n"] * (count == 256 and draw.random() < 0.5))
    rules = "stage main = { r : $p X * $q Y -o (). o : $n -o (). }\nn : pred.\n"
    return ["play", "f"], {"f": f"{text}{rules}#trace 1 main {{ {atoms} }}.\n"}, ""


def much_typed(draw: random.Random) -> Odd:
    """As many bytes as may be typed."""
    return ["play", "f"], {"f": SMALL}, "1\n" * draw.randint(0, 1) + "x" * (16_777_216 - draw.randint(0, 4))


def long_run(draw: random.Random) -> Odd:
    """A hundred steps, and a transcript of them with a number in the middle."""
    steps = draw.choice((99, 100, 101, 200))
    text = "a : pred. b : pred.\nstage main = { r : a -o a * b. }\n#trace _ main { a }.\n"
    middle = f"state {draw.choice((100, 100, 100, 99))}\nhave 1 a\nhave {draw.choice((100, 99))} b\n"
    lines = "step r\n" * min(steps, 100) + middle * (steps >= 100) + "step r\n" * max(steps - 100, 0)
    end = "state 200\nhave 1 a\nhave 200 b\n" * (steps == 200) + f"end turns\nhave 1 a\nhave {steps} b\n"
    log = f"ceptre {draw.choice('221')}\nheight 128\nstage main\nhave 1 a\n{lines}{end}"
    words = draw.choice(("check f g", "renew f g", f"play f turns={steps}", "play f"))
    return words.split(), {"f": text, "g": log}, ""


def full_order(draw: random.Random) -> Odd:
    """A transcript of which another order leads to a state over the limit."""
    count = draw.choice((99_982, 99_983))
    text = (f"{USES}stage main = {{ less : {' * '.join(['p c'] * 16)} -o (). more : a -o {' * '.join(['b'] * 17)}. }}\n"
            f"context k = {{ {', '.join(['b'] * 1000)} }}\n"
            f"#trace 2 main {{ {', '.join(['k'] * 99 + ['b'] * (count - 99_000) + ['p c'] * 16 + ['a'])} }}.\n")
    log = (f"ceptre 2\nheight 128\nstage main\nhave 16 p c\nhave 1 a\nhave {count} b\nstep less\nstep more\n"
           f"end turns\nhave {count + 17} b\n")
    return ["again", "f", "g", f"seed={draw.randint(1, 9)}"], {"f": text, "g": log}, ""


def deep_proof(draw: random.Random) -> Odd:
    """A transcript with as many brackets open at once as there may be, or one more."""
    deep = draw.choice((300, 511, 512, 513))
    text = "d : bwd. d <- d. d. a : pred.\nstage main = { r : d -o a. }\n#interactive main.\n#trace _ main {}.\n"
    proof = "[1 " * (deep - 1) + "[2]" + "]" * (deep - 1)
    log = f"ceptre 2\nheight {draw.choice((300, 511, 512))}\nstage main\nstep r\nby {proof}\nend input\nhave 1 a\n"
    return ["check", "f", "g"], {"f": text, "g": log}, ""


def proofs(draw: random.Random) -> Odd:
    """Transcripts with derivations, right and wrong ones, and heights that are too low for them."""
    text = (f"{USES}m t : bwd.\nm c.\nm (s N) <- m N.\nm (s (s N)) <- m N.\nstage main = {{ r : $p X * m X -o a. }}\n"
            "stage rest = { o : a -o b. }\ngo : qui * stage main -o stage rest.\n#trace _ main { p (s (s c)) }.\n")
    proof = draw.choice(("[2 N=(s c) [2 N=c [1]]]", "[3 N=c [1]]", "[1]", "[2 N=c [1]]", "[3 N=(s c) [1]]", "[4]",
                         "[2 N=(s c) [1]]"))
    step = draw.choice(("step r X=(s (s c))", "step r X=(s (s c))", "step r X=c", "step o", "step go\nstage rest"))
    by = f"by {proof}\n" if step.startswith("step r") else ""
    end = "have 1 p (s (s c))\n" + "have 1 a\n" * (step != "step go\nstage rest")
    log = (f"ceptre 2\nheight {draw.choice((1, 2, 3, 4))}\nstage main\nhave 1 p (s (s c))\n{step}\n{by}"
           f"end {draw.choice(('input', 'quiet'))}\n{end}")
    return [draw.choice(("check", "cause")), "f", "g"], {"f": text, "g": log}, ""


def stage_lines(draw: random.Random) -> Odd:
    """Transcripts of steps that leave a stage, with right and wrong lines."""
    text = ("a : pred. b : pred.\nstage one = { r : a -o b. }\nstage two = { o : b -o a. }\n"
            "go : qui * stage one -o stage two.\n#trace _ one { a }.\n")
    steps = draw.choice(("step r\nstep go\nstage {}\n", "step r\nstep go\nstage {}\nstep o\n", "step go\nstage {}\n",
                         "step o\n", "step r\nstep o\n", "step none\n"))
    steps = steps.format(draw.choice(("two", "two", "one", "none")))
    start, end = draw.choice(("one", "one", "one", "two")), draw.choice(("quiet", "turns"))
    log = f"ceptre 2\nheight 9\nstage {start}\nhave 1 a\n{steps}end {end}\n"
    return [draw.choice(("check", "renew")), "f", "g"], {"f": text, "g": log + f"have 1 {draw.choice('ab')}\n"}, ""


ODD: Tuple[Callable[[random.Random], Odd], ...] = (
    (words,) * 6 + (missing,) * 3 + (generated,) * 3 + (long_name,) * 5 + (nested,) * 4 + (many,) * 14
    + (long_text,) * 3 + (full_state,) * 8 + (large_atom,) * 5 + (many_offers,) * 3 + (much_typed,) * 3
    + (long_run,) * 9 + (full_order,) * 3 + (deep_proof,) * 4 + (proofs,) * 14 + (stage_lines,) * 18)
