"""FORMATS, Claims about weights; MODEL, Weights."""
import re
from typing import List, NamedTuple, Optional, Tuple

from reference.grammar import MOST_BYTES, MOST_NAME, RESERVED
from reference.program import Program, Rule
from reference.texts import number_of
from reference.transcript import Unread, lines_of

CLAIM = re.compile(r"(keep|most|fall) ([a-z][A-Za-z0-9_/']*) = (.*)", re.DOTALL)
PART = re.compile(r"(-?)([0-9]+) ([a-z][A-Za-z0-9_/']*)")


class Claim(NamedTuple):
    """A claim: its word, its name, and its parts, each a factor and a predicate."""
    word: str
    name: str
    parts: List[Tuple[int, int]]

    def weigh(self, predicate: int) -> int:
        """The factor of a predicate."""
        return sum(factor for factor, each in self.parts if each == predicate)

    def sums(self, rule: Rule) -> Tuple[int, int]:
        """The factors of the premises that are not kept, and of the right atoms."""
        left = sum(self.weigh(atom[0]) for atom, kept in zip(rule.premises, rule.kept) if not kept)
        return left, sum(self.weigh(atom[0]) for atom in rule.right)

    def is_kept(self, rule: Rule) -> bool:
        """`keep` wants equal sums, `most` a right sum that is not greater, `fall` one that is less."""
        left, right = self.sums(rule)
        return {"keep": left == right, "most": right <= left, "fall": right < left}[self.word]


def is_name(text: str) -> bool:
    """A name of the program's tokens."""
    return len(text) <= MOST_NAME and text not in RESERVED


def part_of(text: str) -> Optional[Tuple[int, str]]:
    """A factor, one space and a name."""
    found = PART.fullmatch(text)
    factor = number_of(found.group(2), 1, 1_000_000) if found else None
    if not found or factor is None or not is_name(found.group(3)):
        return None
    return (-factor if found.group(1) else factor), found.group(3)


def claim_of(program: Program, text: str, names: List[str]) -> Tuple[str, Claim]:
    """The claim of a line, and its first fault, if it has one."""
    found = CLAIM.fullmatch(text)
    parts = [part_of(part) for part in found.group(3).split(" + ")] if found else [None]
    if not found or not is_name(found.group(2)) or None in parts:
        return "Keep", Claim("", "", [])
    written = [part for part in parts if part]
    linear = {predicate.name: number for number, predicate in enumerate(program.predicates) if predicate.kind == "pred"}
    if any(name not in linear for _, name in written):
        return "KeepName", Claim("", "", [])
    claim = Claim(found.group(1), found.group(2), [(factor, linear[name]) for factor, name in written])
    if claim.name in names or len({name for _, name in written}) < len(written):
        return "KeepTwice", claim
    return "KeepSign" if claim.word == "fall" and any(factor < 0 for factor, _ in written) else "", claim


def claims_of(program: Program, text: str) -> List[Claim]:
    """The claims of a file, unless a line has a fault."""
    if len(text) > MOST_BYTES:
        raise Unread(0, "TooLong")
    claims: List[Claim] = []
    for number, line in lines_of(text):
        if line and not line.startswith("%"):
            fault, claim = claim_of(program, line, [each.name for each in claims])
            if fault:
                raise Unread(number, fault)
            claims.append(claim)
    return claims


def judged(program: Program, claim: Claim) -> List[str]:
    """What is written of a claim."""
    against = [rule for rule in program.rules if not claim.is_kept(rule)]
    if against:
        left, right = claim.sums(against[0])
        return [f"no {claim.name} {against[0].name} {left} {right}"]
    weight = sum(claim.weigh(atom[0]) * copies for atom, copies in program.state.items())
    lines = [f"yes {claim.name} {weight}"] + [f"turns {weight}"] * (claim.word == "fall")
    if claim.word != "fall" and all(factor > 0 for factor, _ in claim.parts):
        lines += [f"bound {program.predicates[predicate].name} {weight // factor}" for factor, predicate in claim.parts]
    return lines


def weigh(program: Program, text: str) -> Tuple[List[str], int]:
    """The lines of all claims, and the status."""
    lines = [line for claim in claims_of(program, text) for line in judged(program, claim)]
    return lines, 5 if any(line.startswith("no ") for line in lines) else 0
