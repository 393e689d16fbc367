#!/usr/bin/env python3
"""Measures how well tools/explain tells slips of a token: over all worlds one token is dropped or
changed, some tries of each kind by a fixed seed, and the cause that is told is compared with those
that are right. Ends with 1 where fewer than 90 of a hundred are right, or one is false."""

import argparse
import os
import random
import sys
from collections import Counter
from multiprocessing import get_context

from setting import WORLDS, world_names

from ceptre_tools import program
from ceptre_tools.explain.refusal import Refusal
from ceptre_tools.text import read_text
from ceptre_tools.tokens import tokens

SEED = 3
TRIES = 40
ENOUGH = 0.9

DOT, STAR, COMMA = "a missing dot", "a missing star", "a missing comma"
BRACE, PARENTHESIS = "a missing brace", "a missing parenthesis"
ARROW, EQUALS = "a missing arrow", "a missing equals sign"
OTHER_ARROW, MISSPELT_ARROW = "an arrow of another language", "an arrow that is misspelt"
BOTH_STAGES, CAPITAL = (
    "a `qui` rule without both stages",
    "a word of the language with a capital letter",
)
NO_HASH, NO_KIND = "a directive without its `#`", "a declaration without its kind"

# What a token is changed into, and the causes that are right for it.
SLIPS = [
    (".", "", DOT),
    (".", ";", DOT),
    ("*", "", STAR),
    ("*", ",", "a comma between atoms of a rule"),
    (",", "", COMMA),
    (",", ".", COMMA),
    (",", "*", "a star between the goals of a clause"),
    ("-o", "", ARROW),
    ("-o", "->", OTHER_ARROW),
    ("-o", "-O", MISSPELT_ARROW),
    ("-o", "-0", MISSPELT_ARROW),
    ("-o", "- o", MISSPELT_ARROW),
    (":", "", "a missing colon"),
    ("{", "", BRACE),
    ("}", "", BRACE),
    ("(", "", PARENTHESIS),
    (")", "", PARENTHESIS),
    (")", "))", "a parenthesis too many"),
    ("=", "", EQUALS),
    ("=", ":", EQUALS),
    ("$", "!", "a bang"),
    ("<-", "", ARROW, COMMA),
    ("<-", "-o", "an arrow of rules in a clause"),
    ("<-", ":-", "a clause of Prolog"),
    ("qui", "", BOTH_STAGES),
    ("stage", "", "a missing `stage` or `context`", BOTH_STAGES),
    ("stage", "Stage", CAPITAL),
    ("context", "", "a missing `stage` or `context`"),
    ("#trace", "trace", NO_HASH),
    ("#interactive", "interactive", NO_HASH),
    ("pred", "", NO_KIND),
    ("pred", "prop", "a misspelt name"),
    ("type", "", NO_KIND),
    ("type", "Type", CAPITAL),
    ("_", "", "an argument too few", "a `#trace` without its number"),
]


def told(text):
    """What is told of a text: nothing where it is accepted, else the cause, and the line."""
    try:
        line = program.refusal_of(text)
    except program.CannotRun as error:
        return str(error), ""
    if line is None:
        return None
    return Refusal.of(text, line).cause, line


def changed(kind, tries, seed):
    """Texts in which one token is changed, each with where that was."""
    old, new, *right = kind
    places = [
        (name, token)
        for name in world_names()
        for token in tokens(read_text(os.path.join(WORLDS, name + ".cep")))
        if token.text == old
    ]
    random.Random(f"{seed} {old} {new}").shuffle(places)
    for name, token in places[:tries]:
        text = read_text(os.path.join(WORLDS, name + ".cep"))
        yield f"{name}.cep:{token.line}:{token.column}", right, (
            text[: token.start] + new + text[token.end :]
        )


def measured(kind, tries, seed, pool):
    """How many slips of a kind are told with the right cause, with none, with a false one, and
    accepted; and a line for each of the others."""
    found, lines = Counter(), []
    slips = list(changed(kind, tries, seed))
    for (where, right, _), answer in zip(slips, pool.map(told, [text for _, _, text in slips])):
        if answer is None:
            found["accepted"] += 1
            continue
        cause, line = answer
        verdict = "none" if not cause else "right" if cause in right else "false"
        found[verdict] += 1
        if verdict != "right":
            lines.append(f"  {verdict} at {where}: {cause or '-'} ({line})")
    return found, lines


def measure(tries, seed, tell):
    """How many slips of all kinds came out how; each kind is told as it comes."""
    total = Counter()
    with get_context("fork").Pool(os.cpu_count()) as pool:
        for kind in SLIPS:
            found, lines = measured(kind, tries, seed, pool)
            total += found
            counts = "  ".join(f"{found[v]:3} {v}" for v in ("right", "none", "false", "accepted"))
            tell(f"{kind[0]:>12} as {kind[1] or 'nothing':<12}{counts}", lines)
    return total


def share(total):
    """Which part of the refused slips is told with the right cause."""
    return total["right"] / (total["right"] + total["none"] + total["false"])


def main():
    parser = argparse.ArgumentParser(prog="measure_slips", description=__doc__)
    parser.add_argument("--tries", type=int, default=TRIES, help="tries of each kind")
    parser.add_argument("--seed", type=int, default=SEED, help="which tokens are taken")
    parser.add_argument("--all", action="store_true", help="tell each slip that is not told right")
    words = parser.parse_args()

    def tell(line, others):
        print("\n".join([line, *(others if words.all else [])]), flush=True)

    total = measure(words.tries, words.seed, tell)
    print(f"{100 * share(total):.1f} % told right;", ", ".join(f"{n} {v}" for v, n in total.items()))
    return 0 if share(total) >= ENOUGH and not total["false"] else 1


if __name__ == "__main__":
    sys.exit(main())
