"""Causes for which names, arguments or variables of a text do not fit, by rules of thumb."""

import re
from difflib import get_close_matches

from ceptre_tools.explain.location import Location
from ceptre_tools.tokens import KINDS

OF_THE_LANGUAGE = "a word of the language"


def qui_to_nothing(here: Location) -> bool:
    words = here.words()
    return "qui" in words and "-o" in words and "stage" not in words[words.index("-o") :]


def qui_without_stages(here: Location) -> bool:
    return any(word in ("qui", "stage") for word in here.words())


def loose_rule(here: Location) -> bool:
    return not qui_without_stages(here)


def fact_at_top_level(here: Location) -> bool:
    return "<-" not in here.words()


def capital_thing(here: Location) -> bool:
    return here.of_kind(here.word()[:1].lower() + here.word()[1:], "constructor") is not None


def small_variable(here: Location) -> bool:
    """A name of one letter, or one that stands with a capital letter in the same rule."""
    name, words = here.word(), here.words()
    if here.head() is None or not ("-o" in words or "<-" in words):
        return False
    others = {token.text for token in here.item() if token.kind == "variable"}
    return len(name) == 1 or name[:1].upper() + name[1:] in others


def run_on(here: Location) -> bool:
    """Whether a predicate stands among the arguments of the atom at the place."""
    return any(here.of_kind(token.text, "predicate") for token in here.atom()[1:])


def missing_star(here: Location) -> bool:
    return run_on(here) and here.in_rule() and here.braces() not in ("context", "#trace")


def bare_term(here: Location) -> bool:
    """Whether a constructor with arguments stands bare among the tokens at the place."""
    first = here.index - (here.kind(-1) in ("name", "variable"))
    row = here.tokens[first : here.index] + here.atom()
    pairs = zip(row, row[1:])
    declared = (here.of_kind(token.text, "constructor") for last, token in pairs if last.text != "(")
    return any(thing is not None and thing.arguments for thing in declared)


def type_for_thing(here: Location) -> bool:
    return here.of_kind(here.word(), "type") is not None


def misspelt(here: Location) -> bool:
    return bool(near_names(here))


def blank_on_right(here: Location) -> bool:
    return here.word() == "_"


def spare_arguments(here: Location) -> int:
    """How many arguments the atom or term at the place has too many."""
    declared = here.of_kind(here.word(), "predicate", "constructor")
    return len(here.arguments()) - len(declared.arguments) if declared else 0


def too_few(here: Location) -> bool:
    return spare_arguments(here) < 0


def too_many(here: Location) -> bool:
    return spare_arguments(here) > 0


def near_names(here: Location) -> list[tuple[str, str]]:
    """Names that are spelt nearly as the one at the place, each with what it is."""
    name, known = here.word(), {}
    if here.reason == "Unbound":
        known = {token.text: "on the left side" for token in here.item() if token.kind == "variable"}
    elif here.reason in ("Unknown", "WrongKind"):
        if re.fullmatch("predicate?s?|props?", name):
            return [("pred", OF_THE_LANGUAGE)]
        if here.word(-1) == ":":
            known = {word: OF_THE_LANGUAGE for word in ("type", *KINDS)}
        kinds = kinds_wanted(here)
        for declared in here.declared:
            if declared.kind in kinds:
                known.setdefault(declared.name, str(declared))
    known.pop(name, None)
    return [(found, known[found]) for found in get_close_matches(name, known, n=3, cutoff=0.6)]


def names_a_stage(here: Location) -> bool:
    """Whether what stands at the place has to be the name of a stage."""
    return here.word(-1) in ("#interactive", "stage") or here.word(-2) == "#trace"


def kinds_wanted(here: Location) -> tuple[str, ...]:
    """The kinds of names that may be meant at the place."""
    return ("stage",) if names_a_stage(here) else ("type", "predicate", "constructor", "stage", "context")
