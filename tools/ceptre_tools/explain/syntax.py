"""Causes for which a text does not fit the grammar, by rules of thumb."""

from ceptre_tools.explain.location import Location
from ceptre_tools.tokens import KINDS, RESERVED


def number(here: Location) -> bool:
    return here.kind() == "number"


def builtin(here: Location) -> bool:
    return here.word() == "#builtin"


def foreign_directive(here: Location) -> bool:
    return here.kind() == "directive" and here.word() not in ("#trace", "#interactive")


def qui_in_stage(here: Location) -> bool:
    in_side = here.word(-1) in (":", "*", "-o")
    return here.word() in ("qui", "stage") and in_side and here.braces() == "stage"


def variable_stage(here: Location) -> bool:
    return here.kind() == "variable" and here.word(-1) == "stage" and here.word(1) != "="


def implication(here: Location) -> bool:
    words = [token.text for token in here.item()]
    return here.word() == "{" and here.word(-1) in ("-o", "*") or (
        here.word() == "-o" and words.count("-o") > 1 and here.on_right_side()
    )


def trace_without_number(here: Location) -> bool:
    return here.word(-1) == "#trace" and here.kind() == "name"


def trace_without_stage(here: Location) -> bool:
    return here.word(-2) == "#trace" and here.word() == "{"


def capital_name(here: Location) -> bool:
    return here.kind() == "variable"


def missing_dot(here: Location) -> bool:
    """Whether the line above ended without a mark, so that what is here was read with it."""
    if here.reason == "WrongArity":
        in_rule = any(token.text == "-o" for token in here.item())
        return broken_atom(here) and not in_rule and not here.braces()
    if here.kind() == "end":
        return ends_unfinished(here, -1)
    if here.word() == "}":
        return here.braces() == "stage" and ends_unfinished(here, -1)
    first = 0
    while here.word() == ":" and not here.begins_line(first) and here.kind(first - 1) == "name":
        first -= 1
    return here.begins_line(first) and ends_unfinished(here, first - 1)


def ends_unfinished(here: Location, ahead: int) -> bool:
    """Whether an item may end with this token, but for its dot."""
    kinds = ("name", "variable", "blank", "number", "reserved")
    return here.kind(ahead) in kinds or here.word(ahead) in (")", "}")


def open_parentheses(here: Location) -> int:
    """How many parentheses are open at the place in its item."""
    before = [token.text for token in here.item() if token.start < here.start]
    return before.count("(") - before.count(")")


def spare_parenthesis(here: Location) -> bool:
    return here.word() == ")" and open_parentheses(here) == 0


def missing_parenthesis(here: Location) -> bool:
    return here.word() in (".", ",", "*", "-o", "}", ":", "") and open_parentheses(here) > 0


def missing_brace(here: Location) -> bool:
    if not here.braces():
        return False
    opens = here.word() in ("stage", "context") or here.kind() == "directive"
    declares = any(token.text in ("type", *KINDS) for token in here.item())
    return opens or declares or here.kind() == "end"


def missing_equals(here: Location) -> bool:
    return here.word() == "{" and here.word(-2) in ("stage", "context")


def missing_arrow(here: Location) -> bool:
    words = [token.text for token in here.item()]
    if "-o" in words or ":" not in words:
        return False
    if here.braces() == "stage" or "qui" in words:
        return here.word() in (".", "}") and here.word(-1) != ":"
    return here.braces() == "" and here.word() == "*"


def unnamed_rule(here: Location) -> bool:
    started = [token for token in here.item() if token.start < here.start]
    return here.braces() == "stage" and all(token.text != ":" for token in started)


def comma_in_rule(here: Location) -> bool:
    return here.word() == "," and (here.braces() == "stage" or here.on_right_side())


def dangling_mark(here: Location) -> bool:
    return here.word(-1) in (",", "*") and here.word() in ("}", ".", "-o", ",", "*")


def empty_side(here: Location) -> bool:
    if here.word() == "-o":
        return here.word(-1) in (":", "{", ".")
    return here.word(-1) == "-o" and here.word() in (".", "}")


def argument_commas(here: Location) -> bool:
    words = [token.text for token in here.item()]
    closed = words.count("(") == words.count(")")
    return here.word() == "," and open_parentheses(here) > 0 and closed


def kept_elsewhere(here: Location) -> bool:
    return here.word() == "$" and (here.on_right_side() or here.braces() != "stage")


def reserved_name(here: Location) -> bool:
    """A declaration that begins with `stage` or `context` is refused after that word."""
    return any(here.word(ahead) in RESERVED for ahead in (0, -1, -2))


def broken_atom(here: Location) -> bool:
    """Whether the atom at the place goes on in the next line with a name."""
    atom = here.atom()
    return any(b.line > a.line and b.kind == "name" for a, b in zip(atom, atom[1:]))


def several_names(here: Location) -> bool:
    item = here.item()
    words = [token.text for token in item]
    if ":" not in words or here.braces():
        return False
    colon = words.index(":")
    if here.reason == "Unexpected":
        return here.word() == "," and all(
            token.kind == "name" or token.text == "," for token in item[:colon]
        )
    return here.word() in words[1:colon] and words[colon + 1] not in KINDS


def clause_in_stage(here: Location) -> bool:
    return here.braces() == "stage" and "<-" in here.words()


def kept_group(here: Location) -> bool:
    return here.word() == "(" and here.word(-1) == "$"
