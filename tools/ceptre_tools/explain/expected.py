"""What is expected at the place of a refusal: which tokens may stand there, and what a name may be."""

from collections.abc import Iterator

from ceptre_tools.explain.location import Location
from ceptre_tools.explain.names import names_a_stage
from ceptre_tools.explain.repairs import Judge
from ceptre_tools.text import article, joined
from ceptre_tools.tokens import Token

# What may come next: in words, and a token of that kind.
KINDS = [("a name", "a"), ("a variable", "X"), ("`_`", "_"), ("a number", "1")]
WORDS = ". : * , -o <- $ = ( ) { } type pred bwd fact stage context qui #trace #interactive".split()
NEXT = KINDS + [(f"`{word}`", word) for word in WORDS]


def next_tokens(here: Location, refusal_of: Judge) -> list[str]:
    """The tokens that may stand at the place, in words.

    The program is asked of each: where it fits, the text up to it and with it is not refused there.
    """
    front = here.text[: here.start].rstrip(" \t\r\n")
    # A comment goes on to the end of its line.
    front = here.text[: here.start] if "%" in front[front.rfind("\n") + 1 :] else front
    row, column = front.count("\n") + 1, len(front) - front.rfind("\n") + 1
    found = []
    for words, token in NEXT:
        line = refusal_of(f"{front} {token} ")
        if line is None or line.split()[1] != f"{row}:{column}":
            found.append(words)
    return found


def expected_name(here: Location) -> tuple[str, str]:
    """What a name at the place should name, and how that is declared."""
    if names_a_stage(here):
        return "a stage", f"stage {here.word()} = {{}}"
    if here.word(-3) == "#trace":
        return "a context", f"context {here.word()} = {{ .. }}"
    if is_type(here):
        return "a type", f"{here.word()} : type."
    head = here.head()
    if head is None:
        types = [type_of_argument(here, argument) for argument in here.arguments()]
        return "a predicate", f"{' '.join([here.word(), *types])} : pred."
    result = type_at(here, head)
    return article(result or "thing"), f"{here.word()} : {result or 'TYPE'}."


def is_type(here: Location) -> bool:
    """Whether a type is expected at the place: before or after the colon of a declaration."""
    words, first = here.words(), here.bounds()[0]
    if here.braces() or ":" not in words or "-o" in words or "<-" in words:
        return False
    colon, number = words.index(":"), here.index - first
    if number < colon:
        return number > 0
    return number == colon + 1 and words[colon + 2 : colon + 3] == ["."]


def type_at(here: Location, head: Token) -> str:
    """The type that a head expects of the argument at the place, or nothing."""
    declared = here.of_kind(head.text, "predicate", "constructor")
    before = [argument for argument in here.moved(head).arguments() if argument[-1].end <= here.start]
    if declared is None or len(before) >= len(declared.arguments):
        return ""
    return declared.arguments[len(before)]


def type_of_argument(here: Location, argument: list[Token]) -> str:
    """The type of an argument, as far as it is known: of a thing, or of a variable by another place of it
    in its rule."""
    token = argument[len(argument) > 1]
    declared = here.of_kind(token.text, "constructor")
    if declared:
        return declared.result
    others = (result for other, result in variable_types(here, token.text) if other.start != token.start)
    return next((result for result in others if result), "TYPE")


def variable_types(here: Location, name: str) -> Iterator[tuple[Token, str]]:
    """Each place of a variable in the item at the place, with the type that is expected there."""
    for token in here.item():
        if token.text == name:
            there = here.moved(token)
            head = there.head()
            yield token, type_at(there, head) if head else ""


def expectation(here: Location, cause: str, refusal_of: Judge) -> str:
    """What is expected at the place in words, or nothing."""
    if here.reason == "Unexpected":
        return joined(next_tokens(here, refusal_of))
    if here.reason not in ("Unknown", "WrongKind") or here.kind() != "name":
        return ""
    what, declaration = expected_name(here)
    stages = [f"`{d.name}`" for d in here.declared if d.kind == "stage"] if what == "a stage" else []
    what += f", such as {joined(list(dict.fromkeys(stages)))}" if stages else ""
    return f"{what}; perhaps `{declaration}`" if cause == "a name that nothing declares" else what
