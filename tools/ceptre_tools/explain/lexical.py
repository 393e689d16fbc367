"""Causes that show in the bytes at the place: marks that are none of the language's."""

import re

from ceptre_tools.explain.location import Location
from ceptre_tools.tokens import KINDS


def byte_order_mark(here: Location) -> bool:
    return here.start == 0 and here.source(3) == "\xef\xbb\xbf"


def utf_16(here: Location) -> bool:
    """A mark of UTF-16 at the beginning, or a zero at most of the second bytes."""
    head = here.text[:200]
    zeros = max(head[0::2].count("\0"), head[1::2].count("\0"))
    return here.start < 2 and (head[:2] in ("\xff\xfe", "\xfe\xff") or 4 * zeros > len(head))


def control(here: Location) -> bool:
    return here.source(1) < " " or here.source(1) == "\x7f"


def typographic(here: Location) -> bool:
    """Dashes, quotes, dots and spaces of typesetters begin with one of these bytes in UTF-8."""
    return here.source(1) in ("\xe2", "\xc2")


def not_ascii(here: Location) -> bool:
    return here.source(1) > "\x7f"


def dashed_name(here: Location) -> bool:
    """A dash without spaces around it: `blue-orb` is read as `blue -o rb`."""
    item = here.item()
    for left, dash, right in zip(item, item[1:], item[2:]):
        joined = left.end == dash.start and dash.end == right.start
        if joined and dash.text in ("-", "-o") and left.kind == "name" and right.kind == "name":
            return True
    return False


def misspelt_arrow(here: Location) -> bool:
    return re.match(r"-([O0]|\s+o)\b", here.source(9)) is not None


def typed_with_arrows(here: Location) -> bool:
    """`at : person -> place -> pred.`: names alone, arrows between them, and what they make."""
    words = [word for word in here.words() if word not in ("-", ">", "=", ".")]
    if here.braces() or words[1:2] != [":"] or len(words) < 4 or not foreign_arrow(here):
        return False
    types = words[2:]
    return all(here.of_kind(word, "type") or word in ("type", *KINDS) for word in types)


def foreign_arrow(here: Location) -> bool:
    near = here.before(2) + here.source(3)
    return any(arrow in near for arrow in ("->", "=>", "\xe2\x86\x92", "\xe2\x8a\xb8"))


def prolog_clause(here: Location) -> bool:
    return here.before(1) + here.source(1) == ":-"


def mode(here: Location) -> bool:
    if here.source(1) not in ("+", "-"):
        return False
    return any(token.text in (*KINDS, "#mode") for token in here.item())


def bang(here: Location) -> bool:
    return here.source(1) == "!" and here.source(2) != "!="


def negation(here: Location) -> bool:
    if here.reason == "BadByte":
        return here.source(1) in ("~", "\\", "\xac") or here.source(2) == "\xc2\xac"
    return here.reason == "Unknown" and here.word() == "not"


def comparison(here: Location) -> bool:
    if here.reason == "BadByte":
        return here.source(2) in ("!=", "<=", ">=", "==") or here.source(1) in ("<", ">")
    equals = 1 if here.kind() == "variable" else 0
    block = here.word(-1) == "stage" or here.word(-2) == "stage" or here.word(equals + 1) == "{"
    return here.word(equals) == "=" and not block


def foreign_join(here: Location) -> bool:
    return here.source(1) in ("&", ";", "+", "|") or here.source(3) in (
        "\xe2\x8a\x97",
        "\xe2\x88\x97",
    )


def foreign_comment(here: Location) -> bool:
    if here.reason == "BadByte":
        return here.source(2) in ("//", "--", "/*") or here.source(1) == "#"
    return here.source(2) == "*)" or here.before(1) + here.source(1) == "(*"


def quoted(here: Location) -> bool:
    return here.source(1) in ('"', "'", "`")
