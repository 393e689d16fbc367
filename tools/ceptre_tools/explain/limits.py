"""Which limit a text passes, by the place at which the program refuses it with `OverLimit`."""

from ceptre_tools.explain.location import Location
from ceptre_tools.tokens import KINDS

# What is limited, and the most, as docs/LIMITS.md has it.
ARGUMENTS = "arguments of a predicate or a constructor: 8"
PREMISES = "premises of states in a rule: 16"
BACKWARD = "backward premises of a rule: 8"
RIGHT = "atoms on the right side of a rule: 32"
GOALS = "goals of a clause: 8"
VARIABLES = "variables of a left side or a clause, each `_` counted: 32"
PREDICATES = "predicates: 1,024"
CONSTRUCTORS = "constructors: 65,536"
RULES = "rules: 4,096"
CLAUSES = "clauses: 4,096"
ATOM = "an atom of a start state: 65,536 nodes, depth 512"
START = "the start state: 100,000 copies, 4,194,304 nodes"
TURNS = "the number after `#trace`: 1 to 1,000,000"


def limit(here: Location) -> str:
    """The limit, with its number."""
    if here.kind() == "number":
        return TURNS
    if here.word() == "#trace":
        return START
    if here.kind() in ("variable", "blank"):
        return VARIABLES
    if here.braces() in ("context", "#trace"):
        return ATOM
    return of_item(here)


def of_item(here: Location) -> str:
    """The limit where a declaration, a rule or a clause stands at the place."""
    words, first = here.words(), here.bounds()[0]
    if "-o" in words:
        if here.index == first:
            return RULES
        if here.on_right_side():
            return RIGHT
        return BACKWARD if here.is_backward(here.word()) else PREMISES
    colon = words.index(":") if ":" in words else 0
    declares = colon > 1 or any(word in KINDS for word in words[colon:])
    declares = declares or here.of_kind(here.word(), "constructor") is not None
    if "<-" in words or not declares:
        head = first + (2 if colon == 1 else 0)
        return CLAUSES if here.index <= head else GOALS
    if here.index > first:
        return ARGUMENTS
    return PREDICATES if any(word in KINDS for word in words) else CONSTRUCTORS
