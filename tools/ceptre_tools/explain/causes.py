"""Which cause is likely where a text is refused.

Each cause has the name by which `causes.csv` says how it is mended. A repair of a token is borne out
by the program, which accepts the text once it is mended; else rules of thumb choose.
"""

from collections.abc import Callable

from ceptre_tools.explain import lexical, names, syntax
from ceptre_tools.explain.location import Location

Fits = Callable[[Location], bool]


def always(_here: Location) -> bool:
    return True


# The causes of each reason by rules of thumb, the likelier ones first: the first that fits is taken.
CAUSES: dict[str, list[tuple[str, Fits]]] = {
    "BadByte": [
        ("a byte-order mark", lexical.byte_order_mark),
        ("a text in UTF-16", lexical.utf_16),
        ("an arrow that is misspelt", lexical.misspelt_arrow),
        ("types with arrows", lexical.typed_with_arrows),
        ("an arrow of another language", lexical.foreign_arrow),
        ("a clause of Prolog", lexical.prolog_clause),
        ("a comparison", lexical.comparison),
        ("a bang", lexical.bang),
        ("a negation", lexical.negation),
        ("a comment of another language", lexical.foreign_comment),
        ("a dash in a name", lexical.dashed_name),
        ("a mode", lexical.mode),
        ("another mark for a join", lexical.foreign_join),
        ("a typographic mark", lexical.typographic),
        ("a letter that is not ASCII", lexical.not_ascii),
        ("a text in quotes", lexical.quoted),
        ("a control character", lexical.control),
    ],
    "Unexpected": [
        ("a builtin", syntax.builtin),
        ("a directive of another profile", syntax.foreign_directive),
        ("a `#trace` without its number", syntax.trace_without_number),
        ("a `#trace` without its stage", syntax.trace_without_stage),
        ("a number", syntax.number),
        ("a stage that is a variable", syntax.variable_stage),
        ("a `qui` inside a stage", syntax.qui_in_stage),
        ("a `$` before parentheses", syntax.kept_group),
        ("an implication within a side", syntax.implication),
        ("a clause in a stage", syntax.clause_in_stage),
        ("a missing equals sign", syntax.missing_equals),
        ("a comment of another language", lexical.foreign_comment),
        ("a comparison", lexical.comparison),
        ("arguments with commas", syntax.argument_commas),
        ("several names in one declaration", syntax.several_names),
        ("a mark without an atom after it", syntax.dangling_mark),
        ("an empty side", syntax.empty_side),
        ("a missing brace", syntax.missing_brace),
        ("a parenthesis too many", syntax.spare_parenthesis),
        ("a missing parenthesis", syntax.missing_parenthesis),
        ("a missing arrow", syntax.missing_arrow),
        ("a missing dot", syntax.missing_dot),
        ("a comma between atoms of a rule", syntax.comma_in_rule),
        ("a `$` where nothing is kept", syntax.kept_elsewhere),
        ("a dash in a name", lexical.dashed_name),
        ("a rule without its name", syntax.unnamed_rule),
        ("a name with a capital letter", syntax.capital_name),
        ("a reserved word as a name", syntax.reserved_name),
    ],
    "Unknown": [
        ("a negation", lexical.negation),
        ("several names in one declaration", syntax.several_names),
        ("a dash in a name", lexical.dashed_name),
        ("a small letter where a variable is meant", names.small_variable),
        ("a misspelt name", names.misspelt),
        ("a name that nothing declares", always),
    ],
    "WrongKind": [
        ("several names in one declaration", syntax.several_names),
        ("a type in place of a thing", names.type_for_thing),
    ],
    "WrongArity": [
        ("a missing dot", syntax.missing_dot),
        ("a missing star", names.missing_star),
        ("a missing comma", names.run_on),
        ("a term without parentheses", names.bare_term),
        ("an argument too few", names.too_few),
        ("an argument too many", names.too_many),
    ],
    "VarInContext": [("a capital letter where a thing is meant", names.capital_thing)],
    "LinearInClause": [("a start atom at top level", names.fact_at_top_level)],
    "BadQui": [
        ("a dash in a name", lexical.dashed_name),
        ("a rule outside of a stage", names.loose_rule),
        ("a `qui` rule to nothing", names.qui_to_nothing),
        ("a `qui` rule without both stages", names.qui_without_stages),
    ],
    "TwoTraces": [("several runs in one text", always)],
    "Unbound": [
        ("a blank on a right side", names.blank_on_right),
        ("a capital letter where a thing is meant", names.capital_thing),
    ],
}


def likely_cause(here: Location) -> str:
    """The likely cause at a place by rules of thumb, or nothing."""
    return next((cause for cause, fits in CAUSES.get(here.reason, []) if fits(here)), "")
