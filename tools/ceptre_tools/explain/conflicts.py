"""The other places that a refusal speaks of: where a variable has another type, and the clause that
leaves a variable of its head unknown."""

from collections.abc import Iterable
from typing import Optional

from ceptre_tools.explain.expected import type_at, variable_types
from ceptre_tools.explain.location import Location
from ceptre_tools.explain.repairs import Judge
from ceptre_tools.items import Clause, Item
from ceptre_tools.text import article, joined, shown
from ceptre_tools.tokens import Token
from ceptre_tools.world import World

# How many clauses are looked at, since the program is asked about each.
MOST_CLAUSES = 60


def source(token: Token) -> str:
    """A token with its line and column."""
    return f"`{token.text}` at {token.line}:{token.column}"


def type_places(here: Location) -> list[str]:
    """Lines that say of a clash of types what is expected where."""
    head = here.head()
    expected = type_at(here, head) if head else ""
    if not head or not expected:
        return []
    lines = [f"here {article(expected)} is wanted, by {source(head)}"]
    if here.kind() != "variable":
        declared = here.of_kind(here.word(), "constructor")
        if declared:
            lines.append(f"`{here.word()}` is {article(declared.result)}, by line {declared.token.line}")
        return lines
    earlier = ((t, kind) for t, kind in variable_types(here, here.word()) if t.start < here.start)
    others = [f"{source(token)} is {article(kind)}" for token, kind in earlier if kind not in ("", expected)]
    return lines + others[:1]


def without(text: str, items: Iterable[Item]) -> str:
    """A text with blanks in place of items."""
    for item in items:
        lines = text[item.start : item.end].split("\n")
        text = text[: item.start] + "\n".join(" " * len(line) for line in lines) + text[item.end :]
    return text


def clauses_asked(here: Location) -> list[Clause]:
    """The clauses by which the predicate at the place is asked, its own ones first."""
    names, found = [here.word()], []
    clauses = World(here.text).clauses
    for name in names:
        for clause in clauses:
            if clause.head.name == name and clause not in found:
                found.append(clause)
                names += [goal.name for goal in clause.goals if goal.name not in names]
    return found[:MOST_CLAUSES]


def clause_to_blame(here: Location, refusal_of: Judge) -> Optional[Clause]:
    """The clause for which a backward premise is refused, or None.

    The program is asked: without that clause it does not refuse the premise, or else that clause is
    enough for it to refuse it.
    """
    clauses = clauses_asked(here)
    place = f"{here.line}:{here.column}"

    def refused_without(others: Iterable[Clause]) -> bool:
        line = refusal_of(without(here.text, others))
        return line is not None and line.split()[1] == place

    for clause in clauses:
        if not refused_without([clause]):
            return clause
    for clause in clauses:
        if refused_without(other for other in clauses if other is not clause):
            return clause
    return None


def blamed(here: Location, refusal_of: Judge) -> list[str]:
    """Lines that show the clause to blame, and the variables of its head that it may leave unknown."""
    clause = clause_to_blame(here, refusal_of)
    if clause is None:
        return []
    given = {term.name for goal in clause.goals for term in goal.parts()}
    variables = [term for term in clause.head.parts() if term.is_variable and term.name not in given]
    loose = list(dict.fromkeys(term.token.text for term in variables))
    line = f"line {clause.line}: {shown(World(here.text).text_of(clause))}"
    return [line + (f" does not say which {joined(loose)}" if loose else "")]


def unknown_variables(here: Location) -> list[str]:
    """The variables of the premise at the place that no other atom of its side says first."""
    own = [token.text for token in here.atom() if token.kind == "variable"]
    if here.reason == "Unbound":
        return own[:1] if here.kind() == "variable" else []
    left = here.item()[: here.words().index("-o")] if "-o" in here.words() else []
    atoms = [here.moved(token) for token in left if here.of_kind(token.text, "predicate")]
    others = [atom for atom in atoms if atom.start < here.start or not here.is_backward(atom.word())]
    known = {token.text for atom in others if atom.start != here.start for token in atom.atom()}
    return [name for name in dict.fromkeys(own) if name not in known]
