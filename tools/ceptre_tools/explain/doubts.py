"""Hints on what rules do together: atoms that one rule loses, facts that are met by one, stages that never
grow quiet, and premises that have nothing in common."""

from collections import Counter
from collections.abc import Iterator
from typing import NamedTuple

from ceptre_tools.items import Item, Rule, Term
from ceptre_tools.tokens import Token
from ceptre_tools.world import World

# So many atoms of each of so many premises that have nothing in common are many partial matches.
MANY_ATOMS, MANY_PREMISES = 16, 3


class Doubt(NamedTuple):
    """A place, a name, and what is said of it."""

    token: Token
    name: str
    said: str


def balance(rule: Rule) -> "Counter[str]":
    """By how many atoms of each predicate a rule makes a state larger; those that it moves are 0."""
    found = Counter(term.name for term in rule.put)
    found.subtract(term.name for term in rule.taken)
    return found


def lost(world: World) -> Iterator[Doubt]:
    """Rules that take what each other rule leaves as it was, and show no end of the game by it."""
    rules = list(world.rules.values())
    needed = {term.name for rule in rules for term in (*rule.taken, *rule.kept)}
    balances = [balance(rule) for rule in rules]
    for rule, own in zip(rules, balances):
        if rule.has_qui or not rule.put or not all(term.name in needed for term in rule.put):
            continue
        for term in rule.taken:
            name = term.name
            kept = [other for other in rules if other is not rule and name in uses(other)]
            others = [found[name] for other, found in zip(rules, balances) if other is not rule]
            puts = any(atom.name == name for atom in rule.put)
            if own[name] == -1 and not puts and len(kept) > 1 and not any(others):
                said = f"`{rule.name}` takes `{name}` and puts none; every other rule leaves as many as there were"
                yield Doubt(term.token, "lost", said)


def uses(rule: Rule) -> set[str]:
    """The predicates of which a rule needs atoms."""
    return {term.name for term in (*rule.taken, *rule.kept)}


def met_by_one(world: World) -> Iterator[Doubt]:
    """Two premises of one fact that differ in variables alone, of which nothing else is asked."""
    for rule in world.rules.values():
        premises = [premise.term for premise in rule.premises]
        counts = Counter(variable for term in premises for variable in variables_of(term))
        facts = [term for term in premises if world.predicates[term.name].word == "fact"]
        for number, term in enumerate(facts):
            for other in facts[:number]:
                if other.name == term.name and differ_freely(term, other, counts):
                    said = f"one `{term.name}` meets this premise and the one before it: a fact is never used up"
                    yield Doubt(term.token, "met-by-one", said)
                    break


def variables_of(term: Term) -> set[str]:
    """The variables of a term."""
    return {part.name for part in term.parts() if part.is_variable}


def differ_freely(one: Term, other: Term, counts: "Counter[str]") -> bool:
    """Whether two atoms differ, and only in variables that no further premise has."""
    pairs = [(a, b) for a, b in zip(one.arguments, other.arguments) if a != b]
    free = all(a.is_variable and b.is_variable and counts[a.name] == counts[b.name] == 1 for a, b in pairs)
    return bool(pairs) and free


def never_quiet(world: World) -> Iterator[Doubt]:
    """Stages of which each rule leaves what it needs, though a rule waits until none applies."""
    for name, stage in world.stages.items():
        leaving = [rule.name for rule in world.rules.values() if rule.from_stage == name]
        if leaving and stage.rules and stage.label and all(map(leaves_what_it_needs, stage.rules)):
            said = f"each rule of `{name}` leaves what it needs, so it may never grow quiet for `{leaving[0]}`"
            yield Doubt(stage.label, "never-quiet", said)


def leaves_what_it_needs(rule: Rule) -> bool:
    """Whether a rule puts an atom like each that it takes, as far as constructors go."""
    return not rule.asked and all(any(is_like(taken, put) for put in rule.put) for taken in rule.taken)


def is_like(one: Term, other: Term) -> bool:
    """Whether two atoms differ at most in variables that are whole arguments."""
    pairs = zip(one.arguments, other.arguments)
    return one.name == other.name and all(a == b or (a.is_variable and b.is_variable) for a, b in pairs)


def apart(world: World) -> Iterator[Doubt]:
    """Rules with premises that share no variable, of which the start has many each."""
    parts: list[Item] = [item for item in world.parts() if item.kind in ("context", "trace")]
    start = Counter(atom.name for item in parts for role, atom in world.atoms(item) if role == "start")
    for rule in world.rules.values():
        many = [term for term in (*rule.taken, *rule.kept) if start[term.name] > MANY_ATOMS]
        separate: list[Term] = []
        for term in many:
            if not any(variables_of(term) & variables_of(other) for other in many if other is not term):
                separate.append(term)
        if len(separate) >= MANY_PREMISES and all(map(variables_of, separate)):
            product = 1
            for term in separate:
                product *= start[term.name]
            said = f"`{rule.name}` has premises that share no variable: {product} matches are kept from the start on"
            yield Doubt(separate[-1].token, "apart", said)


def doubts(world: World) -> Iterator[Doubt]:
    """All of these."""
    for kind in (lost, met_by_one, never_quiet, apart):
        yield from kind(world)
