"""What names of a world are, in words for people: what hovers, completions and symbols show."""

from __future__ import annotations

import re
from typing import Optional

from ceptre_tools.items import Bag, Clause, Declared, Item, Rule, Stage, Term
from ceptre_tools.tokens import Token, in_one_line
from ceptre_tools.world import Use, World

# How many names of a list are shown, and how much of a text.
MOST, WIDTH = 12, 200

# What the words and marks of the language say.
WORDS = {
    "type": "declares a type: `room : type.`",
    "pred": "declares a predicate of states: rules take its atoms, or keep them by `$`, and put them",
    "fact": "declares a predicate whose atoms stay for ever once they are put, and are there once",
    "bwd": "declares a backward predicate: it is in no state, and clauses say when it holds",
    "stage": "a stage holds rules; outer rules lead from one to another",
    "context": "a named list of atoms",
    "qui": "holds when no rule of the stage applies",
    "#interactive": "in this stage the player chooses",
    "#trace": "what is played: at most so many turns (`_` for 10,000), the stage, and the atoms at the start",
    "$": "the atom is needed and kept",
    "-o": "takes what stands before it, and puts what stands after it",
    "<-": "the head before it holds if all goals after it do",
}


def article(word: str) -> str:
    """A word with the article before it."""
    return f"an {word}" if word[:1] in "aeiou" else f"a {word}"


def code(text: str) -> str:
    """A text as code within a sentence."""
    return f"`{text}`"


def listed(words: list[str]) -> str:
    """Words as code, in a row."""
    more = f" and {len(words) - MOST} more" if len(words) > MOST else ""
    return ", ".join(map(code, words[:MOST])) + more


def distinct(words: list[str]) -> list[str]:
    """The same words, each once."""
    return list(dict.fromkeys(words))


def shortened(text: str) -> str:
    """The beginning of a long text."""
    return text if len(text) <= WIDTH else text[: WIDTH - 3] + " .."


def decoded(text: str) -> str:
    """Bytes of a text as people read them."""
    return text.encode("latin-1").decode("utf-8", "replace")


def head_of(item: Item, world: World) -> str:
    """The declaration that stands for an item: of a block its beginning."""
    if isinstance(item, Stage):
        return f"stage {item.name} = {{ .. }}"
    if isinstance(item, (Declared, Rule, Clause)):
        return shortened(in_one_line(world.text[item.start : item.end]))
    return shortened(world.text_of(item))


def comment_above(item: Item, world: World) -> str:
    """The comment in the lines directly above an item, or nothing; templates of prose are none."""
    lines: list[str] = []
    above = {comment.line: comment for comment in world.comments_before(item)}
    number = item.line - 1
    while number in above:
        lines.insert(0, above[number].text[1:].strip())
        number -= 1
    return decoded(" ".join(line for line in lines if not line.startswith(":")))


def roles(uses: list[Use], *wanted: str) -> list[str]:
    """The names of the rules and clauses in which a name is used in one of these ways."""
    found = [use.item for use in uses if use.role in wanted]
    return distinct([item.name or f"line {item.line}" for item in found if item.kind in ("rule", "clause")])


def of_predicate(item: Item, uses: list[Use]) -> list[str]:
    """What a predicate is, and what is done with it."""
    told = []
    for words, wanted in (
        ("Put by", ("made",)),
        ("Taken by", ("taken",)),
        ("Kept by", ("kept",)),
        ("Asked by", ("asked",)),
        ("Goal of", ("goal",)),
        ("Said by", ("head",)),
    ):
        found = roles(uses, *wanted)
        told += [f"{words} {listed(found)}."] if found else []
    if any(use.role == "start" for use in uses):
        told.append("There at the start.")
    return told or ["Used nowhere."]


def of_type(name: str, world: World) -> list[str]:
    """What a type has."""
    things = [item for item in world.of_space("constructor").values() if isinstance(item, Declared)]
    found = [item.name for item in things if item.result.text == name]
    users = [item for item in world.of_space("predicate").values() if isinstance(item, Declared)]
    places = [item.name for item in users if name in item.types]
    told = [f"Its things: {listed(found)}." if found else "It has no things."]
    return told + ([f"Wanted by {listed(places)}."] if places else [])


def of_stage(item: Stage, world: World) -> list[str]:
    """What a stage has, and how it is entered and left."""
    rules = [rule for rule in world.rules.values() if not rule.stage]
    chooser = "The player chooses" if item.name in world.interactive else "The seed chooses"
    told = [f"{chooser} among its rules: {listed([rule.name for rule in item.rules]) or 'it has none'}."]
    entered = [rule.name for rule in rules if rule.next_stage == item.name]
    left = [rule.name for rule in rules if rule.from_stage == item.name]
    told += [f"Entered by {listed(entered)}."] if entered else []
    told += [f"Left by {listed(left)}."] if left else []
    if world.trace and world.trace.stage and world.trace.stage.text == item.name:
        told.append("The world begins here.")
    return told


def texts(terms: list[Term]) -> str:
    """Atoms in a row."""
    return ", ".join(code(term.bare({})) for term in terms)


def of_rule(rule: Rule, world: World, dead: Optional[dict[str, str]]) -> list[str]:
    """What a rule does, in words, and whether it can ever apply."""
    sides = (("Takes", rule.taken), ("Needs and keeps", rule.kept), ("Asks", rule.asked), ("Puts", rule.put))
    told = [f"{words} {texts(atoms)}." for words, atoms in sides if atoms]
    if rule.has_qui:
        told.insert(0, f"When nothing applies in {code(rule.from_stage)}, leads to {code(rule.next_stage)}.")
    if dead is not None:
        why = dead.get(rule.name)
        told.append(f"**It can never apply**: {why}." if why else "It is not among the rules that can never apply.")
    template = template_of(rule, world)
    return told + ([f"Prose: {template}"] if template else [])


def template_of(rule: Rule, world: World) -> str:
    """The template of prose of a rule."""
    form = re.compile(rf"%:\s*(?:rule\s+)?{re.escape(rule.name)}\s+(\".*)")
    found = (form.match(comment.text) for comment in world.comments)
    return next((decoded(match[1].strip()) for match in found if match), "")


def of_variable(use: Use, world: World) -> list[str]:
    """The type of a variable or a blank."""
    kind = world.variables(use.item).get(use.name, "")
    name = "_" if use.token.kind == "blank" else use.name
    return [f"```ceptre\n{name} : {kind or '?'}\n```", "A variable." if kind else "A variable of no known type."]


def described(use: Use, world: World, dead: Optional[dict[str, str]]) -> list[str]:
    """What a name is: its declaration, the comment above it, and what is done with it."""
    if use.space == "variable":
        return of_variable(use, world)
    item = world.find(use.space, use.name)
    if item is None:
        return [f"No {use.space} of this name is declared."]
    told = [f"```ceptre\n{decoded(head_of(item, world))}\n```"]
    comment = comment_above(item, world)
    told += [comment] if comment else []
    uses = world.by_name.get((use.space, use.name), [])
    if use.space == "predicate":
        return told + of_predicate(item, uses)
    if use.space == "type":
        return told + of_type(use.name, world)
    if isinstance(item, Stage):
        return told + of_stage(item, world)
    if isinstance(item, Rule):
        return told + of_rule(item, world, dead)
    if use.space == "constructor":
        kind = item.result.text if isinstance(item, Declared) else ""
        return told + [f"{article(kind).capitalize()}; named in {len(uses) - 1} other places."]
    return told + ([f"{len(item.atoms)} atoms."] if isinstance(item, Bag) else [])


def hover(use: Optional[Use], token: Optional[Token], world: World, dead: Optional[dict[str, str]]) -> str:
    """What is shown over a place, or nothing."""
    if use:
        return "\n\n".join(described(use, world, dead))
    said = WORDS.get(token.text, "") if token else ""
    return f"{code(token.text)} {said}." if token and said else ""
