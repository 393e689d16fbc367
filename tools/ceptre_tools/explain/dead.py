"""The rules of a world that can never apply, as the program's command `dead` lists them, in words."""

from collections.abc import Iterator

from ceptre_tools.items import Rule
from ceptre_tools.program import DONE, Answer
from ceptre_tools.world import World


def dead_rules(text: str, answer: Answer) -> Iterator[tuple[Rule, str]]:
    """The rules of a text that an answer of `dead` lists, each with why."""
    lines = [line.split() for line in answer.lines if answer.status == DONE]
    named = [words for words in lines if len(words) == 4]
    rules = World(text).rules if named else {}
    for _, name, kind, what in named:
        if name in rules:
            yield rules[name], why_dead(rules[name], kind, what)


def why_dead(rule: Rule, kind: str, what: str) -> str:
    """Why a rule can never apply, by what the program names."""
    if kind == "stage":
        return f"the stage `{what}` is never reached"
    if kind == "var":
        return f"no value of `{what}` fits all places where it stands"
    premises = [premise for premise in rule.premises if rule.role(premise) != "asked"]
    premises += [premise for premise in rule.premises if rule.role(premise) == "asked"]
    number = int(what)
    said = premises[number - 1].term.bare({}) if number <= len(premises) else what
    return f"nothing ever makes its premise `{said}` hold"
