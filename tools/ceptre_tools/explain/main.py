"""The script `explain`."""

from argparse import Namespace

from ceptre_tools.explain import report
from ceptre_tools.explain.dead import dead_rules
from ceptre_tools.explain.hints import goals, hints
from ceptre_tools.explain.refusal import Refusal, refusals
from ceptre_tools.program import MOST_LOG, MOST_WORLD, opened, refusal, run
from ceptre_tools.terminal import script
from ceptre_tools.text import printable

ACCEPTED, EXPLAINED = 0, 1

TRANSCRIPT = "{}: this looks like a transcript: the world comes first, `explain WORLD LOG`"


def explained_world(words: Namespace, path: str, text: str, line: str) -> list[str]:
    """The lines about a world that is refused."""
    found = refusals(text, line) if words.all else [Refusal.of(text, line)]
    if words.format == "gcc":
        return [report.gcc(each, path) for each in found]
    said = [TRANSCRIPT.format(path)] if text.startswith("ceptre ") else []
    said += report.lines(found[0], path)
    for each in found[1:]:
        said += ["", "and after that, perhaps:", *report.lines(each, path)]
    return said


def hinted(words: Namespace, path: str, text: str, world: str) -> list[str]:
    """The lines about a world that is accepted."""
    word = " warning:" if words.format == "gcc" else " hint:"
    said = [f"{path}:{hint.line}:{hint.column}:{word} {hint.said}" for hint in hints(text)]
    for rule, why in dead_rules(text, run("dead", world)):
        token = rule.label or rule.source[rule.first]
        said.append(f"{path}:{token.line}:{token.column}:{word} `{rule.name}` can never apply: {why}")
    if words.hints or words.format == "gcc":
        return said
    made = ", ".join(goals(text))
    return [f"{path}: accepted", *said, *([f"goals:  {made} (made by rules, needed by none)"] if made else [])]


def explained_log(words: Namespace, world: str) -> tuple[bool, list[str]]:
    """Whether a transcript is accepted or all claims are kept, and the lines about it."""
    from ceptre_tools.explain import claims, transcripts  # Most calls need neither.

    with opened(words.log, MOST_LOG) as (text, path):
        if claims.are_claims(text):
            return claims.judged(world, path, text, words.log)
        verdict = transcripts.Verdict.of(world, words.log, text)
    return verdict.accepted, [verdict.gcc()] if words.format == "gcc" else verdict.lines()


def explain(words: Namespace) -> int:
    path = printable(words.world)
    with opened(words.world, MOST_WORLD) as (text, readable):
        line = refusal(readable)
        if line:
            accepted, said = False, explained_world(words, path, text, line)
        elif words.log:
            accepted, said = explained_log(words, readable)
        else:
            said = hinted(words, path, text, readable)
            accepted = not (words.hints and said)
    if said:
        print("\n".join(said))
    return ACCEPTED if accepted else EXPLAINED


def main() -> int:
    return script("explain", explain)
