"""Formatting, as an edit of the lines that change."""

from __future__ import annotations

from typing import Optional

from ceptre_tools.layout import formatted

from .documents import Document
from .protocol import REQUEST_FAILED, Failure, Json

# The reasons for which a text is left as it is: it has no tokens or no grammar by which it could be laid out.
LEFT = ("TooLong", "BadByte", "NameLong", "Unexpected", "Nested")


def is_left(refusal: Optional[str]) -> bool:
    """Whether a text that is refused so is left as it is."""
    return refusal is not None and refusal.split()[-1] in LEFT


def formatting(document: Document, refusal: Optional[str]) -> list[Json]:
    """The edit that brings a text, which the program refuses so or accepts, into the one layout."""
    if is_left(refusal):
        raise Failure(REQUEST_FAILED, f"the text is left as it is: {refusal}")
    old = document.source
    new = formatted(old)
    first, last = common(old, new)
    if old == new:
        return []
    put = new[first : len(new) - last].encode("latin-1").decode("utf-8", "replace")
    return [{"range": document.lines.range(first, len(old) - last), "newText": put}]


def common(old: str, new: str) -> tuple[int, int]:
    """How many bytes of whole lines are equal at the beginning and at the end."""
    before, after = old.splitlines(keepends=True), new.splitlines(keepends=True)
    most = min(len(before), len(after))
    first = next((n for n in range(most) if before[n] != after[n]), most)
    most -= first
    last = next((n for n in range(most) if before[-1 - n] != after[-1 - n]), most)
    return len("".join(before[:first])), len("".join(before[len(before) - last :]))
