"""Diagnostics and code actions: findings as the protocol has them."""

from __future__ import annotations

import os
from typing import Any, Optional

from ceptre_tools.program import TOP

from .describing import decoded
from .documents import Document, uri_of
from .findings import ERROR, UNNECESSARY, Edit, Finding, Findings, Fix
from .protocol import Json

QUICK_FIX, FIX_ALL = "quickfix", "source.fixAll.ceptre"

# Where reasons of refusals, and what is reported of transcripts, are written.
REASONS = "docs/LANGUAGE.md#what-is-refused"
OF_TRANSCRIPTS = "docs/FORMATS.md#what-is-reported-of-a-transcript"


def page(document: Document) -> str:
    """The address of the page that has the reasons."""
    path, _, part = (OF_TRANSCRIPTS if document.is_log else REASONS).partition("#")
    return f"{uri_of(os.path.join(TOP, path))}#{part}"


def diagnostic(document: Document, finding: Finding) -> Json:
    """A finding in the document's present text."""
    found: Json = {
        "range": document.lines.range(finding.start, finding.end),
        "severity": finding.severity,
        "code": finding.code,
        "source": "ceptre",
        "message": decoded(finding.message),
    }
    if finding.severity == ERROR:
        found["codeDescription"] = {"href": page(document)}
    if finding.is_faded:
        found["tags"] = [UNNECESSARY]
    return found


def diagnostics(document: Document, findings: Findings) -> list[Json]:
    """All findings of a document, which are of its present text."""
    return [diagnostic(document, finding) for finding in findings.found]


def text_edit(document: Document, edit: Edit) -> Json:
    """An edit of the document's present text."""
    return {"range": document.lines.range(edit.start, edit.end), "newText": decoded(edit.put)}


def action(document: Document, fix: Fix, kind: str, solves: list[Json]) -> Json:
    """A code action."""
    changes = {document.uri: [text_edit(document, edit) for edit in fix.edits]}
    found: Json = {"title": decoded(fix.title), "kind": kind, "edit": {"changes": changes}, "diagnostics": solves}
    if fix.is_preferred:
        found["isPreferred"] = True
    return found


def is_wanted(kind: str, only: Optional[list[str]]) -> bool:
    """Whether a client asks for actions of a kind."""
    return not only or any(kind == wanted or kind.startswith(wanted + ".") for wanted in only)


def code_actions(document: Document, findings: Findings, params: Json) -> list[Json]:
    """The actions for a range: the mends of what is found there, and the one of all."""
    first, last = (document.lines.offset(params["range"][edge]) for edge in ("start", "end"))
    only: Any = params.get("context", {}).get("only")
    found = []
    for finding in findings.found if is_wanted(QUICK_FIX, only) else ():
        if finding.start <= last and first <= finding.end:
            solves = [diagnostic(document, finding)]
            found += [action(document, fix, QUICK_FIX, solves) for fix in finding.fixes]
    if findings.fix_all:
        kinds = [kind for kind in (QUICK_FIX, FIX_ALL) if is_wanted(kind, only)]
        found += [action(document, findings.fix_all, kind, []) for kind in kinds[-1:]]
    return found
