"""The index of a site: a list of its worlds."""

from __future__ import annotations

import html
import os
from typing import NamedTuple
from urllib.parse import quote

from ceptre_tools.publish.about import first_paragraph, length_of
from ceptre_tools.publish.page import filled, part, sum_of
from ceptre_tools.world import World

POLICY = "default-src 'none'; style-src {style}; img-src data:; base-uri 'none'; form-action 'none'"


class Entry(NamedTuple):
    """A world of the list: the file of its page, its title, what it is, how long and for how many."""

    page: str
    title: str
    says: str
    length: str

    @classmethod
    def of(cls, page: str, title: str, path: str, text: str) -> Entry:
        return cls(page, title, first_paragraph(text), length_of(path, World(text)))

    @property
    def line(self) -> str:
        link = f'<h2><a href="{quote(self.page)}">{html.escape(self.title)}</a></h2>'
        return f'<li>{link}<p>{html.escape(self.says)}</p><p class="length">{html.escape(self.length)}</p></li>'


def worlds_of(folder: str) -> list[str]:
    """The paths of a folder's worlds."""
    return sorted(os.path.join(folder, name) for name in os.listdir(folder) if name.endswith(".cep"))


def index(title: str, entries: list[Entry]) -> str:
    """The page that lists them."""
    style = part("page.css")
    values = {
        "TITLE": html.escape(title),
        "POLICY": POLICY.format(style=sum_of(style)),
        "STYLE": style,
        "WORLDS": "\n".join(entry.line for entry in entries),
    }
    return filled(part("index.html"), values)
