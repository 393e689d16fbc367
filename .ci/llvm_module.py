"""A module of LLVM as a text: what its `main` leads to, cut into parts that compilers take side by side."""

from __future__ import annotations

import re
from collections.abc import Iterable, Iterator
from dataclasses import dataclass
from functools import cached_property

NAME = re.compile(r'@("[^"]*"|[\w.$-]+)')
DEFINE = re.compile(r"define (?:internal |hidden )?")

# A function of at most so many lines stands in each part that calls it too, where it may take the place of the call.
SHORT = 150


@dataclass(frozen=True)
class Function:
    """A function of a module."""

    name: str
    text: str

    @cached_property
    def named(self) -> frozenset[str]:
        """The names that stand in it, its own among them."""
        return frozenset(NAME.findall(self.text))

    @cached_property
    def lines(self) -> int:
        return self.text.count("\n")

    def defined(self, linkage: str) -> str:
        return DEFINE.sub(f"define {linkage} ", self.text, count=1)

    def declared(self) -> str:
        head = self.text[: self.text.index("\n")].rstrip("{ ")
        return DEFINE.sub("declare hidden ", head, count=1) + "\n"


@dataclass(frozen=True)
class Module:
    """What stands outside of all functions (constants, declarations, attributes), and the functions in written order."""

    common: str
    functions: dict[str, Function]

    @classmethod
    def of(cls, text: str) -> Module:
        head, *pieces = re.split(r"^(?=define )", text, flags=re.MULTILINE)
        common, functions = [head], {}
        for piece in pieces:
            end = piece.index("\n}\n") + 3
            name = NAME.findall(piece[: piece.index("\n")])[0]
            functions[name] = Function(name, piece[:end])
            common.append(piece[end:])
        return cls("".join(common), functions)

    def called(self, names: Iterable[str]) -> Iterator[str]:
        return (name for name in names if name in self.functions)

    def needed(self) -> Module:
        """The module without the functions that `main` does not lead to."""
        found, left = set(), ["main"]
        while left:
            name = left.pop()
            if name not in found:
                found.add(name)
                left.extend(self.called(self.functions[name].named))
        return Module(self.common, {name: it for name, it in self.functions.items() if name in found})

    def text(self) -> str:
        return self.common + "".join(it.text for it in self.functions.values())

    def parts(self, many: int) -> list[str]:
        """Modules that make the same program when they are linked: each has its share of the functions, which follow one another."""
        each = sum(it.lines for it in self.functions.values()) / many + 1
        shares: list[list[Function]] = [[] for _ in range(many)]
        lines = 0
        for it in self.functions.values():
            shares[int(lines / each)].append(it)
            lines += it.lines
        return [self.part(share) for share in shares]

    def part(self, own: list[Function]) -> str:
        """A module with these functions, copies of the short ones that they call, and declarations of the others."""
        texts = [self.common, *(it.defined("dso_local" if it.name == "main" else "hidden") for it in own)]
        found = {it.name for it in own}
        left = [name for it in own for name in self.called(it.named)]
        while left:
            it = self.functions[left.pop()]
            if it.name in found:
                continue
            found.add(it.name)
            if it.lines <= SHORT:
                texts.append(it.defined("available_externally hidden"))
                left.extend(self.called(it.named))
            else:
                texts.append(it.declared())
        return "".join(texts)
