"""Wrong versions of the reference, each by one change in one line: which of them do drawn cases tell from the right
one?"""
import argparse
import ast
import copy
import os
import pickle
import random
import shutil
import subprocess
import sys
import tempfile
from typing import Any, Dict, Iterator, List, Optional, Tuple

from reference.command import Answer, deep
from reference.compare import of_reference
from reference.draw import Drawn, drawn

MODULES = "grammar names program terms derive steps texts play transcript check claims dead command".split()
TURNED: Dict[type, Any] = {
    ast.Lt: ast.LtE, ast.LtE: ast.Lt, ast.Gt: ast.GtE, ast.GtE: ast.Gt, ast.Eq: ast.NotEq, ast.NotEq: ast.Eq,
    ast.In: ast.NotIn, ast.NotIn: ast.In, ast.Is: ast.IsNot, ast.IsNot: ast.Is, ast.And: ast.Or, ast.Or: ast.And,
    ast.Add: ast.Sub, ast.Sub: ast.Add, ast.BitAnd: ast.BitOr, ast.BitOr: ast.BitAnd}
ORDERS = {"min": "max", "max": "min", "any": "all", "all": "any", "sorted": "list"}


def wrong(node: ast.AST) -> Iterator[ast.AST]:
    """The wrong versions of a part of the text: a comparison or an order turned, or a number that is off by one."""
    part = copy.deepcopy(node)
    if isinstance(part, ast.Compare) and len(part.ops) == 1:
        part.ops = [TURNED[type(part.ops[0])]()]
        yield part
    elif isinstance(part, (ast.BoolOp, ast.BinOp)) and type(part.op) in TURNED:
        part.op = TURNED[type(part.op)]()
        yield part
    elif isinstance(part, ast.Constant) and type(part.value) is int:
        part.value += 1
        yield part
    elif isinstance(part, ast.Call) and isinstance(part.func, ast.Name) and part.func.id in ORDERS:
        part.func.id = ORDERS[part.func.id]
        yield part
    elif isinstance(part, ast.UnaryOp) and isinstance(part.op, ast.Not):
        yield part.operand


class Turn(ast.NodeTransformer):
    """Puts a wrong part in the place of the one of this number, in the order of the walk, and says in which line it
    was."""

    def __init__(self, number: int) -> None:
        self.number, self.line = number, 0

    def visit(self, node: ast.AST) -> ast.AST:
        """The part, or a wrong version of it. What bounds the work, or reads files, is not the language."""
        if isinstance(node, ast.FunctionDef) and node.name in ("main", "deep", "spend") or (
                isinstance(node, ast.Call) and isinstance(node.func, ast.Attribute) and node.func.attr == "spend"):
            return node
        for part in wrong(node):
            self.number -= 1
            if self.number == -1:
                self.line = getattr(node, "lineno", 0)
                return part
        return self.generic_visit(node)


def count_of(tree: ast.AST) -> int:
    """How many wrong versions there are of a text."""
    turn = Turn(10 ** 9)
    turn.visit(copy.deepcopy(tree))
    return 10 ** 9 - turn.number


def versions(folder: str, seed: int, count: int) -> List[Tuple[str, int, str, str]]:
    """So many wrong versions: the module, the line, how it reads, and the whole text."""
    trees = {}
    for module in MODULES:
        with open(os.path.join(folder, module + ".py"), encoding="utf-8") as file:
            trees[module] = ast.parse(file.read())
    places = [(module, number) for module in MODULES for number in range(count_of(trees[module]))]
    found = []
    for module, number in random.Random(seed).sample(places, min(count, len(places))):
        turn = Turn(number)
        text = ast.unparse(turn.visit(copy.deepcopy(trees[module])))
        old = ast.unparse(trees[module]).split("\n")
        changed = [new for new, before in zip(text.split("\n"), old) if new != before]
        found.append((module, turn.line, changed[0].strip() if changed else "", text))
    return found


def is_told(folder: str, module: str, text: str, expected: str) -> bool:
    """Whether a wrong version answers one of the cases otherwise, or fails, or takes far longer."""
    with tempfile.TemporaryDirectory() as place:
        shutil.copytree(folder, os.path.join(place, "reference"), ignore=shutil.ignore_patterns("__pycache__"))
        with open(os.path.join(place, "reference", module + ".py"), "w", encoding="utf-8") as file:
            file.write(text)
        try:
            ran = subprocess.run([sys.executable, "-m", "reference.mutate", "--expected", expected], cwd=place,
                                 timeout=300, stdout=subprocess.DEVNULL, stderr=subprocess.DEVNULL, check=False)
        except subprocess.TimeoutExpired:
            return True
    return ran.returncode != 0


def answers_as(expected: str) -> int:
    """Status 0 if each of the cases is answered as expected."""
    with open(expected, "rb") as file:
        cases: List[Tuple[Drawn, Optional[Answer]]] = pickle.load(file)
    for case, answer in cases:
        if of_reference(case) != answer:
            return 1
    return 0


def main() -> int:
    """mutate [--count N] [--cases N] [--seed S]"""
    parser = argparse.ArgumentParser(prog="mutate", description=__doc__)
    parser.add_argument("--count", type=int, default=200, help="how many wrong versions")
    parser.add_argument("--cases", type=int, default=2_000, help="how many cases")
    parser.add_argument("--seed", type=int, default=1, help="the seed of the versions and of the first case")
    parser.add_argument("--expected", help=argparse.SUPPRESS)
    said = parser.parse_args()
    if said.expected:
        return answers_as(said.expected)
    folder = os.path.dirname(os.path.abspath(__file__))
    told = 0
    with tempfile.NamedTemporaryFile() as expected:
        cases = [drawn(said.seed + number) for number in range(said.cases)]
        cases = [case for case in cases if len("".join(case.files.values())) + len(case.typed) < 100_000]
        pickle.dump([(case, of_reference(case)) for case in cases], expected)
        expected.flush()
        for module, line, text, whole in versions(folder, said.seed, said.count):
            different = is_told(folder, module, whole, expected.name)
            told += different
            if not different:
                print(f"not told: {module}.py:{line}: {text}", flush=True)
    print(f"mutate: {told} of {said.count} wrong versions are told by {len(cases)} cases")
    return 0


if __name__ == "__main__":
    sys.exit(deep(main))
