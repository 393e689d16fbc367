"""Every token of every world gets its scope, in the TextMate grammar and, where vim is there, in it;
snippets are accepted, and editors find the place of a refusal."""

import json
import os
import re
import shutil
import subprocess
import tempfile
import unittest

from setting import TOP, WORLDS, read, tool, world_names
from ceptre_tools.program import refusal
from ceptre_tools.tokens import RESERVED, tokens

FOLDER = os.path.join(TOP, "editors", "textmate")
GRAMMAR = os.path.join(FOLDER, "ceptre.tmLanguage.json")
REFUSED = os.path.join(TOP, "tools", "tests", "explain")
SYNTAX = os.path.join(TOP, "editors", "vim", "syntax", "ceptre.vim")

# The scope of each kind of token, and the group in vim.
SCOPES = {
    "reserved": ("keyword.other.reserved", "ceptreReserved"),
    "directive": ("keyword.control.directive", "ceptreDirective"),
    "declared": ("entity.name.function", "ceptreDeclared"),
    "name": ("constant.other.name", "ceptreName"),
    "variable": ("variable.other", "ceptreVariable"),
    "blank": ("variable.language.blank", "ceptreBlank"),
    "number": ("constant.numeric", "ceptreNumber"),
    "arrow": ("keyword.operator.arrow", "ceptreArrow"),
    "operator": ("keyword.operator", "ceptreOperator"),
    "mark": ("punctuation", "ceptreMark"),
    "bad": ("invalid.illegal", "ceptreError"),
    "comment": ("comment.line.percentage", "ceptreComment"),
    "template": ("string.unquoted.template", "ceptreTemplate"),
}

# Tokens that touch one another, and what begins none.
EDGES = "typed stage/one qui' _x X' n1 12a p:pred.a-o b<-c $(D)*e ! ; fact #trace#x #foo % -o {\nbwd: type\n"


def texts():
    """The texts of all worlds, and one more, by name."""
    return {name: read(WORLDS, name + ".cep") for name in world_names()} | {"edges": EDGES}


def wanted(text):
    """The place of each token and comment, with its kind, as editors tell them apart."""
    lines = text.split("\n")
    found = {}
    for token in tokens(text):
        kind = token.kind
        behind = lines[token.line - 1][token.column - 1 + len(token.text) :]
        if kind == "name" and re.match(r"\s*:", behind):
            kind = "declared"
        elif token.text in ("*", "$"):
            kind = "operator"
        elif kind == "directive" and token.text not in ("#trace", "#interactive"):
            kind = "bad"
        found[token.line, token.column] = kind
    for number, line in enumerate(lines, 1):
        if "%" in line:
            found[number, line.index("%") + 1] = "template" if "%:" in line else "comment"
    return found


def textmate(text):
    """The place and the scope of all that the grammar matches."""
    with open(GRAMMAR, encoding="utf-8") as file:
        patterns = [(p["name"], re.compile(p["match"])) for p in json.load(file)["patterns"]]
    found = {}
    for number, line in enumerate(text.split("\n"), 1):
        column = 0
        while column < len(line):
            matches = [(name, pattern.match(line, column)) for name, pattern in patterns]
            name, match = next(((n, m) for n, m in matches if m and m.group()), (None, None))
            if match:
                found[number, column + 1] = name.removesuffix(".ceptre")
            column = match.end() if match else column + 1
    return found


def vim(path, places):
    """The group of each place in vim."""
    with tempfile.TemporaryDirectory() as folder:
        out = os.path.join(folder, "groups")
        script = os.path.join(folder, "script.vim")
        with open(script, "w", encoding="utf-8") as file:
            file.write(f"syntax on\nsource {SYNTAX}\nlet groups = []\n")
            for line, column in places:
                file.write(f"call add(groups, synIDattr(synID({line}, {column}, 1), 'name'))\n")
            file.write(f"call writefile(groups, '{out}')\nquitall!\n")
        command = ["vim", "-N", "-u", "NONE", "-i", "NONE", "-n", "-es", "-S", script, path]
        subprocess.run(command, stdin=subprocess.DEVNULL, timeout=60, check=False)
        return read(out).splitlines()


def has_vim():
    if not shutil.which("vim"):
        return False
    told = subprocess.run(["vim", "--version"], capture_output=True, text=True, check=False)
    return "+syntax" in told.stdout and "+eval" in told.stdout


class Editors(unittest.TestCase):
    def test_textmate(self):
        for name, text in texts().items():
            with self.subTest(world=name):
                scopes = {place: SCOPES[kind][0] for place, kind in wanted(text).items()}
                self.assertEqual(textmate(text), scopes)

    def test_both_know_all_reserved_words(self):
        for path in (GRAMMAR, SYNTAX):
            words = re.search(r"type(?:\\?\|\w+)+", read(path)).group()
            self.assertEqual(sorted(re.split(r"\\?\|", words)), sorted(RESERVED))

    @unittest.skipUnless(has_vim(), "vim with syntax is not installed")
    def test_vim(self):
        for name, text in texts().items():
            with self.subTest(world=name), tempfile.TemporaryDirectory() as folder:
                path = os.path.join(folder, "world.cep")
                with open(path, "w", encoding="utf-8") as file:
                    file.write(text)
                places = wanted(text)
                groups = dict(zip(places, vim(path, places)))
                self.assertEqual(groups, {at: SCOPES[kind][1] for at, kind in places.items()})


def filled(body):
    """A snippet with the words that it proposes."""
    text = body if isinstance(body, str) else "\n".join(body)
    return re.sub(r"\$\{[0-9]:([^}]*)\}|\$[0-9]", lambda match: match[1] or "", text)


class Code(unittest.TestCase):
    """The files for VS Code."""

    def setUp(self):
        with open(os.path.join(FOLDER, "package.json"), encoding="utf-8") as file:
            self.package = json.load(file)["contributes"]

    def test_each_file_that_is_named_is_there(self):
        for kind in ("grammars", "snippets"):
            for entry in self.package[kind]:
                self.assertTrue(os.path.exists(os.path.join(FOLDER, entry["path"])), entry)

    def test_words_are_names(self):
        with open(os.path.join(FOLDER, "language-configuration.json"), encoding="utf-8") as file:
            words = re.compile(json.load(file)["wordPattern"])
        found = words.findall("#trace 30 day { iron/key C', at ann }. p X -o q Y'.")
        self.assertEqual(found, ["#trace", "30", "day", "iron/key", "C'", "at", "ann", "p", "X", "o", "q", "Y'"])

    def test_the_problem_matcher_finds_the_place(self):
        pattern = self.package["problemMatchers"][0]["pattern"]
        told = tool("explain", "number.cep", folder=REFUSED)[1].split("\n")
        found = [match for match in (re.match(pattern["regexp"], line) for line in told) if match]
        self.assertEqual(len(found), 1)
        place = [found[0][pattern[part]] for part in ("file", "line", "column", "message")]
        self.assertEqual(":".join(place[:3]) + ": " + place[3], told[0])
        gcc = re.match(pattern["regexp"], "a b.cep:3:14: error: a missing dot")
        self.assertEqual(gcc.groups(), ("a b.cep", "3", "14", "error", "a missing dot"))

    def test_each_snippet_is_accepted(self):
        with open(os.path.join(FOLDER, "snippets", "ceptre.json"), encoding="utf-8") as file:
            snippets = {entry["prefix"]: filled(entry["body"]) for entry in json.load(file).values()}
        worlds = {"world": snippets.pop("world")}
        own = snippets.pop("#trace"), snippets.pop("#interactive")
        stage = "\n".join(["stage main = {", snippets.pop("rule"), "}", "here thing : pred.", "stage day = {}"])
        worlds["others"] = "\n".join([*snippets.values(), stage, *own]) + "\n"
        for name, text in worlds.items():
            with self.subTest(world=name), tempfile.TemporaryDirectory() as folder:
                path = os.path.join(folder, "world.cep")
                with open(path, "w", encoding="utf-8") as file:
                    file.write(text)
                self.assertIsNone(refusal(path), text)


@unittest.skipUnless(has_vim(), "vim with syntax is not installed")
class Vim(unittest.TestCase):
    def by_script(self, path, *lines):
        """What these lines of a script append to the list `found` in a world that is open."""
        with tempfile.TemporaryDirectory() as folder:
            out, script = os.path.join(folder, "found"), os.path.join(folder, "script.vim")
            with open(script, "w", encoding="utf-8") as file:
                runtime = os.path.join(TOP, "editors", "vim")
                begin = [f"set runtimepath^={runtime} shellpipe=>%s", "filetype plugin on", "syntax on"]
                begin += [f"edit {path}", "let found = []"]
                file.write("\n".join([*begin, *lines, f"call writefile(found, '{out}')", "quitall!"]) + "\n")
            command = ["vim", "-N", "-u", "NONE", "-i", "NONE", "-n", "-es", "-S", script]
            subprocess.run(command, stdin=subprocess.DEVNULL, stdout=subprocess.DEVNULL, timeout=60, check=False)
            return read(out).splitlines()

    def test_comments_and_words(self):
        lines = ("call add(found, &commentstring)", "call search('iron/key')", "call add(found, expand('<cword>'))")
        self.assertEqual(self.by_script("worlds/dungeon.cep", *lines), ["% %s", "iron/key"])

    def test_make(self):
        path = os.path.join(REFUSED, "number.cep")
        told = read(REFUSED, "number.told").split("\n")
        line, column, reason = told[0].split(":")[1:]
        lines = [
            "silent make!",
            "for item in getqflist()",
            "  if item.valid",
            "    call add(found, item.lnum . ':' . item.col . ':' . item.text)",
            "  endif",
            "endfor",
        ]
        found = "\n".join(self.by_script(path, *lines)).replace("\0", "\n")
        self.assertTrue(found.startswith(f"{line}:{column}:{reason.strip()}"), found)
        self.assertIn("likely: a number", found)
        self.assertIn("mend:", found)


if __name__ == "__main__":
    unittest.main()
