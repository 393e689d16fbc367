"""The scripts of pages: their texts are those of the player, over all transcripts, and their types fit."""

from __future__ import annotations

import json
import os
import re
import shutil
import subprocess
import unittest
from typing import Any

import setting
from ceptre_tools.play.prose import Prose
from ceptre_tools.publish.page import templates
from ceptre_tools.transcript import Transcript
from ceptre_tools.world import World

NODE = shutil.which("nodejs") or shutil.which("node")
OWN = ("prose.js", "walk.js", "page.js")

# Answers for each transcript what prose.js makes of it.
ASKED = """
const fs = require("fs"), vm = require("vm");
vm.runInThisContext(fs.readFileSync(process.argv[1], "utf8"));
globalThis.asked = JSON.parse(fs.readFileSync(0, "utf8"));
console.log(JSON.stringify(vm.runInThisContext(`asked.map(({ templates, questions, steps, atoms, log }) => {
  const prose = new Prose(templates);
  return { offers: questions.map((offers) => prose.offers(offers)), told: steps.map((step) => prose.told(step)),
    atoms: atoms.map((atom) => prose.atom(atom, 1)), many: atoms.map((atom) => prose.atom(atom, 3)),
    run: readRun(log) };
})`)));
"""

# Offers that read the same, terms within terms, names that each object of JavaScript has, and texts that are silent.
WORLD = """\
t : type. z : t. s t : t. constructor : t. toString t t : t.
at t : pred. valueOf t : pred. dark : pred.
stage main = {
  go : at X * at Y * dark -o valueOf X.
  hasOwnProperty : at X * dark -o at (s X).
  quiet/one : dark -o ().
}
#interactive main.
#trace _ main { at z, at z, at (s (s z)), at constructor, at (toString (s z) constructor), dark, dark }.
%: go "You go, {#X} and {Y} \\\\ \\"so\\"." "Go"
%: s "one more than {1}"
%: toString "{2} in {1}"
%: quiet/one "" "Be still"
%: dark ""
%: valueOf "{1}{2}"
"""


def offers_of(log: str) -> list[list[str]]:
    """The offers of each question of a transcript."""
    found: list[list[str]] = []
    for number, offer in re.findall(r"^\? ([0-9]+) (.*)$", log, re.MULTILINE):
        if number == "1":
            found.append([])
        found[-1].append(offer)
    return found


def asked_of(text: str, log: str) -> dict[str, Any]:
    prose = Prose.of(text, World(text))
    return {
        "templates": templates(prose),
        "questions": offers_of(log),
        "steps": re.findall("^step (.*)$", log, re.MULTILINE),
        "atoms": re.findall("^have [0-9]+ (.*)$", log, re.MULTILINE),
        "log": log,
    }


@unittest.skipUnless(NODE, "nodejs is not installed")
class Texts(unittest.TestCase):
    def compare(self, pairs: list[tuple[str, str]]) -> int:
        """Compares what is made of transcripts of worlds; answers how many texts were the same."""
        asked, texts = [asked_of(text, log) for text, log in pairs], 0
        words = [str(NODE), "-e", ASKED, os.path.join(setting.WEB, "prose.js")]
        done = subprocess.run(words, input=json.dumps(asked), stdout=subprocess.PIPE, text=True, check=True)
        for (text, log), wanted, found in zip(pairs, asked, json.loads(done.stdout)):
            prose, read = Prose.of(text, World(text)), Transcript.of(log)
            self.assertEqual(found["offers"], [prose.offers(offers) for offers in wanted["questions"]])
            self.assertEqual(found["told"], [prose.told(step) for step in wanted["steps"]])
            self.assertEqual(found["atoms"], [prose.atom(atom, 1) for atom in wanted["atoms"]])
            self.assertEqual(found["many"], [prose.atom(atom, 3) for atom in wanted["atoms"]])
            run = found["run"]
            steps = [told["text"] for told in run["told"] if told["kind"] == "step"]
            self.assertEqual(steps, [step.offer for step in read.steps])
            self.assertEqual({have["atom"]: have["copies"] for have in run["state"]}, dict(read.last))
            choices = len(re.findall(r"^\? choose", log, re.MULTILINE)) - (read.end == "input")
            self.assertEqual((run["end"], run["choices"]), (read.end, choices))
            texts += sum(map(len, found["offers"])) + len(found["told"]) + len(found["atoms"])
        return texts

    def test_over_all_transcripts_of_worlds(self) -> None:
        names = sorted(name[:-4] for name in os.listdir(setting.WORLDS) if name.endswith(".cep"))
        ends = [setting.read(os.path.join(setting.WORLDS, name + ".log")) for name in names]
        texts = [setting.read(os.path.join(setting.WORLDS, name + ".cep")) for name in names]
        self.assertGreater(self.compare(list(zip(texts, ends))), 1000)

    def test_over_names_of_javascript_and_offers_that_read_the_same(self) -> None:
        log = played(WORLD)
        self.assertIn("? 1 go X=z Y=z", log)
        self.assertGreater(self.compare([(WORLD, log)]), 20)


def played(text: str) -> str:
    """The transcript of a world in which the first offer is chosen, and then the last two."""
    import tempfile

    with tempfile.NamedTemporaryFile("w", suffix=".cep") as file:
        file.write(text)
        file.flush()
        return setting.native("1\n1\n", "play", file.name).decode()


class Scripts(unittest.TestCase):
    @unittest.skipUnless(shutil.which("tsc"), "node-typescript is not installed")
    def test_types(self) -> None:
        words = ["--allowJs", "--checkJs", "--noEmit", "--strict", "--target", "es2022", "--typeRoots", "/nowhere"]
        files = [os.path.join(setting.WEB, name) for name in OWN]
        command = ["tsc", *words, "--lib", "es2022,dom,dom.iterable", *files]
        done = subprocess.run(command, stdout=subprocess.PIPE, text=True, check=False)
        self.assertEqual((done.stdout, done.returncode), ("", 0))

    def test_they_are_small(self) -> None:
        texts = (setting.read(os.path.join(setting.WEB, name)) for name in (*OWN, "page.css"))
        lines = sum(text.count("\n") for text in texts)
        self.assertLessEqual(lines, 900)

    def test_nothing_ends_their_elements(self) -> None:
        for name in (*OWN, "page.css", "loader.js"):
            text = setting.read(os.path.join(setting.WEB, name))
            self.assertEqual(re.findall("</script|<!--|</style", text), [], name)


if __name__ == "__main__":
    unittest.main()
