"""Why a rule is or is not offered: by its premises, its stage, values that are given, and clauses."""

import os
import shutil
import subprocess
import tempfile
import unittest

from setting import TOP, read, tool

# Two need a coin each, a gift needs two of one person's, and a way is said by clauses.
WORLD = """\
person : type.
ann : person.  ben : person.
place : type.
hall : place.  yard : place.  moor : place.
coin person : pred.
at person place : pred.
open place : fact.
spent : pred.
way place place : bwd.
way hall yard.
way A C <- way A B, way B C.
stage day = {
  spend : coin P -o spent.
  give : $at P _ * coin P * coin P -o coin ann * coin ben.
  walk : way A B * at P A * open B -o at P B.
  rest : $at P moor -o ().
}
stage night = { sleep : spent -o (). }
dusk : qui * stage day * $spent -o stage night.
qui * stage night -o stage day.
#interactive day.
#trace _ day { coin ann, coin ben, at ann hall, open moor, open hall }.
"""


class Why(unittest.TestCase):
    def setUp(self):
        self.folder = tempfile.mkdtemp()
        self.addCleanup(shutil.rmtree, self.folder)
        self.world, self.log = self.file("w.cep", WORLD), os.path.join(self.folder, "w.log")
        with open(self.log, "w", encoding="utf-8") as log:
            command = [os.environ["CEPTRE"], "play", self.world]
            subprocess.run(command, input="1\n1\n", text=True, stdout=log, check=False)

    def file(self, name, text):
        path = os.path.join(self.folder, name)
        with open(path, "w", encoding="utf-8") as file:
            file.write(text)
        return path

    def why(self, *words):
        """The status, and the lines that are told but for the rule's own."""
        status, output, errors = tool("why", self.world, self.log, *words)
        self.assertEqual(errors, "")
        return status, [line.strip() for line in output.splitlines() if " : " not in line]

    def test_a_rule_that_is_offered(self):
        told = ["spend is offered in the stage day:", "spend P=ann", "spend P=ben"]
        self.assertEqual(self.why("0", "spend"), (0, told))
        self.assertEqual(self.why("0", "spend", "P=ben"), (0, [told[0], told[2]]))

    def test_a_premise_that_nothing_meets(self):
        told = ["spend is not offered in the stage day:", "met:    nothing before it"]
        told += ["wanted: coin ann", "there:  coin ben"]
        self.assertEqual(self.why("1", "spend", "P=ann"), (1, told))
        told = ["rest is not offered in the stage day:", "met:    nothing before it"]
        told += ["wanted: at P moor", "there:  at ann hall"]
        self.assertEqual(self.why("0", "rest"), (1, told))

    def test_an_atom_that_another_premise_needs(self):
        told = ["give is not offered in the stage day:", "met:    at ann hall, coin ann"]
        told += ["wanted: coin ann", "there:  1 coin ann, which another premise needs"]
        self.assertEqual(self.why("0", "give"), (1, told))

    def test_a_backward_premise_is_asked_of_the_program(self):
        told = ["walk is not offered in the stage day:"]
        for place in ("hall", "moor"):
            told += [f"met:    at ann hall, open {place}", f"wanted: way hall {place}"]
            told.append("there:  no derivation of it within the height 128")
        self.assertEqual(self.why("0", "walk"), (1, told))

    def test_a_rule_of_another_stage(self):
        status, told = self.why("0", "sleep")
        self.assertEqual((status, told[1]), (1, "it belongs to the stage night"))
        self.assertIn("there:  no spent at all", told)

    def test_a_rule_that_waits_until_nothing_else_applies(self):
        status, told = self.why("1", "dusk")
        self.assertEqual(status, 1)
        self.assertIn("it waits until no rule of the stage applies, and one does: spend P=ben", told)
        self.assertEqual(told[-2:], ["all premises are met:", "met:    spent"])
        self.assertIn("it belongs to the stage night", self.why("1", "qui/1")[1])

    def test_what_cannot_be_asked(self):
        asked = "9 walk", "0 fly", "0 walk Q=ann", "0 walk ann", "0 spend P=moor"
        for words in map(str.split, asked):
            with self.subTest(words=words):
                status, output, errors = tool("why", self.world, self.log, *words)
                self.assertEqual((status, output, errors.count("\n")), (2, "", 1))

    def test_what_is_refused(self):
        log = self.file("bad.log", read(self.log).replace("have 1 coin ben\n", "", 1))
        status, _, errors = tool("why", self.world, log, "0", "spend")
        self.assertEqual(status, 3)
        self.assertIn("StartState", errors)
        self.assertEqual(tool("why", "README.md", self.log, "0", "spend")[0], 3)
        self.assertEqual(tool("why", "worlds/none.cep", self.log, "0", "spend")[0], 3)

    def test_the_worlds(self):
        dungeon = [os.path.join(TOP, "worlds", "dungeon" + end) for end in (".cep", ".log")]
        status, output, _ = tool("why", *dungeon, "3", "unlock", "D=hatch")
        self.assertEqual(status, 1)
        self.assertIn("  wanted: leads hatch yard B\n", output)


if __name__ == "__main__":
    unittest.main()
