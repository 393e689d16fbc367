"""Tests of the reference, of what is drawn for it, and of how it is compared with the program."""

import os
import random
import shutil
import subprocess
import sys
import unittest
from collections import Counter

from setting import TOP, WORLDS

sys.path.insert(0, TOP)
from reference import compare, mutate
from reference.command import run
from reference.draw import Drawn, drawn
from reference.odd import ODD
from reference.play import Seed


def read(path):
    """The bytes of a file, as a text of as many characters, or nothing."""
    if not os.path.exists(path):
        return ""
    with open(path, "rb") as file:
        return file.read().decode("latin-1")


class Reference(unittest.TestCase):
    def test_words_of_a_seed_are_those_of_the_formats(self):
        seed = Seed(42)
        self.assertEqual([f"{seed.word():x}" for _ in range(3)], ["a15c02b7", "7b47f409", "ba1d3330"])

    def test_worlds_are_played_to_the_byte(self):
        for name in ("apple", "castle", "island", "nim", "race", "village"):
            words = read(os.path.join(WORLDS, name + ".words")).split()
            command = "rounds" if any(word.startswith("players") for word in words) else "play"
            answer = run([command, "f"] + words, {"f": read(os.path.join(WORLDS, name + ".cep"))},
                         read(os.path.join(WORLDS, name + ".in")))
            self.assertEqual(answer.text, read(os.path.join(WORLDS, name + ".log")), name)

    def test_each_command_writes_what_the_program_does(self):
        answers = [run(["world", "1"], {}, "").text, run(["dead", "f"], {"f": drawn(3).files.get("f", "")}, "").status]
        self.assertEqual(answers[0], "world 1\nseed 42\nturns 10\noffers 11\ncopies 3\nend quiet\n")

    def test_the_command_is_a_script(self):
        done = subprocess.run([os.path.join(TOP, "reference", "ceptre"), "dead", os.path.join(WORLDS, "apple.cep")],
                              stdin=subprocess.DEVNULL, stdout=subprocess.PIPE, check=False)
        self.assertEqual((done.returncode, done.stdout), (0, b"dead 0\n"))


class Drawing(unittest.TestCase):
    def test_a_seed_draws_one_case(self):
        self.assertEqual([drawn(seed) for seed in range(40)], [drawn(seed) for seed in range(40)])

    def test_each_odd_case_has_a_name_for_its_files(self):
        for odd in set(ODD):
            words, files, _ = odd(random.Random(1))
            self.assertTrue(set(files) <= {"f", "g"}, odd.__name__)

    def test_few_are_not_answered(self):
        kinds = Counter(kind for seed in range(150) for kind in compare.kind_of(drawn(seed), compare.of_reference(drawn(seed))))
        self.assertLessEqual(kinds["not answered here"], 3)


class Comparing(unittest.TestCase):
    def test_the_program_answers_the_same(self):
        program = os.environ["CEPTRE"]
        if not os.path.exists(program):
            self.skipTest("the program is not built")
        asked = compare.Asked(program)
        self.assertEqual([seed for seed in range(60) if compare.differs(drawn(seed), asked)], [])

    def test_a_case_is_shrunk(self):
        case = Drawn(["play", "f"], {"f": "a : pred.\nb : pred.\nc : pred.\n"}, "1\n2\n")
        self.assertEqual(compare.shrunk(case, lambda some: "b :" in some.files["f"]), Drawn(["play", "f"], {"f": "b :"}, ""))

    def test_a_case_has_the_form_of_the_cases(self):
        case = Drawn(["check", "f", "g"], {"f": "a\\\xff\n\n", "g": "-- x"}, "")
        self.assertEqual(compare.as_case("name", case), "== name: check f g\n-- f\na\\\\\\xff\\n\n-- g\n\\x2d- x\\\n")

    def test_wrong_versions_differ_in_a_line(self):
        found = mutate.versions(os.path.join(TOP, "reference"), 1, 5)
        self.assertEqual(len({text for _, _, _, text in found}), 5)


class Form(unittest.TestCase):
    def check(self, *words):
        """Runs a linter of Debian's, if it is installed."""
        if not shutil.which(words[0]):
            self.skipTest(f"skipped: {words[0]} is not installed")
        done = subprocess.run(words, cwd=TOP, stdout=subprocess.PIPE, stderr=subprocess.STDOUT, check=False)
        self.assertEqual((done.returncode, done.stdout.decode()), (0, ""))

    def test_types(self):
        self.check("mypy", "--config-file=", "--strict", "--no-error-summary", "-p", "reference")

    def test_form(self):
        self.check("flake8", "reference")


if __name__ == "__main__":
    unittest.main()
