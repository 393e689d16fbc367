"""Runs by many seeds: what is counted of them is what the program writes for each."""

import csv
import io
import os
import subprocess
import tempfile
import unittest

from setting import TOOLS, TOP, called, tool

# A world that the seed plays: three steps that may go two ways, and a rule that never fires.
WAYS = """\
a : pred. b : pred. c : pred. d : pred.
stage main = { left : a -o b. right : a -o c. never/so : d -o (). }
#trace _ main { a, a, a }.
"""


class Sample(unittest.TestCase):
    def setUp(self):
        folder = tempfile.TemporaryDirectory()
        self.addCleanup(folder.cleanup)
        self.world = os.path.join(folder.name, "ways.cep")
        with open(self.world, "w", encoding="utf-8") as file:
            file.write(WAYS)

    def rows(self, *words):
        status, output, errors = called("sample", *words, "--csv")
        self.assertEqual((status, errors), (0, ""))
        return list(csv.DictReader(io.StringIO(output)))

    def test_each_row_is_what_the_program_writes_for_its_seed(self):
        for row in self.rows(self.world, "--runs", "5", "--seed", "7"):
            command = [os.environ["CEPTRE"], "play", self.world, f"seed={row['seed']}"]
            log = subprocess.run(command, stdout=subprocess.PIPE, text=True, check=False).stdout
            counts = [log.count("\nstep left"), log.count("\nstep right"), 0]
            self.assertEqual([int(row[rule]) for rule in ("left", "right", "never/so")], counts)
            self.assertEqual((row["end"], row["stage"], row["steps"]), ("quiet", "main", "3"))

    def test_the_table(self):
        status, output, errors = called("sample", self.world, "--runs", "20", "--goal", "have 3 b")
        self.assertEqual((status, errors), (0, ""))
        self.assertIn("20 runs by the seeds 1 to 20\n", output)
        self.assertRegex(output, r"quiet in main +20 +100 % +#+\n")
        self.assertIn("steps: least 3, median 3, mean 3.0, most 3\n", output)
        self.assertRegex(output, r"  have 3 b +\d+ +\d+ %")
        self.assertRegex(output, r"  left +\d+ +\d+ %  #+\n  right +\d+")
        self.assertTrue(output.endswith("never: never/so\n"))

    def test_choices_that_the_seed_draws(self):
        status, output, errors = called("sample", "worlds/apple.cep", "--runs", "3")
        self.assertIn("input in market", output)
        self.assertIn("--players-by-seed draws that", errors)
        words = ("worlds/apple.cep", "--runs", "8", "--players-by-seed")
        rows = self.rows(*words)
        self.assertEqual({row["end"] for row in rows}, {"quiet"})
        self.assertGreater(len({row["steps"] for row in rows}), 1)
        self.assertEqual(rows, self.rows(*words), "the same words give the same")

    def test_turns_and_height(self):
        rows = self.rows(self.world, "--runs", "2", "--turns", "1", "--height", "1")
        self.assertEqual([(row["end"], row["steps"]) for row in rows], [("turns", "1")] * 2)

    def test_what_cannot_be_run(self):
        for words, status in [
            (("README.md",), 3),
            (("worlds/none.cep",), 3),
            ((self.world, "--turns", "0"), 3),
            ((self.world, "--goal", "e"), 2),
            ((self.world, "--goal", "have x"), 2),
            ((self.world, "--runs", "0"), 2),
            (("--help",), 0),
        ]:
            with self.subTest(words=words):
                self.assertEqual(called("sample", *words)[0], status)

    def test_runs_are_kept(self):
        folder = os.path.join(os.path.dirname(self.world), "kept")
        self.rows(self.world, "--runs", "2", "--seed", "5", "--keep", folder)
        self.assertEqual(sorted(os.listdir(folder)), ["5.log", "6.log"])
        for seed in (5, 6):
            command = [os.environ["CEPTRE"], "play", self.world, f"seed={seed}"]
            log = subprocess.run(command, stdout=subprocess.PIPE, check=False).stdout
            with open(os.path.join(folder, f"{seed}.log"), "rb") as file:
                self.assertEqual(file.read(), log)
        self.assertEqual(called("sample", self.world, "--runs", "1", "--keep", self.world)[0], 3)

    def test_goals_with_blanks_and_without(self):
        rows = self.rows("worlds/apple.cep", "--runs", "4", "--players-by-seed", "--goal", "full _", "--goal", "none apple _")
        self.assertEqual({(row["goal full _"], row["goal none apple _"]) for row in rows}, {("yes", "yes")})

    def test_pipes(self):
        script = f"{TOOLS}/sample <(cat {self.world}) --runs 2 | true; exit ${{PIPESTATUS[0]}}"
        done = subprocess.run(["bash", "-c", script], cwd=TOP, capture_output=True, text=True, check=False)
        self.assertIn((done.returncode, done.stderr), ((0, ""), (141, "")))
        self.assertEqual(tool("sample", self.world, "--runs", "1")[0], 0)


if __name__ == "__main__":
    unittest.main()
