"""Tests of .ci/cases with a program that stands in for that of the cases, and of the table of bench/gate."""
import os, subprocess, tempfile, unittest

TOP = os.path.dirname(os.path.dirname(os.path.dirname(os.path.abspath(__file__))))


class Cases(unittest.TestCase):
    def run_with(self, script):
        with tempfile.TemporaryDirectory() as folder:
            program = os.path.join(folder, "program")
            with open(program, "w") as file:
                file.write("#!/bin/sh\n" + script)
            os.chmod(program, 0o755)
            return subprocess.run([os.path.join(TOP, ".ci", "cases")], env=dict(os.environ, CASES=program),
                                  stdout=subprocess.PIPE, stderr=subprocess.STDOUT, universal_newlines=True)

    def test_what_is_expected_passes(self):
        ran = self.run_with("cat ../stdout\n")
        self.assertEqual((ran.returncode, ran.stdout), (0, "cases: all as expected\n"))

    def test_another_byte_is_shown(self):
        ran = self.run_with("sed '1s/status 0/status 1/' ../stdout\n")
        self.assertEqual(ran.returncode, 1)
        self.assertIn("+a turn: status 1", ran.stdout)

    def test_a_program_that_fails_is_no_answer(self):
        self.assertEqual(self.run_with("exit 1\n").returncode, 2)


class Gate(unittest.TestCase):
    def test_the_table_sums_by_crate_and_part(self):
        with tempfile.NamedTemporaryFile("w", suffix=".jsonl") as file:
            file.write('{"crate": "cep_base", "what": "proof", "seconds": 91}\n'
                       '{"crate": "cep_base", "what": "edits", "seconds": 2.5}\n'
                       '{"crate": "cep_base", "what": "edits", "seconds": 2.1}\n')
            file.flush()
            told = subprocess.run([os.path.join(TOP, "bench", "gate"), "--table", file.name], stdout=subprocess.PIPE,
                                  universal_newlines=True, check=True).stdout
        self.assertIn("| `cep_base` | 91 | 0 | 5 |\n", told)
        self.assertIn("all: 96 seconds of a processor\n", told)


if __name__ == "__main__":
    unittest.main()
