"""Standard streams that are closed before a script begins."""

import os
import subprocess
import unittest

from setting import TOP, scripts

WORDS = {
    "explain": "worlds/apple.cep",
    "follow": "worlds/apple.cep worlds/apple.log",
    "grade": "worlds/apple.cep worlds/apple.log",
    "map": "worlds/nim.cep",
    "player": "worlds/apple.cep",
    "replay": "worlds/apple.cep worlds/apple.log",
    "sample": "worlds/apple.cep --runs 2",
    "solve": "worlds/lock.cep --goal open",
    "why": "worlds/apple.cep worlds/apple.log 0 eat",
}


def called(script, closed):
    """The status and the errors of a script that is called with a stream closed."""
    line = f"tools/{script} {WORDS[script]} {closed} </dev/null" if "<" not in closed else f"tools/{script} {WORDS[script]} {closed}"
    done = subprocess.run(["bash", "-c", line], cwd=TOP, capture_output=True, text=True, check=False)
    return done.returncode, done.stderr


class Streams(unittest.TestCase):
    def test_each_script_is_tried(self):
        self.assertEqual(sorted(set(WORDS) & set(scripts())), sorted(WORDS))

    def test_output(self):
        for script in WORDS:
            with self.subTest(script=script):
                self.assertEqual(called(script, ">&-"), (3, f"{script}: standard output is closed\n"))

    def test_input(self):
        self.assertEqual(called("player", "<&-"), (3, "player: standard input is closed\n"))
        self.assertEqual(called("explain", "<&-"), (0, ""))

    def test_errors(self):
        """What was to be said there and cannot be is a failure; else nothing is lost."""
        self.assertEqual(called("sample", "2>&-"), (3, ""))
        self.assertEqual(called("explain", "2>&-"), (0, ""))


if __name__ == "__main__":
    unittest.main()
