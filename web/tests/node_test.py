"""The command in node: words, files, streams and statuses are those of the program."""

import os
import shutil
import subprocess
import unittest

TOP = os.path.dirname(os.path.dirname(os.path.dirname(os.path.abspath(__file__))))
COMMAND = ["node", os.path.join(TOP, "tools", "ceptre.mjs")]
MODULE = os.path.join(TOP, "out", "ceptre.wasm")


def read(*path):
    with open(os.path.join(TOP, *path), "rb") as file:
        return file.read()


@unittest.skipUnless(shutil.which("node"), "nodejs is not installed")
@unittest.skipUnless(os.path.exists(MODULE), "ceptre.wasm is not made here")
class Command(unittest.TestCase):
    def call(self, *words, typed=b"", **how):
        done = subprocess.run([*COMMAND, *words], input=typed, stdout=how.get("into", subprocess.PIPE), stderr=subprocess.PIPE, cwd=TOP, check=False)
        return done.returncode, done.stdout, done.stderr

    def test_plays_a_world(self):
        self.assertEqual(
            self.call("play", "worlds/castle.cep", typed=read("worlds", "castle.in")), (0, read("worlds", "castle.log"), b"")
        )

    def test_reads_a_file_that_is_a_stream(self):
        status, said, _ = self.call("check", "/dev/stdin", "worlds/apple.log", typed=read("worlds", "apple.cep"))
        self.assertEqual((status, said), (0, b"accepted 2\n"))

    def test_statuses(self):
        self.assertEqual(self.call()[0], 2)
        self.assertEqual(self.call("play", "worlds/README.md")[0], 3)
        self.assertEqual(self.call("play", "worlds/none.cep"), (7, b"cannot read program\n", b""))
        self.assertEqual(self.call("check", "worlds/apple.cep", "worlds"), (7, b"cannot read transcript\n", b""))

    @unittest.skipUnless(os.path.exists("/dev/full"), "there is no /dev/full")
    def test_a_console_that_fails(self):
        with open("/dev/full", "wb") as full:
            self.assertEqual(self.call("world", "1000", into=full)[0], 6)

    def test_goes_on_turn_by_turn(self):
        words = [*COMMAND, "play", "worlds/apple.cep"]
        with subprocess.Popen(words, stdin=subprocess.PIPE, stdout=subprocess.PIPE, cwd=TOP) as game:
            said = b""
            for line in (b"1\n", b"2\n"):
                while not said.endswith(b"? choose\n"):
                    said += os.read(game.stdout.fileno(), 4096)
                game.stdin.write(line)
                game.stdin.flush()
                said = b""
            rest, _ = game.communicate()
        self.assertTrue(rest.endswith(b"end quiet\nhave 1 coin ann\nhave 1 full ben\n"))
        self.assertEqual(game.returncode, 0)


if __name__ == "__main__":
    unittest.main()
