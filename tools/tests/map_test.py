"""Pictures of worlds, and a state that is written as a start."""

import os
import re
import shutil
import subprocess
import tempfile
import unittest

from setting import WORLDS, called, read, typed_and_words, world_names

from ceptre_tools.program import run
from ceptre_tools.transcript import Transcript


class Map(unittest.TestCase):
    def test_stages_rules_and_rooms(self):
        output = called("map", "worlds/nim.cep")[1]
        self.assertIn('  "yours" [shape=box, style=bold];\n  "others" [shape=ellipse];\n', output)
        self.assertIn('  "yours" -> "others" [label="handed"];\n', output)
        output = called("map", "worlds/castle.cep", "--state")[1]
        self.assertIn('  "garden" -> "hall";\n', output)
        self.assertIn('"tower" [shape=box, label="tower\\ncrown"]', output)
        output = called("map", "worlds/castle.cep", "--rules")[1]
        self.assertIn('  "take" -> "flee" [label="awake, carried"];\n', output)

    def test_graphviz_reads_each(self):
        if not shutil.which("dot"):
            self.skipTest("dot is not installed")
        for name in world_names():
            for part in ([], ["--rules"], ["--state"]):
                with self.subTest(world=name, part=part):
                    status, output, errors = called("map", f"worlds/{name}.cep", *part)
                    self.assertEqual((status, errors), (0, ""))
                    drawn = subprocess.run(["dot", "-Tcanon"], input=output, capture_output=True, text=True, check=False)
                    self.assertEqual((drawn.returncode, drawn.stderr), (0, ""))

    def test_what_cannot_be_drawn(self):
        for words, status in [(("README.md",), 3), (("worlds/none.cep",), 3), (("worlds/nim.cep", "--rules", "--state"), 2)]:
            with self.subTest(words=words):
                self.assertEqual(called("map", *words)[0], status)


class Context(unittest.TestCase):
    def test_a_state_is_a_start(self):
        for name in ("castle", "hanoi", "village", "lighthouse", "vending"):
            with self.subTest(world=name), tempfile.TemporaryDirectory() as folder:
                world, log = f"worlds/{name}.cep", f"worlds/{name}.log"
                steps = len(Transcript.of(read(WORLDS, name + ".log")).steps)
                status, output, errors = called("follow", world, log, "--at", str(steps), "--context")
                self.assertEqual((status, errors), (0, ""))
                path = os.path.join(folder, "w.cep")
                with open(path, "w", encoding="utf-8") as file:
                    file.write(re.sub(r"#trace[^.]*\.", "", read(WORLDS, name + ".cep")) + output)
                typed, _ = typed_and_words(name)
                again = Transcript.of("\n".join(run("play", path).lines))
                self.assertEqual(again.start, Transcript.of(read(WORLDS, name + ".log")).last, typed)

    def test_without_a_step(self):
        self.assertEqual(called("follow", "worlds/lock.cep", "worlds/lock.log", "--context")[0], 2)


if __name__ == "__main__":
    unittest.main()
