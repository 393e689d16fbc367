"""Hints on what rules do together, each by its name, and rules that can never apply."""

import os
import tempfile
import unittest

from setting import WORLDS, called, read, world_names

from ceptre_tools.explain.hints import hints

NEW = {"lost", "met-by-one", "never-quiet", "apart"}

MYSTERY = """\
room : type. hall : room. den : room. who : type. ann : who. ben : who. clue : type. glove : clue. knife : clue.
you_are room : pred. in who room : pred. unasked who : pred. asked who : pred. door room room : fact.
found clue : fact. lies clue room : pred. accused : pred. still : pred.
stage play = {
  go : you_are A * door A B -o you_are B.
  ask : you_are R * $in P R * unasked P -o asked P.
  take : $you_are R * lies C R -o found C.
  doze : still * $asked P -o accused.
  accuse : found C * found D * $asked P * still -o accused.
}
#interactive play.
#trace _ play { you_are hall, in ann hall, in ben den, door hall den, door den hall, still,
  unasked ann, unasked ben, lies glove hall, lies knife den }.
"""

QUIET = """\
place : type. here : place. there : place. at place : pred. way place place : fact. bell : pred.
stage day = { walk : at A * way A B -o at B. ring : $bell -o (). }
stage night = { sleep : bell -o (). }
#interactive day.
dusk : qui * stage day * $bell -o stage night.
#trace _ day { at here, way here there, way there here, bell }.
"""

THINGS = " ".join(f"t{i} : t." for i in range(20))
APART = f"""\
t : type. {THINGS}
a t : pred. done : pred.
stage m = {{ all : a A * a B * a C * a D -o done. }}
#trace _ m {{ {", ".join(f"a t{i}" for i in range(20))} }}.
"""


class Doubts(unittest.TestCase):
    def named(self, text):
        return [(hint.line, hint.name) for hint in hints(text) if hint.name in NEW]

    def test_a_forgotten_mark(self):
        self.assertIn((6, "lost"), self.named(MYSTERY))
        said = next(hint.said for hint in hints(MYSTERY) if hint.name == "lost")
        self.assertEqual(said, "`ask` takes `you_are` and puts none; every other rule leaves as many as there were")
        self.assertNotIn("lost", dict(map(reversed, self.named(MYSTERY.replace("ask : you", "ask : $you")))))

    def test_one_fact_for_two_premises(self):
        self.assertIn((9, "met-by-one"), self.named(MYSTERY))
        other = MYSTERY.replace("$asked P * still -o accused.", "$lies C R * $asked P * still -o accused.")
        self.assertNotIn((9, "met-by-one"), self.named(other))

    def test_a_stage_that_never_grows_quiet(self):
        self.assertEqual(self.named(QUIET), [(2, "never-quiet")])
        self.assertEqual(self.named(QUIET.replace("ring : $bell", "ring : bell")), [])

    def test_premises_that_share_no_variable(self):
        self.assertEqual(self.named(APART), [(3, "apart")])
        self.assertIn("160000 matches", next(hint.said for hint in hints(APART) if hint.name == "apart"))
        self.assertEqual(self.named(APART.replace("a D", "a A")), [])

    def test_meant_silences(self):
        text = MYSTERY.replace("  ask :", "  % who asks is gone: meant\n  ask :")
        self.assertNotIn("lost", [name for _, name in self.named(text)])

    def test_none_of_the_worlds(self):
        for name in world_names():
            with self.subTest(world=name):
                self.assertEqual(self.named(read(WORLDS, name + ".cep")), [])

    def test_rules_that_can_never_apply(self):
        text = "t : type. r : t. b : t. p t t : pred. q : pred.\nstage m = {\n  s : $p X X -o q.\n  u : $p r b -o q.\n}\n"
        with tempfile.TemporaryDirectory() as folder:
            path = os.path.join(folder, "w.cep")
            with open(path, "w", encoding="utf-8") as file:
                file.write(text + "#trace _ m { p r r }.\n")
            status, output, _ = called("explain", path)
        self.assertEqual(status, 0)
        self.assertIn(":4:3: hint: `u` can never apply: nothing ever makes its premise `p r b` hold\n", output)


if __name__ == "__main__":
    unittest.main()
