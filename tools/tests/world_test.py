"""What the reader of worlds says of texts: what it reads of those that are accepted, and how it goes on in others."""

import glob
import os
import random
import unittest

from setting import TOP, WORLDS, read, world_names
from ceptre_tools.parser import read_atom, read_term
from ceptre_tools.tokens import tokens
from ceptre_tools.world import World, read_world

REFUSED = os.path.join(TOP, "tools", "tests", "explain")

LAMP = """\
room : type.  % rooms
hall : room.  cellar : room.
within room : room.
at room : pred.  lit : fact.
way room room : bwd.
way hall cellar.
way A (within A).
named : lit.
stage house = {
  walk : $at A * way A _ * lit -o at (within A).
}
qui * stage house -o stage house.
_ : qui * stage house * at X -o stage house.
#interactive house.
context start = { at hall, lit }.
#trace _ house { start, at cellar }.
"""


def seen(world):
    """The kinds and names of all parts."""
    return [(part.kind, part.name) for part in world.parts()]


def places(found):
    return [f"{token.line}:{token.column}" for token in found]


class Tokens(unittest.TestCase):
    def test_kinds_and_places(self):
        found = [(t.kind, t.text, t.line, t.column, t.start) for t in tokens("stage A_% x\n -oo#ab1;\xe9")]
        self.assertEqual(
            found,
            [
                ("reserved", "stage", 1, 1, 0),
                ("variable", "A_", 1, 7, 6),
                ("arrow", "-o", 2, 2, 13),
                ("name", "o", 2, 4, 15),
                ("directive", "#ab", 2, 5, 16),
                ("number", "1", 2, 8, 19),
                ("bad", ";", 2, 9, 20),
                ("bad", "\xe9", 2, 10, 21),
            ],
        )

    def test_spaces_at_the_end(self):
        for text in ("a ", "a\t", "a \r", "a\n ", " a % x", " a \n\r\n\t "):
            self.assertEqual([token.text for token in tokens(text)], ["a"])

    def test_each_byte_is_in_one_token_comment_or_space(self):
        for name in world_names():
            world = World(read(WORLDS, name + ".cep"))
            parts = sorted([*world.tokens, *world.comments], key=lambda token: token.start)
            rest, end = "", 0
            for token in parts:
                rest += world.text[end : token.start]
                self.assertEqual(world.text[token.start : token.end], token.text)
                end = token.end
            self.assertEqual((rest + world.text[end:]).strip(), "", name)


class Terms(unittest.TestCase):
    def test_a_text_alone(self):
        atom = read_atom("at ann (s (s Z)) _ _")
        self.assertEqual(atom.bare({"Z": "(s z)"}), "at ann (s (s (s z))) _1 _2")
        self.assertEqual(read_term("(s z)"), read_term("s z"))
        self.assertEqual(read_term("z").argument({}), "z")
        self.assertTrue(read_term("X").is_variable)
        self.assertEqual(read_atom("p ((a)) (X) (((f (_))))").bare({}), "p a X (f _1)")
        self.assertEqual(read_term("((s z))"), read_term("s z"))

    def test_what_is_none(self):
        wrong = ["a ((b) c)", "a ((b)", "a (())", "", "X y", "a.", "a (", "a b)", "(a", "a (X b)", "a ()"]
        for text in [*wrong, "a " + "(b " * 600 + ")" * 600]:
            self.assertIsNone(read_atom(text), text)
        for text in ("", "(a", "a)", "(", "()", "a : b"):
            self.assertIsNone(read_term(text), text)


class Accepted(unittest.TestCase):
    def test_items(self):
        expected = [("type", "room"), ("constructor", "hall"), ("constructor", "cellar"), ("constructor", "within")]
        expected += [("predicate", "at"), ("predicate", "lit"), ("predicate", "way")]
        expected += [("clause", ""), ("clause", ""), ("clause", "named"), ("stage", "house"), ("rule", "walk")]
        expected += [("rule", "qui/1"), ("rule", "qui/2"), ("interactive", ""), ("context", "start"), ("trace", "")]
        self.assertEqual(seen(World(LAMP)), expected)

    def test_a_rule(self):
        rule = World(LAMP).rules["walk"]
        texts = [[atom.bare({}) for atom in atoms] for atoms in (rule.taken, rule.kept, rule.asked, rule.put)]
        self.assertEqual(texts, [[], ["at A", "lit"], ["way A _1"], ["at (within A)"]])
        self.assertEqual(World(LAMP).variables(rule), {"A": "room", "_1": "room"})
        self.assertEqual([premise.kept for premise in rule.premises], [True, False, False])

    def test_outer_rules(self):
        rule = World(LAMP).rules["qui/2"]
        self.assertEqual((rule.has_qui, rule.from_stage, rule.next_stage), (True, "house", "house"))

    def test_uses(self):
        world = World(LAMP)
        at = world.find("predicate", "at")
        uses = world.by_name["predicate", "at"]
        self.assertEqual([use.role for use in uses], ["declared", "kept", "made", "taken", "start", "start"])
        self.assertIs(uses[0].item, at)
        start = world.by_name["context", "start"]
        self.assertEqual(places(use.token for use in start), ["15:9", "16:18"])

    def test_what_is_at_a_place(self):
        world = World(LAMP)
        offset = LAMP.index("(within A)", LAMP.index("walk"))
        self.assertEqual(world.use_at(offset + 3).name, "within")
        self.assertEqual(world.part_at(offset).name, "walk")
        self.assertEqual(world.part_at(LAMP.index("}\n")).name, "house")
        variable = world.use_at(offset + 8)
        self.assertEqual(places(use.token for use in world.uses_like(variable)), ["10:14", "10:22", "10:46"])
        self.assertIsNone(world.use_at(LAMP.index("% rooms") + 3))

    def test_no_world_has_a_fault(self):
        for name in world_names():
            world = read_world(read(WORLDS, name + ".cep"))
            self.assertEqual(world.unread, [], name)
            self.assertTrue(all(world.find(use.space, use.name) for use in world.uses if use.space != "variable"))


class Malformed(unittest.TestCase):
    def test_a_missing_dot_costs_its_own_item(self):
        world = World("t : type\nc : t\nd : t.\np t t : pred\nstage s = {\n  r : p A\n    -o p A\n  q : () -o ().\n}\n")
        expected = [("type", "t"), ("constructor", "c"), ("constructor", "d"), ("predicate", "p"), ("stage", "s")]
        self.assertEqual(seen(world), expected + [("rule", "r"), ("rule", "q")])
        self.assertEqual(places(item.fault for item in world.unread), ["2:1", "3:1", "5:1", "8:3"])

    def test_a_missing_brace_costs_its_own_stage(self):
        for after in ("stage t = {}", "p : pred.", "context t = {}", "t : qui * stage s -o stage s.", "#trace _ s {}."):
            world = World("stage s = {\n  r : a -o b.\n" + after)
            self.assertEqual([item.kind for item in world.parts()][:2], ["stage", "rule"])
            self.assertEqual(len(world.items), 2, after)
            self.assertEqual(places(item.fault for item in world.unread), ["3:1"], after)

    def test_what_fits_nothing_is_unread(self):
        world = World("X ; 3 .\nt : type.")
        self.assertEqual([item.kind for item in world.items], ["unread", "type"])
        self.assertEqual(places(item.fault for item in world.unread), ["1:1"])

    def test_atoms_between_braces_go_on_after_a_fault(self):
        world = World("context c = { a, B, c d e, ) f, g. h }.\nt : type.")
        self.assertEqual([atom.bare({}) for atom in world.contexts["c"].atoms], ["a", "c d e", "g", "h"])
        self.assertEqual(len(world.items), 2)

    def test_the_program_and_the_reader_agree_where_the_grammar_ends(self):
        for path in sorted(glob.glob(os.path.join(REFUSED, "*.told"))):
            place = read(path).split("\n", 1)[0].split(":")
            with open(path.replace(".told", ".cep"), "rb") as file:
                world = World(file.read().decode("latin-1"))
            if len(place) > 3 and place[3].strip() not in ("Unexpected", "BadByte", "Nested"):
                self.assertEqual(world.unread, [], path)
            else:
                self.assertNotEqual(world.unread, [], path)

    def test_any_text_has_a_world(self):
        words = [":", " . ", "\n", "{", "}", "(", ")", "-o", "<-", "*", "$", "=", "stage ", "context ", "#trace ", "qui "]
        words += ["type", "pred", "_", "A", "a", "b ", "12", ";", "\xe9", "%c\n", ",", "\0"]
        chance = random.Random(7)
        for _ in range(400):
            world = World("".join(chance.choice(words) for _ in range(chance.randrange(150))))
            ends = [item.last for item in world.items]
            self.assertEqual([item.first for item in world.items], [0, *ends][: len(ends)])
            self.assertEqual(ends[-1:] or [0], [len(world.tokens)])
            for use in world.uses:
                self.assertIn(use, world.uses_like(use))

    def test_deep_and_long_texts(self):
        texts = ["a " + "(b " * 40_000, "(" * 40_000, "a )\n" * 20_000, "x : " * 20_000, "stage s = {" * 9_000]
        for text in texts:
            self.assertNotEqual(World(text).unread, [])


if __name__ == "__main__":
    unittest.main()
