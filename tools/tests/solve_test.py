"""The search through the states of a world: what it answers is what a plain search by the program finds."""

import os
import signal
import subprocess
import tempfile
import time
import unittest

from setting import TOOLS, TOP, WORLDS, called, read

from ceptre_tools.grade.goals import Goal
from ceptre_tools.program import run
from ceptre_tools.solve.answer import begun, with_all_chosen
from ceptre_tools.solve.search import Limits, Search
from ceptre_tools.solve.seed import Draws
from ceptre_tools.transcript import Transcript, deeds
from ceptre_tools.world import World

# Copies, facts that are asked twice, clauses, a stage without rules, and rules that leave a stage.
MIXED = """\
thing : type. a : thing. b : thing. boxed thing : thing.
w : type. w0 : w.
have thing : pred. coin : pred. seen thing : fact. mark w : pred. still : pred.
small thing : bwd.
small a.
small (boxed X) <- small X.
stage main = {
  look : $have X * small X * seen Y * seen Y -o seen X.
  pack : have X * coin * coin -o have (boxed X) * seen X.
  pay : coin -o still.
  rest : () -o mark w0.
}
stage none/here = {}
stage other = { swap : mark W * $still * $still -o coin. }
leave : qui * stage none/here * $mark W -o stage other.
back : qui * stage other * still -o stage none/here * mark w0.
away : qui * stage other * $coin -o stage none/here.
#trace 3 %s { have a, have b, coin, coin, coin, seen b, still, still }.
"""

SEVEN = "p " + "t " * 8 + ": pred."
WIDE = f"""\
t : type. c : t. d : t.
{SEVEN}
stage main = {{ r : p c A B C D E F G -o p A B C D E F G d. }}
#trace _ main {{ p c c d c c d c c }}.
"""


def listed(lines):
    """The stage and the listing with which a run ended."""
    end = next(at for at, line in enumerate(lines) if line.startswith("end "))
    stages = [line[6:] for line in lines if line.startswith("stage ")]
    return stages[-1], tuple(line[5:] for line in lines[end + 1 :])


class Plain:
    """A search in which the program is asked of each state and each step alone."""

    def __init__(self, text, start, turns):
        self.head = with_all_chosen(World(text)).replace("#trace", "% #trace")
        self.depths, level = {start: 0}, [start]
        for _ in range(turns):
            level = [after for state in level for after in self.after(state)]

    def after(self, state):
        """The states after one step that were not seen before."""
        stage, atoms = state
        pairs = (atom.split(" ", 1) for atom in atoms)
        bag = ", ".join(text for copies, text in pairs for _ in range(int(copies)))
        text = f"{self.head}\n#trace _ {stage} {{ {bag} }}.\n"
        found = []
        for number in range(1, 1 + self.offers(text)):
            lines = self.played(text, f"{number}\n", 1)
            after = listed(lines)
            if self.depths.setdefault(after, self.depths[state] + 1) == self.depths[state] + 1:
                found += [after] if after not in found else []
        return found

    def offers(self, text):
        """How many steps there are from the start of a text."""
        lines = self.played(text, "", 1)
        asked = next(at for at, line in enumerate(lines) if line.startswith(("? choose", "step", "end")))
        return sum(line.startswith("? ") for line in lines[:asked])

    @staticmethod
    def played(text, typed, turns):
        with tempfile.NamedTemporaryFile("w", suffix=".cep") as file:
            file.write(text)
            file.flush()
            return run("play", file.name, f"turns={turns}", typed=typed.encode()).lines


class SolveTest(unittest.TestCase):
    def setUp(self):
        folder = tempfile.TemporaryDirectory()
        self.addCleanup(folder.cleanup)
        self.folder = folder.name

    def path(self, text, name="world.cep"):
        path = os.path.join(self.folder, name)
        with open(path, "w", encoding="utf-8") as file:
            file.write(text)
        return path

    def search(self, text, jobs=2, seed=None, **limits):
        """A search through all states, and the state in which it begins."""
        start = Transcript.of("\n".join(begun(self.path(text), [])))
        found = Search(World(text), start, [], Limits(**limits), seed=seed)
        found.run(jobs, first=False)
        return found, (start.stage, tuple(f"{n} {atom}" for atom, n in start.start.items()))


class States(SolveTest):
    def compare(self, text):
        """Compares the states and their depths with those of a plain search."""
        search, start = self.search(text)
        plain = Plain(text, start, min(search.turns, 99))
        own = {}
        for state, reached in zip(search.states, search.reached):
            atoms = {search.changing.texts[number]: copies for number, copies in state.atoms}
            key = state.stage, frozenset({**atoms, **search.changing.fixed}.items())
            own[key] = reached.depth
        theirs = {}
        for (stage, atoms), depth in plain.depths.items():
            pairs = (atom.split(" ", 1) for atom in atoms)
            theirs[stage, frozenset((text, int(copies)) for copies, text in pairs)] = depth
        self.assertEqual(own, theirs)

    def test_worlds(self):
        for name in ("apple", "blocks", "hanoi", "lock", "nim", "river", "shop", "vending"):
            with self.subTest(world=name):
                self.compare(read(WORLDS, name + ".cep"))

    def test_copies_facts_clauses_and_stages(self):
        for stage in ("main", "other", "none/here"):
            with self.subTest(stage=stage):
                self.compare(MIXED % stage)

    def test_a_world_that_has_no_room_for_tags(self):
        search, _ = self.search(WIDE)
        self.assertFalse(search.batches.is_tagged)
        self.compare(WIDE)

    def test_the_same_whatever_runs_at_once(self):
        one, _ = self.search(read(WORLDS, "castle.cep"), jobs=1)
        three, _ = self.search(read(WORLDS, "castle.cep"), jobs=3)
        self.assertEqual((one.states, self.steps(one)), (three.states, self.steps(three)))

    @staticmethod
    def steps(search):
        ways = [search.way_to(number) for number in range(len(search.states))]
        return [[way.offer.move.offer(way.offer.values) for way in steps] for steps in ways]

    def test_a_state_with_too_many_offers(self):
        things = " ".join(f"t{i} : t." for i in range(300))
        atoms = ", ".join(f"p t{i}, q t{i}" for i in range(300))
        text = f"t : type. {things} p t : pred. q t : pred. done : pred. go : pred.\n"
        text += "stage first = { start : go -o done. }\nstage main = { r : p X * q Y -o done. }\n"
        text += "next : qui * stage first -o stage main.\n"
        search, _ = self.search(text + f"#trace _ first {{ go, {atoms} }}.\n")
        self.assertEqual((len(search.states), search.is_whole), (3, False))
        self.assertEqual(search.cut, "a state with too many offers")

    def test_a_step_that_passes_a_limit(self):
        text = "t : type. c : t. d t t t : t. p t : pred. n : pred. m : pred.\n"
        text += "stage main = { r : p X -o p (d X X X). end : n -o m. }\n#interactive main.\n#trace _ main { p c, n }.\n"
        search, _ = self.search(text)
        self.assertEqual((search.is_whole, search.cut), (False, "a step that passes a limit"))
        self.assertEqual(len(search.states), 2 * 10, "a term of 29,524 nodes is the largest")
        status, output, _ = called("solve", self.path(text), "--goal", "p d")
        self.assertEqual(status, 2)
        status, output, _ = called("solve", self.path(text), "--goal", "have 2 m")
        self.assertEqual((status, output[:46]), (4, "none within a step that passes a limit: 20 sta"))


class Answers(SolveTest):
    def test_a_way_is_typed_and_accepted(self):
        for world, goal in [
            ("river", "across"),
            ("hanoi", "stands (over small (over middle (over large empty))) right"),
            ("lock", "open"),
            ("castle", "rich"),
            ("nim", "winner you"),
            ("village", "friends _ _"),
        ]:
            with self.subTest(world=world):
                log, typed = os.path.join(self.folder, "log"), os.path.join(self.folder, "in")
                path = os.path.join(WORLDS, world + ".cep")
                status, output, errors = called("solve", path, "--goal", goal, "--log", log, "--typed", typed)
                self.assertEqual((status, errors), (0, ""))
                options = [line[9:].split() for line in output.split("\n") if line.startswith("options: ")]
                self.assertTrue(run("check", path, log).line.startswith("accepted "))
                with open(typed, "rb") as file:
                    again = run("play", path, *(options[0] if options else []), typed=file.read())
                self.assertEqual(
                    [line for line in deeds("\n".join(again.lines)) if not line.startswith("end")],
                    [line for line in deeds(read(log)) if not line.startswith("end")],
                )
                last = Transcript.of(read(log)).last
                self.assertTrue(Goal.of(goal).reached({atom: str(n) for atom, n in last.items()}))

    def test_none_and_none_within(self):
        words = ("worlds/apple.cep", "--goal", "full ann", "--goal", "full ben")
        self.assertEqual(called("solve", *words)[:2], (1, "none: all 4 states were seen\n"))
        status, output, _ = called("solve", "worlds/river.cep", "--goal", "have 3 bones", "--states", "9")
        self.assertEqual((status, output[:28]), (4, "none within 9 states: 9 stat"))
        status, output, _ = called("solve", "worlds/river.cep", "--goal", "across", "--turns", "5")
        self.assertEqual((status, output[:21]), (4, "none within 5 turns: "))
        self.assertEqual(called("solve", "worlds/river.cep", "--goal", "across", "--turns", "6")[0], 0)

    def test_the_start_may_have_the_goal(self):
        log = os.path.join(self.folder, "log")
        status, output, _ = called("solve", "worlds/lock.cep", "--goal", "shut", "--log", log)
        self.assertEqual((status, output[:20]), (0, "reached in 0 steps, "))
        self.assertEqual(run("check", "worlds/lock.cep", log).line, "accepted 0")

    def test_goals_with_blanks_and_without(self):
        world = self.path(read(WORLDS, "market.cep"))
        output = called("solve", world, "--goal", "sold _", "--goal", "none has ann _", "--plain")[1]
        self.assertIn("sell P=ann A=gate Q=ben T=apple", output)
        for goal, status in [("sold _ _", 2), ("gone _", 2), ("sold X", 2), ("none sold apple", 0), ("way _ _", 2)]:
            with self.subTest(goal=goal):
                self.assertEqual(called("solve", world, "--goal", goal)[0], status)
        self.assertEqual(called("solve", "worlds/castle.cep", "--goal", "way _ _")[0], 2)

    def test_stuck(self):
        status, output, _ = called("solve", "worlds/castle.cep", "--goal", "rich", "--stuck")
        self.assertEqual(status, 1)
        self.assertIn("all 40 states; 5 have the goal; from 5 no goal can be reached\n", output)
        self.assertIn("and there it is quiet:\n", output)
        self.assertEqual(called("solve", "worlds/lock.cep", "--goal", "open", "--stuck")[0], 0)
        text = "a : pred. b : pred. c : pred.\nstage m = { win : a -o b. lose : a -o c. on : c -o c. }\n"
        world = self.path(text + "#interactive m.\n#trace _ m { a }.\n")
        status, output, _ = called("solve", world, "--goal", "b", "--stuck")
        self.assertIn("from 1 no goal can be reached\nno goal after 1 steps:\n   1    2  lose\n", output)
        self.assertEqual(called("solve", world, "--goal", "b", "--stuck", "--states", "1")[0], 4)

    def test_what_the_seed_chooses(self):
        for seed in (1, 2, 3):
            path = self.path(read(WORLDS, "nim.cep"))
            status, output, _ = called("solve", path, "--goal", "winner _", "--by-seed", "--seed", str(seed))
            self.assertEqual(status, 0)
            typed = next(line[7:].split() for line in output.split("\n") if line.startswith("typed: "))
            log = run("play", path, f"seed={seed}", typed="".join(f"{n}\n" for n in typed).encode()).lines
            self.assertTrue(any(line.startswith("have 1 winner ") for line in log[-9:]))

    def test_the_words_of_a_seed(self):
        draws = Draws(42)
        self.assertEqual([draws.further() for _ in range(3)], [0xA15C02B7, 0x7B47F409, 0xBA1D3330])

    def test_what_cannot_be_run(self):
        for words, status in [
            (("README.md",), 3),
            (("worlds/none.cep",), 3),
            (("worlds/apple.cep", "--goal", "have x"), 2),
            (("worlds/apple.cep", "--turns", "0"), 3),
            (("worlds/apple.cep", "--states", "0"), 2),
            (("worlds/apple.cep", "--memory", "1M"), 2),
            (("worlds/apple.cep", "--goal", "full ann", "--log", "none/such"), 3),
            (("--help",), 0),
        ]:
            with self.subTest(words=words):
                self.assertEqual(called("solve", *words)[0], status)


class Speed(SolveTest):
    def test_all_states_of_a_larger_hanoi(self):
        disks = " ".join(f"d{i} : disk." for i in range(6))
        smaller = ", ".join(f"smaller d{i} d{j}" for i in range(6) for j in range(i + 1, 6))
        pile = "(over d0 (over d1 (over d2 (over d3 (over d4 (over d5 empty))))))"
        text = read(WORLDS, "hanoi.cep").split("context start")[0].replace("large : disk.", disks + " large : disk.")
        text += f"#trace _ puzzle {{ stands {pile} left, stands empty centre, stands empty right, {smaller} }}.\n"
        search, _ = self.search(text, jobs=4)
        self.assertEqual((len(search.states), search.depth), (729, 63))

    def test_an_interrupt_says_how_far_it_came(self):
        text = "n : type. z : n. s n : n. p n : pred. q n : pred.\nstage m = { r : p X -o p (s X). t : q X -o q (s X). }\n"
        command = [os.path.join(TOOLS, "solve"), self.path(text + "#trace _ m { p z, q z }.\n"), "--goal", "have 2 p z"]
        # How soon a search begins depends on the machine.
        for seconds in (1.5, 6, 24):
            child = subprocess.Popen(command, cwd=TOP, stderr=subprocess.PIPE, start_new_session=True)
            time.sleep(seconds)
            os.killpg(child.pid, signal.SIGINT)
            errors = child.communicate()[1].decode()
            self.assertEqual(child.returncode, -signal.SIGINT)
            if errors:
                break
        self.assertRegex(errors, r"solve: stopped: \d+ states seen, \d+ of them not asked, to a depth of \d+ steps")


if __name__ == "__main__":
    unittest.main()
