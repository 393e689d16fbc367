"""The state at each step is that of a run that ends there, and each step and its causes are told."""

import os
import re
import shutil
import subprocess
import tempfile
import unittest

from setting import HUNDRED, ROUNDS, TOP, WORLDS
from setting import called, read, tool, typed_and_words, usage, world_names
from ceptre_tools.follow.graph import causes_of, drawn, edges, lines_of_causes
from ceptre_tools.follow.main import lines_of, state_at
from ceptre_tools.program import CannotRun
from ceptre_tools.transcript import Transcript, listing
from ceptre_tools.world import read_world

WALK = ("worlds/walk.cep", "worlds/walk.log")

# Two steps of worlds/dungeon.log: one without backward premises, and one with two.
TOLD = """\
step 2: take A=yard T=iron/key
  take : $you A * lies T A -o carry T.
  - lies iron/key yard
  $ you yard
  + carry iron/key
step 3: unlock A=yard D=portal B=chapel K=iron/key
  unlock : $you A * leads D A B * locked D * $carry K * opens K D -o open D.
  - locked portal
  $ you yard
  $ carry iron/key
  + open portal
  by leads portal yard chapel: 6. leads D A B <- between D A B.  with D=portal A=yard B=chapel
    2. between portal yard chapel.
  by opens iron/key portal: 21. opens K D <- bit K S, keyhole D S.  with K=iron/key D=portal S=square
    16. bit iron/key square.
    18. keyhole portal square.
"""


# What `cause` writes of six steps, of which the third and the sixth leave a stage, and their offers.
CAUSES = ["step 1", "step 2 after 1", "step 3 all after 2", "step 4", "step 5 after 2 4", "step 6 all"]
OFFERS = ["take A=hall", "give A=(s (s z)) B=ann", "over", "take A=yard", "drop A=yard", "back"]

# Why the fifth came about.
WHY = """\
step 5: drop A=yard
  rests on step 2: give A=(s (s z)) B=ann
  rests on step 4: take A=yard
step 4: take A=yard
  rests on the start alone
  comes after step 3, which leaves a stage
step 2: give A=(s (s z)) B=ann
  rests on step 1: take A=hall
step 1: take A=hall
  rests on the start alone
"""

PICTURE = """\
digraph steps {
  node [shape=box];
  1 [label="1 take\\nA=hall"];
  2 [label="2 give\\nA=(s (s z))\\nB=ann"];
  3 [label="3 over", style=bold];
  4 [label="4 take\\nA=yard"];
  5 [label="5 drop\\nA=yard"];
  6 [label="6 back", style=bold];
  1 -> 2;
  2 -> 3;
  3 -> 4 [style=dashed];
  2 -> 5;
  4 -> 5;
  5 -> 6 [style=dashed];
}
"""


def end_listing(world, turns):
    """The listing of a run of a world as it was played, ended by a limit of turns. No derivation of
    these worlds is higher than 12, and a low limit is quicker."""
    typed, words = typed_and_words(world)
    if not any(word.startswith("height=") for word in words):
        words = [*words, "height=12"]
    command = "rounds" if any(word.startswith("players=") for word in words) else "play"
    path = os.path.join(WORLDS, world + ".cep")
    with open(typed, "rb") as file:
        done = subprocess.run(
            [os.environ["CEPTRE"], command, path, *words, f"turns={turns}"],
            stdin=file,
            stdout=subprocess.PIPE,
            text=True,
            check=False,
        )
    lines = done.stdout.splitlines()
    ends = [i for i, line in enumerate(lines) if line.startswith("end ")]
    return lines[ends[0] + 1 :]


class Follow(unittest.TestCase):
    def test_a_listing_in_the_middle_is_that_of_its_step(self):
        log = Transcript.of(HUNDRED.replace("100\nhave 1", "100\nhave 7"))
        self.assertEqual((log.start, log.last), ({"a": 1}, {"a": 1}))
        self.assertEqual([step.after for step in log.steps], [{}] * 99 + [{"a": 7}])

    def test_the_state_at_each_step_is_that_of_a_run_that_ends_there(self):
        for name in world_names():
            world = read_world(read(WORLDS, name + ".cep"))
            log = Transcript.of(read(WORLDS, name + ".log"))
            self.assertEqual(state_at(world, log, len(log.steps))[1:], listing(world, log.last))
            most = len(log.steps)
            for at in sorted({most // 2, most - 1} & set(range(1, most))):
                with self.subTest(world=name, at=at):
                    state = state_at(world, log, at)
                    self.assertEqual(state[1:], end_listing(name, at))

    def test_each_world_is_told_whole(self):
        for name in world_names():
            with self.subTest(world=name):
                world = read_world(read(WORLDS, name + ".cep"))
                log = Transcript.of(read(WORLDS, name + ".log"))
                lines = lines_of(world, log)
                steps = [line for line in lines if line.startswith("step ")]
                self.assertEqual(len(steps), len(log.steps))
                self.assertIn(f"end {log.end}", lines)

    def test_what_is_told_of_a_step(self):
        status, output, _ = tool("follow", "worlds/dungeon.cep", "worlds/dungeon.log")
        self.assertEqual(status, 0)
        self.assertIn(TOLD, output)

    def test_a_step_that_leaves_a_stage(self):
        _, output, _ = tool("follow", "worlds/nim.cep", "worlds/nim.log")
        self.assertIn("  handed : qui * stage yours * moved", output)
        self.assertIn("  + turn\n  stage others\n", output)

    def test_rules_without_a_label_and_blanks(self):
        text = (
            "t : type. a : t. b : t. p t : pred. q t t : pred. r : pred.\n"
            "stage one = {} stage two = {}\n"
            "qui * stage one * p _ * $q X _ -o stage two * p X.\n"
            "_ : qui * stage two * r -o stage one.\n"
            "#trace _ one { p b, q a b, r, r }.\n"
        )
        with tempfile.TemporaryDirectory() as folder:
            world, log = os.path.join(folder, "w.cep"), os.path.join(folder, "w.log")
            with open(world, "w", encoding="utf-8") as file:
                file.write(text)
            with open(log, "w", encoding="utf-8") as file:
                subprocess.run([os.environ["CEPTRE"], "play", world], stdout=file, check=False)
            status, output, errors = tool("follow", world, log)
            _, state, _ = tool("follow", world, log, "--at", "1")
        self.assertEqual((status, errors), (0, ""))
        self.assertIn("step 1: qui/1 _1=b X=a _2=b\n", output)
        self.assertIn("  - p b\n  $ q a b\n  + p a\n  stage two\n", output)
        self.assertEqual(state, "stage two\nhave 1 p a\nhave 1 q a b\nhave 2 r\n")

    def test_a_state(self):
        answer = tool("follow", *WALK, "--at", "2")
        have = "have 1 at alice tower\nhave 1 at bob mill\nhave 1 at carol tower\n"
        self.assertEqual(answer, (0, "stage walk\n" + have + "have 1 met alice carol\n", ""))
        self.assertEqual(tool("follow", *WALK, "--at", "99")[0], 1)

    def test_what_is_not_accepted(self):
        answer = tool("follow", WALK[0], "worlds/nim.log")
        self.assertEqual(answer, (1, "", "worlds/nim.log: refused 3 Line\n"))
        self.assertEqual(tool("follow", *WALK, "--at", "-1")[0], 1)
        self.assertEqual(tool("follow", "README.md", WALK[1])[0], 3)
        self.assertEqual(tool("follow", WALK[0], "worlds/none.log")[0], 3)
        self.assertEqual(tool("follow", *WALK, CEPTRE="/bin/false")[0], 3)
        self.assertEqual(tool("follow", WALK[0])[0], 2)

    def test_a_transcript_that_was_cut(self):
        """At whatever byte a transcript is cut, it is shown as far as it goes, once the start is whole."""
        text = read(WORLDS, "apple.log")
        start = text.index("? 1 sell")
        with tempfile.TemporaryDirectory() as folder:
            log = os.path.join(folder, "cut.log")
            for length in range(0, len(text), 11):
                with self.subTest(length=length):
                    with open(log, "w", encoding="utf-8") as file:
                        file.write(text[:length])
                    status, output, errors = called("follow", "worlds/apple.cep", log)
                    if length < start:
                        self.assertIn((status, output), [(1, "")])
                        continue
                    self.assertEqual(status, 4)
                    self.assertIn("it was cut, and is shown as far as it goes", errors)
                    steps = text[:length].count("\nstep ")
                    told = int(output.split("cut after step ")[1].split("\n")[0])
                    self.assertIn(told, (steps, steps - 1))
            status, output, _ = called("follow", "worlds/apple.cep", log, "--at", "1")
        self.assertEqual(status, 4)
        self.assertEqual(output, "stage market\nhave 1 apple ben\nhave 1 coin ann\n")

    def test_a_cut_within_a_listing_in_the_middle(self):
        with tempfile.TemporaryDirectory() as folder:
            world, log = os.path.join(folder, "w.cep"), os.path.join(folder, "w.log")
            for path, text in ((world, ROUNDS), (log, HUNDRED[: HUNDRED.index("end")])):
                with open(path, "w", encoding="utf-8") as file:
                    file.write(text)
            self.assertIn("cut after step 100\n", called("follow", world, log)[1])
            with open(log, "w", encoding="utf-8") as file:
                file.write(HUNDRED[: HUNDRED.index("state 100") + 10])
            self.assertIn("cut after step 99\n", called("follow", world, log)[1])

    def test_help(self):
        self.assertEqual(tool("follow", "--help", folder=TOP)[0], 0)

    def test_pipes(self):
        tools, walk = os.path.join(TOP, "tools"), " ".join(WALK)
        for script, status in [
            (f"{tools}/follow {walk} | true; exit ${{PIPESTATUS[0]}}", (0, 141)),
            (f"{tools}/follow <(cat {WALK[0]}) <(cat {WALK[1]}) >/dev/null", (0,)),
            (f"{tools}/follow {walk} >/dev/full", (3,)),
        ]:
            with self.subTest(script=script):
                done = subprocess.run(["bash", "-c", script], cwd=TOP, capture_output=True, text=True, check=False)
                self.assertIn(done.returncode, status)
                self.assertEqual(done.stderr.count("\n"), int(done.returncode == 3), done.stderr)

class Graph(unittest.TestCase):
    """The causes of steps, of lines that stand here."""

    def test_what_is_told(self):
        causes = causes_of(CAUSES)
        self.assertEqual("\n".join(lines_of_causes(OFFERS, causes, 5)) + "\n", WHY)
        leaves = "  leaves a stage, so it comes after all steps before it"
        self.assertEqual(lines_of_causes(OFFERS, causes, 6), ["step 6: back", "  rests on the start alone", leaves])
        told = lines_of_causes(OFFERS, causes, 3)
        self.assertEqual(told[:3], ["step 3: over", "  rests on step 2: give A=(s (s z)) B=ann", leaves])

    def test_what_is_drawn(self):
        self.assertEqual("\n".join(drawn(OFFERS, causes_of(CAUSES))) + "\n", PICTURE)
        long = "take A=" + "(s " * 20 + "z" + ")" * 20
        self.assertIn('  1 [label="1 take\\nA=' + "(s " * 12 + '.."];', drawn([long], causes_of(["step 1"])))

    def test_the_arrows_lead_to_all_that_comes_after(self):
        """By the arrows a step comes after another if and only if it has to."""
        for lines in (
            CAUSES,
            ["step 1 all", "step 2 all", "step 3", "step 4", "step 5 all after 4", "step 6 all after 3", "step 7"],
            ["step 1", "step 2", "step 3 after 1 2", "step 4 all after 1", "step 5 after 1", "step 6 after 5"],
            ["step 1", "step 2"],
            [],
        ):
            causes = causes_of(lines)
            drawn_after = closed({(earlier, later) for earlier, later, _ in edges(causes)})
            numbers = range(1, len(causes) + 1)
            pairs = [(i, j) for j in numbers for i in range(1, j)]
            leave = [step.leaves for step in causes]
            must = {(i, j) for i, j in pairs if i in causes[j - 1].after or leave[i - 1] or leave[j - 1]}
            with self.subTest(lines=lines):
                self.assertEqual(drawn_after, closed(must))

    def test_what_are_no_lines_of_causes(self):
        for line in ("step 2", "step 1 after 1", "step 1 after", "step 1 after  1", "step 01", "refused 1 Line", ""):
            with self.subTest(line=line), self.assertRaises(CannotRun):
                causes_of([line])

    @unittest.skipUnless(shutil.which("dot"), "dot is not installed")
    def test_the_picture(self):
        done = subprocess.run(["dot", "-Tsvg"], input=PICTURE, capture_output=True, text=True, check=False)
        self.assertEqual((done.returncode, done.stderr), (0, ""))
        self.assertEqual(done.stdout.count('class="node"'), 6)


def closed(pairs):
    """The pairs, and those that follow from one after another."""
    found = set(pairs)
    while True:
        more = {(i, k) for i, j in found for other, k in found if j == other} - found
        if not more:
            return found
        found |= more


class Stand(unittest.TestCase):
    """The options, with a program that says what stands here."""

    def setUp(self):
        folder = tempfile.TemporaryDirectory()
        self.addCleanup(folder.cleanup)
        self.program = os.path.join(folder.name, "program")

    def said(self, cause, *words):
        """The answer of the script, where the program answers `cause` with these shell words."""
        with open(self.program, "w", encoding="utf-8") as file:
            check = f"exec {os.environ['CEPTRE']} \"$@\""
            file.write(f"#!/bin/sh\ncase $1 in check) {check} ;; cause) {cause} ;; esac\n")
        os.chmod(self.program, 0o755)
        return tool("follow", "worlds/apple.cep", "worlds/apple.log", *words, CEPTRE=self.program)

    def test_the_causes_of_a_step(self):
        cause = "echo step 1; echo step 2 after 1"
        told = "step 2: eat P=ben\n  rests on step 1: sell P=ann Q=ben\n"
        told += "step 1: sell P=ann Q=ben\n  rests on the start alone\n"
        self.assertEqual(self.said(cause, "--causes", "2"), (0, told, ""))
        status, picture, errors = self.said(cause, "--dot")
        self.assertEqual((status, errors), (0, ""))
        self.assertIn("\n  1 -> 2;\n", picture)
        for number in ("0", "3", "-1"):
            answer = self.said(cause, "--causes", number)
            self.assertEqual(answer, (1, "", "worlds/apple.log: it has the steps 1 to 2\n"))

    def test_what_cannot_be_asked(self):
        for cause, said in [
            ("echo usage: play; exit 2", "follow: this program has no command `cause`\n"),
            ("echo cannot read program; exit 7", "follow: cannot read program\n"),
            ("exit 8", "follow: the program ended with status 8\n"),
            ("exit 9", "follow: out of memory\n"),
            ("echo step 2", "follow: line 1 of what `cause` writes says no causes of step 1: step 2\n"),
            ("echo step 1", "follow: `cause` tells 1 of 2 steps\n"),
        ]:
            with self.subTest(cause=cause):
                self.assertEqual(self.said(cause, "--dot"), (3, "", said))
        self.assertEqual(self.said("", "--dot", "--at", "1")[0], 2)

    def test_a_transcript_that_was_cut_has_none(self):
        with tempfile.NamedTemporaryFile("w", suffix=".log") as log:
            log.write(read(WORLDS, "apple.log").split("end ")[0])
            log.flush()
            status, output, errors = called("follow", "worlds/apple.cep", log.name, "--causes", "1")
        self.assertEqual((status, output), (1, ""))
        self.assertIn("NotEnded", errors)


class Causes(unittest.TestCase):
    def setUp(self):
        if "cause" not in usage():
            self.skipTest("the command `cause` is missing here")

    def test_each_world(self):
        for name in world_names():
            with self.subTest(world=name):
                words = (f"worlds/{name}.cep", f"worlds/{name}.log")
                steps = read(WORLDS, name + ".log").count("\nstep ")
                status, output, errors = called("follow", *words, "--causes", str(steps))
                self.assertEqual((status, errors), (0, ""))
                self.assertTrue(output.startswith(f"step {steps}: "))
                status, picture, errors = called("follow", *words, "--dot")
                self.assertEqual((status, errors), (0, ""))
                self.assertEqual(len(re.findall(r"^  \d+ \[label=", picture, re.MULTILINE)), steps)

    def test_a_step_rests_on_what_made_its_things(self):
        _, output, _ = called("follow", "worlds/apple.cep", "worlds/apple.log", "--causes", "2")
        self.assertTrue(output.startswith("step 2: eat P=ben\n  rests on step 1: sell P=ann Q=ben\n"))


if __name__ == "__main__":
    unittest.main()
