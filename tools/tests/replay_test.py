"""A transcript becomes what a player would type, which gives a transcript of the same steps."""

import os
import subprocess
import tempfile
import unittest

from setting import HUNDRED, ROUNDS, TOOLS, TOP, WORLDS, called, read, tool, typed_and_words, world_names
from ceptre_tools.play.replay import Differs, again, step_at

APPLE, NIM, WALK = ("worlds/apple.cep", "worlds/nim.cep", "worlds/walk.cep")

# Two steps of the seed in each round, and then a choice; nothing is left when all are done.
ROUND = """\
a : pred. b : pred. c : pred. left : pred. up : pred.
stage seeds = { one : a -o b. other : a -o c. }
stage yours = { take : b -o left. keep : c -o up. }
over : qui * stage seeds -o stage yours.
#interactive yours.
#trace _ seeds { a, a }.
"""


# A choice between two, of which one is derived by two levels.
HEIGHTS = """\
t : type. a : t. b : t.
p t : bwd. p a. p b <- p a.
q : pred. r t : pred.
stage m = { s : q * p X -o r X. }
#interactive m. #trace _ m { q }.
"""


def record(text):
    """What a transcript records, without the conversation."""
    return "".join(line for line in text.splitlines(True) if not line.startswith("?"))


def played(world, *words, typed=""):
    """The transcript that the program writes."""
    command = [os.environ["CEPTRE"], "play", world, *words]
    done = subprocess.run(command, cwd=TOP, input=typed, stdout=subprocess.PIPE, text=True, check=False)
    return done.stdout


def given(words):
    """The options of a world as those of the script."""
    found = dict(word.split("=") for word in words)
    found.pop("height", None)
    return [part for name, value in found.items() for part in (f"--{name}", value)]


class Folder(unittest.TestCase):
    def setUp(self):
        folder = tempfile.TemporaryDirectory()
        self.addCleanup(folder.cleanup)
        self.folder = folder.name

    def written(self, text, name="x.log"):
        path = os.path.join(self.folder, name)
        with open(path, "w", encoding="utf-8", newline="") as file:
            file.write(text)
        return path

    def refused(self, said, *words):
        """That the script says this of the transcript in one line, and writes nothing else."""
        status, output, errors = called("replay", *words)
        self.assertEqual((status, output), (1, ""))
        self.assertEqual(errors, f"replay: {words[1]}: {said}\n")


class Worlds(Folder):
    def test_each_world_is_played_again_from_its_transcripts(self):
        """What is typed gives the same record, byte for byte, and of version 1 the same is typed."""
        for name in world_names():
            world, text = f"worlds/{name}.cep", read(WORLDS, f"{name}.log")
            # What several did in rounds can be done by one player too.
            words = [word for word in typed_and_words(name)[1] if not word.startswith("players=")]
            first = f"worlds/version-1/{name}.log"
            height = text.split("\n")[1].replace(" ", "=")
            with self.subTest(world=name):
                status, typed, errors = called("replay", world, f"worlds/{name}.log", *given(words))
                self.assertEqual((status, errors), (0, ""))
                words = [height] + [word for word in words if not word.startswith("height=")]
                self.assertEqual(record(played(world, *words, typed=typed)), record(text))
                if os.path.exists(os.path.join(TOP, first)):
                    self.assertEqual(called("replay", world, first, *given(words)), (0, typed, ""))

    def test_what_is_typed_is_what_was_typed(self):
        for name in ("apple", "nim", "hanoi"):
            typed = called("replay", f"worlds/{name}.cep", f"worlds/{name}.log")[1]
            self.assertEqual(typed, read(WORLDS, f"{name}.in"))

    def test_the_words(self):
        log = "worlds/tictactoe.log"
        answer = called("replay", "worlds/tictactoe.cep", log, "--seed", "9", "--turns", "99", "--words")
        self.assertEqual(answer, (0, "height=128 seed=9 turns=99\n", ""))
        answer = called("replay", "worlds/dungeon.cep", "worlds/dungeon.log", "--words")
        self.assertEqual(answer, (0, "height=12\n", ""))
        self.assertEqual(called("replay", APPLE, "worlds/apple.log", "--typed"), (0, "1\n2\n", ""))
        self.assertEqual(called("replay", APPLE, "worlds/apple.log", "--typed", "--words")[0], 2)


class Texts(Folder):
    """What else a transcript may look like."""

    def test_the_conversation_says_nothing(self):
        text = read(WORLDS, "apple.log")
        for other in (
            record(text),
            text.replace("? choose\n", "? choose\n? no\n? 9 step eat P=ann\n"),
            text.replace("\n", "\r\n"),
            text.removesuffix("\n"),
            "? step eat P=ann\n" + text,
        ):
            with self.subTest(text=other[:40]):
                self.assertEqual(called("replay", APPLE, self.written(other)), (0, "1\n2\n", ""))

    def test_other_derivations(self):
        """A step has the same number whatever its `by` line says, as long as that is legal."""
        text = "t : type. a : t. p t : bwd. p a. p a. q : pred. r : pred.\nstage m = { s : q * p X -o r. }\n"
        world = self.written(text + "#interactive m. #trace _ m { q }.\n", "w.cep")
        log = played(world, typed="1\n")
        other = log.replace("by [1]", "by [2]")
        self.assertNotEqual(log, other)
        self.assertEqual(called("replay", world, self.written(other)), (0, "1\n", ""))

    def test_transcripts_without_steps(self):
        self.assertEqual(called("replay", APPLE, self.written(played(APPLE))), (0, "", ""))

    def test_a_hundred_steps_that_nobody_chooses(self):
        world, log = self.written(ROUNDS, "w.cep"), self.written(HUNDRED)
        self.assertEqual(called("replay", world, log, "--turns", "100"), (0, "", ""))
        self.refused("step 101: the transcript has none, and the run goes on by itself: r", world, log)
        why = "step 51: the transcript has r, and the run ends there by turns"
        self.refused(why, world, log, "--turns", "50")

    def test_a_transcript_that_claims_another_end(self):
        """All end words but `quiet` are claims, and what is typed does the same steps."""
        text = played(WALK, typed="1\n1\n")
        for word in ("turns", "offers", "typed", "atom", "state"):
            other = self.written(text.replace("end input", f"end {word}"))
            self.assertEqual(called("replay", WALK, other), (0, "1\n1\n", ""))


class Unasked(Folder):
    def test_a_way_out_that_is_done_unasked(self):
        """`handed` and `back` of nim are alone and leave their stages, and `takes/two` is the seed's."""
        steps = [line.split()[1] for line in read(WORLDS, "nim.log").splitlines() if line.startswith("step ")]
        self.assertEqual(steps[:4], ["take/two", "handed", "takes/two", "back"])
        self.assertEqual(called("replay", NIM, "worlds/nim.log")[1].count("\n"), steps.count("take/two"))

    def test_a_choice_among_several_ways_out(self):
        text = (
            "a : pred. b : pred. c : pred.\nstage m = { s : a -o b. } stage n = {} stage o = {}\n"
            "qui * stage m * b -o stage n.\nqui * stage m * b -o stage o * c.\n#interactive m. #trace _ m { a }.\n"
        )
        world = self.written(text, "w.cep")
        log = self.written(played(world, typed="1\n2\n"))
        self.assertEqual(called("replay", world, log), (0, "1\n2\n", ""))

    def test_a_seed_that_draws_another_step(self):
        world = self.written(ROUND, "w.cep")
        texts = {}
        for seed in range(12):
            texts.setdefault(record(played(world, f"seed={seed}", typed="1\n" * 2)), str(seed))
        self.assertGreater(len(texts), 1)
        for text, seed in texts.items():
            log = self.written(text)
            status, typed, errors = called("replay", world, log, "--seed", seed)
            self.assertEqual((status, errors), (0, ""))
            self.assertEqual(record(played(world, f"seed={seed}", typed=typed)), text)
            other = next(other for other in texts.values() if other != seed)
            status, output, errors = called("replay", world, log, "--seed", other)
            self.assertEqual((status, output), (1, ""))
            said = "the transcript has (one|other), and by this seed the run does (one|other)"
            self.assertRegex(errors, rf"^replay: {log}: step [12]: {said}\n$")


class Refused(Folder):
    def test_what_check_refuses_is_told_with_its_step(self):
        text = read(WORLDS, "apple.log")
        missing = "NotContained have 0 need 1 apple"
        for other, said in [
            (text.replace("eat P=ben\ne", "eat P=ann\ne"), f"step 2: refused 13 {missing} ann"),
            (text.replace("step sell P=ann Q=ben", "step sell P=ben Q=ann"), f"step 1: refused 9 {missing} ben"),
            (text.replace("step eat P=ben", "step fly"), "step 2: refused 13 NoRule"),
            (text.replace("have 1 apple", "have 2 apple"), "step 0: refused 3 StartState said 2 is 1 apple ann"),
            (text[: text.index("end ")], "step 2: refused 14 NotEnded"),
            (text.replace("have 1 full", "have 2 full"), "step 2: refused 14 EndState said 2 is 1 full ben"),
            ("", "step 0: refused 1 Line"),
            (text.replace("\n", "\r"), "step 0: refused 1 Line"),
        ]:
            with self.subTest(said=said):
                self.refused(said, APPLE, self.written(other))

    def test_what_is_no_transcript(self):
        self.refused("step 0: refused 1 Line", APPLE, "README.md")
        self.refused("step 0: refused 3 Line", APPLE, "worlds/nim.log")

    def test_a_step_that_is_not_offered(self):
        """A legal step is offered at the transcript's height, so a lower one is asked of."""
        world = self.written(HEIGHTS, "w.cep")
        log = self.written(played(world, typed="2\n"))
        self.assertEqual(called("replay", world, log), (0, "2\n", ""))
        with self.assertRaises(Differs) as caught:
            again([world, "height=1"], log)
        said = f"{log}: step 1: the transcript has s X=b, and the run does not offer it"
        self.assertEqual(str(caught.exception), said)

    def test_the_step_of_a_line(self):
        text = read(WORLDS, "apple.log")
        self.assertEqual([step_at(text, line) for line in (0, 1, 8, 9, 10, 13, 99)], [0, 0, 0, 1, 1, 2, 2])


class Outside(Folder):
    def test_what_cannot_be_read_or_run(self):
        log = "worlds/apple.log"
        self.assertEqual(called("replay", "README.md", log)[:2], (3, ""))
        self.assertEqual(called("replay", "worlds/none.cep", log)[:2], (3, ""))
        self.assertEqual(called("replay", APPLE, "worlds/none.log")[:2], (3, ""))
        self.assertEqual(called("replay", APPLE, log, "--turns", "0")[:2], (3, ""))
        self.assertEqual(tool("replay", APPLE, log, CEPTRE="/bin/false")[:2], (3, ""))
        self.assertEqual(tool("replay", APPLE, log, CEPTRE="/none")[:2], (3, ""))
        self.assertEqual(called("replay", APPLE)[0], 2)
        self.assertEqual(called("replay", APPLE, log, "--seed", "x")[0], 2)
        self.assertEqual(called("replay", "--help")[0], 0)

    def test_a_program_that_stops(self):
        """A program that accepts the transcript and then ends in the middle."""
        program = self.written(
            "#!/bin/sh\ncase $1:$3 in\ncheck:/dev/null) echo refused 1 Line; exit 1 ;;\n"
            "check:*) echo accepted 2 ;;\nplay:*) echo ceptre 2 ;;\nesac\n",
            "program",
        )
        os.chmod(program, 0o755)
        status, output, errors = tool("replay", APPLE, "worlds/apple.log", CEPTRE=program)
        self.assertEqual((status, output, errors), (3, "", "replay: the program ended with status 0\n"))

    def test_pipes(self):
        for script, status in [
            (f"{TOOLS}/replay {APPLE} worlds/apple.log | true; exit ${{PIPESTATUS[0]}}", (0, 141)),
            (f"{TOOLS}/replay <(cat {APPLE}) <(cat worlds/apple.log) >/dev/null", (0,)),
            (f"{TOOLS}/replay {APPLE} worlds/apple.log >/dev/full", (3,)),
            (f"{TOOLS}/replay {APPLE} worlds/apple.log | $CEPTRE play {APPLE} | cmp - worlds/apple.log", (0,)),
        ]:
            with self.subTest(script=script):
                done = subprocess.run(["bash", "-c", script], cwd=TOP, capture_output=True, text=True, check=False)
                self.assertIn(done.returncode, status)
                self.assertEqual(done.stderr.count("\n"), int(done.returncode == 3), done.stderr)


if __name__ == "__main__":
    unittest.main()
