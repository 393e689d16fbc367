"""The player's table: choices by number and by words, its commands, pages, prose, and its transcripts."""

import os
import pty
import select
import signal
import subprocess
import tempfile
import time
import unittest

from setting import TOOLS, TOP, WORLDS, read, typed_and_words, world_names
from ceptre_tools.play.prose import Prose
from ceptre_tools.text import read_text
from ceptre_tools.world import read_world

PLAYER = os.path.join(TOOLS, "player")
APPLE = "worlds/apple.cep"
WITH_PROSE, WITH_SOME_PROSE = ("castle", "dungeon", "market"), ("hands",)

# A world with forty offers.
MANY = (
    "t : type. "
    + " ".join(f"t{i} : t." for i in range(1, 41))
    + " p t : pred. q : pred.\nstage main = { pick/up : p X -o q. }\n#interactive main.\n#trace _ main { "
    + ", ".join(f"p t{i}" for i in range(1, 41))
    + " }.\n"
)


class Player(unittest.TestCase):
    def setUp(self):
        folder = tempfile.TemporaryDirectory()
        self.addCleanup(folder.cleanup)
        self.folder = folder.name

    def path(self, name, text=None):
        path = os.path.join(self.folder, name)
        if text is not None:
            with open(path, "w", encoding="utf-8") as file:
                file.write(text)
        return path

    def play(self, typed, *words, world=APPLE):
        """What the table shows where these lines are typed."""
        command = [PLAYER, world, *words]
        done = subprocess.run(command, input=typed, cwd=TOP, capture_output=True, text=True, check=False)
        self.assertEqual((done.returncode, done.stderr), (0, ""))
        return done.stdout

    def checked(self, world, log):
        done = subprocess.run([os.environ["CEPTRE"], "check", world, log], cwd=TOP, stdout=subprocess.PIPE, check=False)
        return done.stdout.decode()


class Choices(Player):
    def test_the_transcript_is_the_programs_own(self):
        """Each world that is played by its file of choices gives its own transcript, byte for byte."""
        for name in ("apple", "tictactoe", "lock", "vending"):
            with self.subTest(world=name):
                typed, words = typed_and_words(name)
                log = self.path("x.log")
                world = os.path.join(WORLDS, name + ".cep")
                self.play(read(typed) if typed != os.devnull else "", *words, "--log", log, world=world)
                self.assertEqual(read(log), read(WORLDS, name + ".log"))

    def test_numbers_with_blanks_and_words(self):
        shown = self.play("  2 \n")
        self.assertIn("> eat  ann\n", shown)
        self.assertIn("> sell  ann, ben\n", self.play("SELL\n"))
        self.assertIn("There are the offers 1 to 2", self.play("3\n"))
        self.assertIn("No offer has these words", self.play("fly\n"))
        self.assertIn("   1  sell  ann, ben\n   2  eat  ann\n", self.play("ann\n").split("> ")[1])

    def test_undo(self):
        log = self.path("x.log")
        shown = self.play("sell\nundo\nsell\nsell\nundo 9\nundo\n2\n", "--log", log)
        self.assertIn("Nothing was chosen yet.", shown)
        self.assertEqual(self.checked(APPLE, log), "accepted 1\n")
        self.assertIn("\nstep eat P=ann\n", read(log))

    def test_save_and_load(self):
        saved, log = self.path("a save"), self.path("x.log")
        self.assertIn("Saved: 2 choices", self.play(f"1\n1\nsave {saved}\n"))
        self.assertRegex(read(saved), r"^saved game of apple.cep, world [0-9a-f]{16}, seed 42\n1\n1\n$")
        self.play("history\n", "--load", saved, "--log", log)
        self.assertEqual(self.checked(APPLE, log), "accepted 2\n")
        self.assertIn("there is no file", self.play(f"load {saved}s\n"))
        self.path("bad", "1\nx\n")
        self.assertIn("it has other lines", self.play(f"load {self.path('bad')}\n"))
        self.path("long", "2\n2\n1\n1\n")
        self.assertIn("Only 1 of 4 choices", self.play(f"load {self.path('long')}\n"))

    def test_from_a_transcript(self):
        begun, log = self.path("begun.log"), self.path("x.log")
        self.play("1\n", "--log", begun)
        shown = self.play("history\nundo\n1\n2\n", "--from", begun, "--log", log)
        self.assertIn("   1  sell  ann, ben\n", shown.split("> ")[1])
        self.assertEqual(read(log), read(WORLDS, "apple.log"))
        saved = self.path("saved")
        self.play(f"save {saved}\n2\n", "--from", begun, "--log", begun)
        self.assertEqual((read(begun), read(saved).split("\n", 1)[1]), (read(log), "1\n"))

    def test_from_a_transcript_of_a_height_and_a_seed(self):
        for name, words in [("dungeon", []), ("tictactoe", ["seed=9"])]:
            log, world = self.path("x.log"), os.path.join(WORLDS, name + ".cep")
            self.play("", *words, "--from", os.path.join(WORLDS, name + ".log"), "--log", log, world=world)
            own, other = ([li for li in read(*path).splitlines() if li[:1] != "?"] for path in ((log,), (WORLDS, name + ".log")))
            self.assertEqual(own, other)

    def test_a_transcript_that_cannot_be_done_again(self):
        begun = self.path("begun.log", read(WORLDS, "apple.log").replace("step eat P=ben", "step eat P=ann"))
        log, castle = self.path("x.log", "kept"), os.path.join(WORLDS, "castle")
        for words, said in [
            ([APPLE, "--from", begun], f"{begun}: step 2: refused 13 NotContained have 0 need 1 apple ann"),
            ([APPLE, "--from", "README.md"], "README.md: step 0: refused 1 Line"),
            ([castle + ".cep", "height=1", "--from", castle + ".log"], "and the run ends there by quiet"),
            ([APPLE, "--from", "none.log"], "there is no file none.log"),
        ]:
            with self.subTest(words=words):
                command = [PLAYER, *words, "--log", log]
                done = subprocess.run(command, cwd=TOP, input="", capture_output=True, text=True, check=False)
                self.assertEqual((done.returncode, done.stdout), (3, ""))
                self.assertIn(said, done.stderr)
                self.assertEqual((done.stderr.count("\n"), read(log)), (1, "kept"))

    def test_state_history_and_help(self):
        shown = self.play("1\nstate\nstate coin\nhistory\nhelp\nagain\nall\nquit\n1\n").split("> ")
        self.assertEqual(shown[2], "[market]\n  apple ben\n  coin ann\n")
        self.assertEqual(shown[3], "[market]\n  coin ann\n")
        self.assertEqual(shown[4], "   1  sell  ann, ben\n")
        self.assertIn("undo [N]", shown[5])
        self.assertTrue(shown[6].startswith("[market]\n  apple ben\n"))
        self.assertEqual(len(shown), 9)

    def test_pages_and_filters(self):
        world = self.path("w.cep", MANY)
        shown = self.play("\n\n\nt1\nt1\nt30\n", "--rows", "15", world=world).split("> ")
        self.assertIn("  15  pick up  t15\n(1 to 15 of 40 offers; Enter", shown[0])
        self.assertTrue(shown[1].startswith("  16  pick up  t16\n"))
        self.assertTrue(shown[2].startswith("  31  ") and shown[3].startswith("   1  "))
        self.assertIn("  19  pick up  t19\n(11 of 40 offers; `all` shows the others)\n", shown[4])
        self.assertIn("pick up  t30\n", shown[6])

    def test_plain(self):
        self.assertIn("   1  sell P=ann Q=ben\n", self.play("state\n", "--plain"))


class Prosaic(Player):
    def test_three_worlds_have_prose_for_all_of_their_rules(self):
        for name in world_names():
            text = read_text(os.path.join(WORLDS, name + ".cep"))
            world = read_world(text)
            prose = Prose.of(text, world)
            self.assertEqual(prose.faults, [])
            if name in WITH_PROSE:
                self.assertEqual(sorted(prose.rules), sorted(world.rules))
            elif name in WITH_SOME_PROSE:
                self.assertLess(set(prose.rules), set(world.rules))
                self.assertTrue(prose.rules)
            else:
                self.assertEqual(prose.rules, {})

    def test_a_game_in_prose(self):
        shown = self.play("1\nslip stairs\nstate you\n", "height=12", world="worlds/castle.cep").split("> ")
        self.assertIn("Night lies over the castle.", shown[0])
        self.assertTrue(shown[1].startswith("You slip into the great hall.\n   1  Slip into the garden\n"))
        self.assertTrue(shown[2].startswith("You slip into the winding stairs.\n"))
        self.assertEqual(shown[3], "[night]\n  You are in the winding stairs\n")

    def test_chains_numbers_and_stages(self):
        text = (
            "n : type. z : n. s n : n. c n n : pred.\n"
            "stage one = { up : c X Y -o c (s X) Y. } stage two = {}\n"
            '  qui * stage one * c A B -o stage two * c A B. %: qui/1 "done {_1} {#A}"\n'
            '%: up "from {X} to {#Y}" "up"\n%: stage two "two comes"\n%: end quiet "over"\n%: c "{#1} and {2}"\n'
            '%: z "nothing"\n%: gone "x"\n%: up x\n'
        )
        world = read_world("n : type. z : n. s n : n. c n n : pred. stage one = {}")
        world.rules = read_world(text).rules
        prose = Prose.of(text, world)
        faults = ["3: the rule qui/1 has no variable _1", "9: the world has no rule, thing or predicate gone"]
        self.assertEqual([f"{fault.line}: {fault.said}" for fault in prose.faults], faults + ['10: it is no %: NAME "TEXT"'])
        self.assertEqual(prose.told("up X=(s (s z)) Y=(s z)"), "From s (s nothing) to 1")
        self.assertEqual(prose.offered("up X=z Y=z"), "Up")
        self.assertEqual(prose.atom("c (s (s z)) z", 3), "2 and nothing (x3)")
        self.assertEqual((prose.stages, prose.ends), ({"two": "two comes"}, {"quiet": "over"}))

    def test_a_template_that_does_not_fit_is_told(self):
        world = self.path("w.cep", MANY + '%: pick/up "{Y}"\n')
        done = subprocess.run([PLAYER, world], input="", capture_output=True, text=True, check=False)
        self.assertEqual(done.stderr, f"player: {world}:5: the rule pick/up has no variable Y\n")


# Offers whose own words are those of commands, one that hides a thing, and two that read the same.
WORDS = """\
a : type. torn/letter : a. box : a.
here a : pred. b : pred. odd : pred.
stage main = {
  save : here X -o b.       %: save "You save it." "Save the princess"
  go : here X -o b.         %: go "You go." "Exit the house"
  smoke : $here X * b -o b. %: smoke "You stop." "Quit smoking"
  look : $odd -o ().        %: look "" "Open the well-known box"
}
#interactive main.
#trace _ main { here torn/letter, here box, odd }.
"""


class Trial(Player):
    """What people met who tried it."""

    def test_an_offers_own_words_win(self):
        world = self.path("w.cep", WORDS)
        shown = self.play("save torn\n", world=world)
        self.assertNotIn("Saved", shown)
        saved = self.path("princess")
        self.play("exit the house box\n", world=world)
        self.assertIn("(2 of 5 offers;", self.play("exit the house\n", world=world))
        self.assertIn("Saved: 0", self.play(f":save {saved}\n", world=world))
        self.assertEqual(self.play(":quit\n1\n", world=world).count("> "), 1)

    def test_words_are_beginnings_of_what_is_shown(self):
        world = self.path("w.cep", WORDS)
        self.assertIn("No offer has these words", self.play("no\n", world=world))
        alone = self.path("alone.cep", WORDS.replace("here box, ", ""))
        self.assertIn("No offer has these words", self.play("letter\n", world=alone))
        narrowed = "   5  Open the well-known box\n(1 of 5 offers; `all` shows the others)\n"
        self.assertEqual(self.play("op\n", world=world).split("> ")[1:], [narrowed, "\n"])

    def test_an_empty_template_is_silent(self):
        shown = self.play("open\n", world=self.path("w.cep", WORDS))
        self.assertTrue(shown.split("> ")[1].startswith("   1  "), shown)

    def test_offers_that_read_the_same_are_told_apart(self):
        shown = self.play("", world=self.path("w.cep", WORDS))
        self.assertIn("Save the princess [torn letter]\n", shown)
        self.assertIn("Save the princess [box]\n", shown)

    def test_what_is_no_saved_game_is_kept(self):
        world = self.path("kept.cep", MANY)
        self.assertIn("it is no saved game, and is kept", self.play(f"save {world}\n"))
        self.assertEqual(read(world), MANY)
        saved = self.path("game")
        self.play(f"1\nsave {saved}\n")
        self.assertIn("it was saved in another world, apple.cep", self.play(f"load {saved}\n", world=world))
        self.assertIn("It was saved with seed=42, and this is seed=7.", self.play(f"load {saved}\n", "seed=7"))
        self.assertIn("Saved: 0 choices", self.play(f"save {saved}\n"))

    def test_undo_shows_the_last_step_alone(self):
        world = self.path("w.cep", MANY)
        shown = self.play("1\n" * 20 + "undo\n", "--rows", "1", world=world).split("> ")
        self.assertEqual(shown[21].count("pick up"), 2)

    def test_a_transcript_is_written_as_it_goes_and_goes_on_when_it_was_cut(self):
        log = self.path("x.log")
        command = [PLAYER, APPLE, "--log", log]
        with subprocess.Popen(command, cwd=TOP, stdin=subprocess.PIPE, stdout=subprocess.PIPE) as player:
            player.stdin.write(b"1\n")
            player.stdin.flush()
            self.assertTrue(any(b"> sell" in line for line in player.stdout))
            player.stdout.readline()
            player.kill()
        self.assertIn("\nstep sell P=ann Q=ben\n", read(log))
        self.assertIn("   1  sell  ann, ben\n", self.play("history\n", "--from", log))

    def test_out_of_memory(self):
        program = self.path("program", f"""#!/bin/sh
[ "$1" = play ] || exec {os.environ['CEPTRE']} "$@"
if [ -e "$0.full" ]; then exit 9; fi
printf 'ceptre 2\\nheight 128\\nstage market\\n? 1 eat P=ann\\n? choose\\n'; read x; [ "$x" ] && exit 9
""")
        os.chmod(program, 0o755)
        environment = {**os.environ, "CEPTRE": program}
        done = subprocess.run([PLAYER, APPLE], cwd=TOP, input="1\n", capture_output=True, text=True, env=environment, check=False)
        self.assertIn("Out of memory: that choice is undone.", done.stdout)
        self.path("program.full", "")
        done = subprocess.run([PLAYER, APPLE], cwd=TOP, input="1\n", capture_output=True, text=True, env=environment, check=False)
        self.assertEqual((done.returncode, done.stderr), (3, "player: out of memory\n"))

    def test_quotation_marks_and_names_that_two_things_have(self):
        text = (
            "a : type. x : a. lie a : pred. up : pred. down : pred.\n"
            "stage main = { lie : lie X -o up. }\n"
            '%: rule lie "He says \\\\"no\\\\", a \\\\\\\\."\n%: atom lie "{1} lies"\n%: rule down ""\n%: start "S \\\\"."\n'
        ).replace("\\\\", "\\")
        prose = Prose.of(text, read_world(text))
        self.assertEqual(prose.told("lie X=x"), 'He says "no", a \\.')
        self.assertEqual((prose.atom("lie x", 1), prose.start), ("X lies", 'S ".'))
        self.assertEqual([fault.said for fault in prose.faults], ["the world has no rule down"])

    def test_leaving_asks_if_choices_would_be_lost(self):
        terminal = Terminal("until")
        child, line = pty.fork()
        if child == 0:
            os.chdir(TOP)
            os.execv(PLAYER, [PLAYER, APPLE])
        terminal.until(line, b"> ")
        for typed, prompt in ((b"1\n", b"> "), (b"quit\n", b"(y/n) "), (b"n\n", b"> "), (b"quit\n", b"(y/n) ")):
            os.write(line, typed)
            self.assertTrue(terminal.until(line, prompt).endswith(prompt), typed)
        os.write(line, b"y\n")
        terminal.until(line, None)
        self.assertEqual(os.waitpid(child, 0)[1], 0)
        os.close(line)


class Terminal(Player):
    def test_ctrl_c_keeps_the_game(self):
        """On a terminal: Ctrl-C drops the line, the game goes on, and the transcript is whole."""
        log = self.path("x.log")
        child, terminal = pty.fork()
        if child == 0:
            os.chdir(TOP)
            os.execv(PLAYER, [PLAYER, APPLE, "--log", log])
        shown = self.until(terminal, b"> ")
        os.write(terminal, b"1\n")
        shown += self.until(terminal, b"> ")
        self.assertIn(b"leaves the game", self.interrupted(terminal))
        os.write(terminal, b"2\n")
        self.assertIn(b"The game has ended: quiet", self.until(terminal, b"> "))
        os.write(terminal, b"undo\n")
        self.until(terminal, b"> ")
        os.write(terminal, b"\x04")
        self.until(terminal, None)
        self.assertEqual(os.waitpid(child, 0)[1], 0)
        os.close(terminal)
        self.assertEqual(self.checked(APPLE, log), "accepted 1\n")

    def interrupted(self, terminal):
        """What comes after Ctrl-C, which is typed again where readline shows its prompt and does not wait yet."""
        for _ in range(6):
            time.sleep(0.2)
            os.write(terminal, b"un\x03")
            said = self.until(terminal, b"> ", 10)
            if b"leaves the game" in said:
                return said
        return b""

    def until(self, terminal, prompt, seconds=60):
        """What comes from the terminal up to a prompt, or up to the end, within so many seconds."""
        said, last = b"", time.monotonic() + seconds
        while time.monotonic() < last and not (prompt and said.endswith(prompt)):
            if not select.select([terminal], [], [], 1)[0]:
                continue
            try:
                part = os.read(terminal, 4096)
            except OSError:
                break
            if not part:
                break
            said += part.replace(b"\x1b[?2004h", b"").replace(b"\x1b[?2004l", b"")
        return said

    def test_a_signal_keeps_the_transcript(self):
        log = self.path("x.log")
        command = [PLAYER, APPLE, "--log", log]
        with subprocess.Popen(command, cwd=TOP, stdin=subprocess.PIPE, stdout=subprocess.PIPE) as player:
            player.stdin.write(b"1\n")
            player.stdin.flush()
            self.assertTrue(any(b"> sell" in line for line in player.stdout))
            player.send_signal(signal.SIGTERM)
            self.assertEqual(player.wait(), 0)
        self.assertEqual(self.checked(APPLE, log), "accepted 1\n")

    def test_a_pipe_that_closes_keeps_the_transcript(self):
        log = self.path("x.log")
        script = f"yes 1 | head -2 | {PLAYER} {APPLE} --log {log} | true; echo ${{PIPESTATUS[2]}}"
        done = subprocess.run(["bash", "-c", script], cwd=TOP, capture_output=True, text=True, check=False)
        self.assertEqual((done.stdout, done.stderr), ("0\n", ""))
        self.assertTrue(self.checked(APPLE, log).startswith("accepted "))

    def test_what_cannot_be_played(self):
        for words, status in [
            (["README.md"], 3),
            (["worlds/none.cep"], 3),
            ([APPLE, "seed=x"], 3),
            ([APPLE, "--load", "worlds/none.in"], 3),
            ([APPLE, "--load", "worlds/apple.in", "--from", "worlds/apple.log"], 2),
            ([], 2),
            (["--help"], 0),
        ]:
            with self.subTest(words=words):
                done = subprocess.run([PLAYER, *words], cwd=TOP, capture_output=True, text=True, check=False)
                self.assertEqual(done.returncode, status, done.stderr)
                self.assertNotIn("Traceback", done.stderr)


if __name__ == "__main__":
    unittest.main()
