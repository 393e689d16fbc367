"""Tables of transcripts: accepted, refused and unread ones, what is asked of them, and the statuses."""

import csv
import io
import json
import os
import subprocess
import tempfile
import time
import unittest

from setting import HUNDRED, ROUNDS, TOOLS, TOP, WORLDS, called, read, tool
from ceptre_tools.explain.transcripts import LARGE, MENDS, TOO_LONG, likely
from ceptre_tools.grade.grading import cell, claims

COLUMNS = "file,verdict,line,cause,likely,text,steps,height,end,same"
HEAD = COLUMNS + ",unmet\n"
CASTLE = "worlds/castle.cep"
CASTLE_LOG = "worlds/castle.log"

# A world in which the seed chooses eight times.
DRAWN = """\
a : pred. b : pred. c : pred.
stage main = { r : a -o b. s : a -o c. }
#trace _ main { a, a, a, a, a, a, a, a }.
"""


class Folder(unittest.TestCase):
    """A test with a folder of its own, in which it writes files."""

    def setUp(self):
        folder = tempfile.TemporaryDirectory()
        self.addCleanup(folder.cleanup)
        self.folder = folder.name

    def written(self, text, name="x.log"):
        """A file with this text, given as characters or as bytes."""
        path = os.path.join(self.folder, name)
        with open(path, "wb") as file:
            file.write(text if isinstance(text, bytes) else text.encode("utf-8"))
        return path


def rows(output):
    return list(csv.DictReader(io.StringIO(output)))


class Verdicts(Folder):
    def test_all_are_accepted(self):
        row = "worlds/castle.log,accepted,,,,,11,128,quiet,,\n"
        self.assertEqual(called("grade", CASTLE, CASTLE_LOG), (0, HEAD + row, ""))

    def test_some_are_refused(self):
        log = read(WORLDS, "castle.log")
        other = self.written(log.replace("step take R=tower", "step take R=cellar"))
        status, output, _ = called("grade", CASTLE, CASTLE_LOG, other, "--goal", "rich")
        self.assertEqual(status, 1)
        cause = "NotContained have 0 need 1 thief cellar"
        row = f"{other},refused,26,{cause},,step take R=cellar,,128,quiet,,no,0,\n"
        head = COLUMNS + ",rich,points,unmet\n"
        self.assertEqual(output, f"{head}{CASTLE_LOG},accepted,,,,,11,128,quiet,,yes,1,\n" + row)

    def test_what_is_behind_the_last_line_has_no_text(self):
        log = read(WORLDS, "castle.log")
        front = self.written(log[: log.index("end quiet")])
        _, output, _ = called("grade", CASTLE, front)
        lines = front, log[: log.index("end quiet")].count("\n") + 1
        self.assertEqual(output, HEAD + "%s,refused,%d,NotEnded,cut before its end,,,128,,,\n" % lines)

    def test_states_in_the_middle(self):
        world = self.written(ROUNDS, "w.cep")
        log, other = self.written(HUNDRED), HUNDRED.replace("100\nhave 1", "100\nhave 2")
        other = self.written(other, "y.log")
        table = f"{log},accepted,,,,,100,128,turns,,\n"
        table += f"{other},refused,205,MidState said 2 is 1 a,,state 100,,128,turns,,\n"
        self.assertEqual(called("grade", world, log, other), (1, HEAD + table, ""))

    def test_what_is_not_read(self):
        status, output, _ = called("grade", CASTLE, "worlds/none.log", CASTLE_LOG)
        self.assertEqual(status, 3)
        self.assertIn("worlds/none.log,unread,,No such file or directory,,,,,,,\n", output)
        self.assertIn("worlds/castle.log,accepted,,,,,11,128,quiet,,\n", output)

    def test_a_world_that_is_refused(self):
        status, output, errors = called("grade", "README.md", CASTLE_LOG)
        self.assertEqual((status, output), (3, ""))
        self.assertEqual(errors, "grade: README.md: refused 1:1 1 BadByte\n")

    def test_what_cannot_be_run(self):
        self.assertEqual(called("grade", "worlds/none.cep", CASTLE_LOG)[0], 3)
        self.assertEqual(tool("grade", CASTLE, CASTLE_LOG, CEPTRE="/bin/false")[0], 3)
        self.assertEqual(tool("grade", CASTLE, CASTLE_LOG, CEPTRE="/none")[0], 3)
        self.assertEqual(called("grade", CASTLE, self.folder)[0], 3)
        self.assertEqual(called("grade", CASTLE)[0], 2)

    def test_help(self):
        self.assertEqual(called("grade", "--help")[0], 0)


class Asked(Folder):
    def test_goals(self):
        for goal, answer, status in [
            ("rich", "yes", 0),
            ("have 1 rich", "yes", 0),
            ("have 2 rich", "no", 4),
            ("guard  (tower)", "yes", 0),
            ("guard hall", "no", 4),
        ]:
            with self.subTest(goal=goal):
                told, output, _ = called("grade", CASTLE, CASTLE_LOG, "--goal", goal)
                self.assertTrue(output.endswith(f",{answer},{int(answer == 'yes')},\n"), output)
                self.assertEqual(told, status)

    def test_several_goals_have_points(self):
        goals = ["--goal", "rich=5", "--goal", "guard hall = 3", "--goal", "guard tower"]
        status, output, _ = called("grade", CASTLE, CASTLE_LOG, *goals)
        row = rows(output)[0]
        found = [row[name] for name in ("rich", "guard hall", "guard tower", "points")]
        self.assertEqual((status, found), (4, ["yes", "no", "yes", "6"]))

    def test_a_goal_that_the_world_has_not(self):
        for goal, reason in [
            ("rihc", "the world has no goal `rihc`: Unknown"),
            ("guard", "the world has no goal `guard`: WrongArity"),
            ("guard night", "the world has no goal `guard night`: WrongKind"),
            ("way hall stairs", "the world has no goal `way hall stairs`: BwdInState"),
            ("guard X", "`guard X` is no atom, nor `have N ATOM`"),
            ("rich }. stage s = {", "`rich }. stage s = {` is no atom, nor `have N ATOM`"),
            ("have 0 rich", "the world has no goal `have 0 rich`"),
            ("", "`` is no atom, nor `have N ATOM`"),
        ]:
            with self.subTest(goal=goal):
                status, output, errors = called("grade", CASTLE, CASTLE_LOG, "--goal", goal)
                self.assertEqual((status, output), (2, ""))
                self.assertIn(reason.replace("the world has no goal `have 0 rich`", "is no atom"), errors)

    def test_height_and_end(self):
        status, output, _ = called("grade", CASTLE, CASTLE_LOG, "--height", "127", "--goal", "rich")
        self.assertEqual((status, rows(output)[0]["unmet"]), (4, "height 128 over 127"))
        self.assertEqual(rows(output)[0]["points"], "0")
        status, output, _ = called("grade", CASTLE, CASTLE_LOG, "--end", "turns")
        self.assertEqual((status, rows(output)[0]["unmet"]), (4, "end quiet and not turns"))
        self.assertEqual(called("grade", CASTLE, CASTLE_LOG, "--end", "quiet", "--height", "128")[0], 0)

    def test_what_was_typed_is_played_again(self):
        apple = ("worlds/apple.cep", "worlds/apple.log", "--typed")
        self.assertEqual(called("grade", *apple, "worlds/apple.in")[0], 0)
        self.assertEqual(called("grade", *apple, ".in")[0], 0)
        status, output, _ = called("grade", *apple, self.written("2\n", "other.in"))
        self.assertEqual(status, 4)
        unmet = "step 1: step sell P=ann Q=ben, and not step eat P=ann"
        self.assertEqual(rows(output)[0]["unmet"], unmet)
        self.assertEqual(called("grade", *apple, "worlds/none.in")[0], 3)

    def test_the_seed_and_the_turns_of_what_is_played_again(self):
        world = self.written(DRAWN, "w.cep")
        done = subprocess.run([os.environ["CEPTRE"], "play", world, "seed=9"], stdout=subprocess.PIPE, check=False)
        log = (world, self.written(done.stdout), "--typed", os.devnull)
        self.assertEqual(called("grade", *log)[0], 4)
        self.assertEqual(called("grade", *log, "--seed", "9")[0], 0)
        self.assertEqual(called("grade", *log, "--seed", "9", "--turns", "2")[0], 4)

    def test_a_folder_and_equal_transcripts(self):
        log = read(WORLDS, "castle.log")
        self.written(log, "b.log")
        os.mkdir(os.path.join(self.folder, "ann"))
        first = self.written("? hello\r\n" + log.replace("\n", "\r\n"), "ann/a.log")
        self.written("nothing\n", "notes.txt")
        status, output, _ = called("grade", CASTLE, self.folder)
        table = [(row["file"], row["same"]) for row in rows(output)]
        names = [first, os.path.join(self.folder, "b.log")]
        self.assertEqual((status, table), (0, [(names[0], ""), (names[1], names[0])]))

    def test_goals_with_blanks_and_without(self):
        goals = ["--goal", "guard _=2", "--goal", "none crown _=3", "--goal", "none rich"]
        status, output, _ = called("grade", CASTLE, CASTLE_LOG, *goals)
        row = rows(output)[0]
        self.assertEqual((status, row["guard _"], row["none crown _"], row["none rich"]), (4, "yes", "yes", "no"))

    def test_json(self):
        goals = ["--goal", "rich=5", "--goal", "guard hall=3", "--end", "quiet"]
        _, output, _ = called("grade", CASTLE, CASTLE_LOG, "--json", *goals)
        result = json.loads(output)
        self.assertEqual((result["score"], result["max_score"]), (5, 8))
        scores = [(t["name"], t["status"], t.get("score"), t.get("max_score")) for t in result["tests"]]
        wanted = [
            ("the transcript is accepted", "passed", None, None),
            ("it is as it was asked", "passed", None, None),
            ("goal rich", "passed", 5, 5),
            ("goal guard hall", "failed", 0, 3),
        ]
        self.assertEqual(scores, wanted)
        status, output, _ = called("grade", CASTLE, CASTLE_LOG, "worlds/walk.log", "--json")
        self.assertEqual((status, [r["output"] for r in json.loads(output)]), (1, ["accepted", "refused 3 Line"]))


class Strange(Folder):
    """What others hand in never breaks the table, the terminal or the script."""

    def row(self, text):
        output = called("grade", CASTLE, self.written(text))[1]
        self.assertEqual(len(rows(output)), 1, output)
        return rows(output)[0]

    def test_bare_carriage_returns(self):
        row = self.row(read(WORLDS, "castle.log").replace("\n", "\r"))
        self.assertEqual(row["likely"], "line ends of carriage returns alone")
        self.assertTrue(row["text"].startswith("ceptre 2\\x0dheight 128\\x0d"))

    def test_control_bytes(self):
        self.assertEqual(self.row("a\x1b[2J\x07\u009b\0")["text"], "a\\x1b[2J\\x07\\u009b\\x00")

    def test_the_height_is_that_of_its_line(self):
        self.assertEqual(self.row("ceptre 2\n=cmd()\n")["height"], "")
        self.assertEqual(self.row("ceptre 2\nheight 7x\n")["height"], "")
        self.assertEqual(self.row("ceptre 2\nheight 7\nend =cmd()\n")["end"], "")
        self.assertEqual(claims("ceptre 1\n? x\nheight 9\nend turns\n"), ("9", "turns"))
        self.assertEqual(claims(""), ("", ""))

    def test_a_formula(self):
        for text in ("=HYPERLINK(1)", "+1", "-1", "@a", "\tx"):
            self.assertEqual(self.row(text)["text"], "'" + text)

    def test_a_long_line(self):
        self.assertEqual(self.row("a" * 300_000)["text"], "a" * 198 + "..")
        self.assertEqual(len(cell("\u00e9".encode().decode("latin-1") * 300)), 200)

    def test_a_pipe(self):
        path = os.path.join(self.folder, "pipe.log")
        os.mkfifo(path)
        with subprocess.Popen(["cp", os.path.join(WORLDS, "castle.log"), path]) as writer:
            try:
                status, output, _ = called("grade", CASTLE, path)
            finally:
                writer.kill()  # If nobody read the pipe it would wait for ever.
        self.assertEqual((status, rows(output)[0]["verdict"]), (0, "accepted"))
        script = f"{TOOLS}/grade <(cat {CASTLE}) <(cat {CASTLE_LOG})"
        done = subprocess.run(["bash", "-c", script], cwd=TOP, stdout=subprocess.PIPE, check=False)
        self.assertEqual(done.returncode, 0)

    def test_a_pipe_that_closes(self):
        script = f"{TOOLS}/grade {CASTLE} {CASTLE_LOG} | true; echo ${{PIPESTATUS[0]}}"
        done = subprocess.run(["bash", "-c", script], cwd=TOP, capture_output=True, text=True, check=False)
        self.assertIn(done.stdout, ("141\n", "0\n"))
        self.assertEqual(done.stderr, "")

    @unittest.skipUnless(os.path.exists("/dev/full"), "/dev/full is missing here")
    def test_a_full_disk(self):
        command = [f"{TOOLS}/grade", CASTLE, CASTLE_LOG]
        with open("/dev/full", "w", encoding="utf-8") as full:
            done = subprocess.run(command, cwd=TOP, stdout=full, stderr=subprocess.PIPE, text=True, check=False)
        self.assertEqual((done.returncode, done.stderr.count("\n")), (3, 1), done.stderr)


class Trial(Folder):
    """What a teacher met who tried it."""

    def test_a_row_for_each_file_whatever_it_is(self):
        log = read(WORLDS, "castle.log")
        self.written(log, "a.log")
        self.written(log, "D.LOG")
        self.written(log, "game.txt")
        os.mkfifo(os.path.join(self.folder, "f.log"))
        os.mkdir(os.path.join(self.folder, "empty"))
        empty = os.path.join(self.folder, "empty")
        status, output, errors = called("grade", CASTLE, self.folder, empty, "worlds/none.log")
        self.assertEqual(status, 3)
        found = {os.path.basename(row["file"]): (row["verdict"], row["cause"]) for row in rows(output)}
        self.assertEqual(found["a.log"][0], "accepted")
        self.assertEqual(found["D.LOG"][0], "accepted")
        self.assertEqual(found["f.log"], ("unread", "no file"))
        self.assertEqual(found["empty"], ("unread", "no file of this folder ends with .log"))
        self.assertEqual(found["none.log"][0], "unread")
        self.assertIn("game.txt: passed over", errors)

    def test_one_file_that_is_missing_beside_a_transcript(self):
        log = read(WORLDS, "apple.log")
        self.written(log, "a.log")
        self.written(log, "b.log")
        self.written(read(WORLDS, "apple.in"), "a.in")
        status, output, _ = called("grade", "worlds/apple.cep", self.folder, "--typed", ".in")
        found = [(row["verdict"], row["cause"]) for row in rows(output)]
        missing = f"there is no file {os.path.join(self.folder, 'b.in')}"
        self.assertEqual((status, found), (3, [("accepted", ""), ("unread", missing)]))

    def test_a_log_that_is_cut_inside_a_line(self):
        log = read(WORLDS, "castle.log")
        for length in (30, 33, 50, 200):
            _, output, _ = called("grade", CASTLE, self.written(log[:-length]))
            self.assertEqual(rows(output)[0]["likely"], "cut before its end", log[-length - 9 : -length])

    def test_a_long_transcript_is_quick(self):
        log, step = read(WORLDS, "apple.log"), "? 1 eat P=ann\n? 2 sell P=ann Q=ben\n? choose\n"
        start = log.index("? 1")
        large = log[:start] + step * 1_200_000 + log[start:].replace("step eat P=ben", "step eat P=ann")
        path, begun = self.written(large), time.process_time()
        _, output, _ = called("grade", "worlds/apple.cep", path)
        self.assertIn("NotContained", output)
        _, output, _ = called("explain", "worlds/apple.cep", path)
        self.assertLess(time.process_time() - begun, 10)


class Likely(Folder):
    """What is likely wrong with the form of a transcript that a person handed in."""

    def test_causes(self):
        log = read(WORLDS, "castle.log")
        copied = log.replace("? choose\n", "? choose\n1\n")
        for text, cause in [
            ("", "an empty file"),
            ("\n \n", "an empty file"),
            (b"\xef\xbb\xbf" + log.encode(), "a byte-order mark"),
            (log.encode("utf-16"), "a text in UTF-16"),
            (log.encode("utf-16-le"), "a text in UTF-16"),
            (log.replace("\n", " \n"), "spaces at the edges of lines"),
            ("  " + log.replace("\n", "\n  "), "spaces at the edges of lines"),
            (log.replace("have ", "have\u00a0"), "no-break spaces"),
            (copied, "a copy of the terminal with what was typed"),
            ("$ ./ceptre play castle.cep\n" + copied, "a copy of the terminal with what was typed"),
            ("$ ./ceptre play castle.cep\n" + log + "$ \n", "a prompt or other lines around it"),
            (b"\xef\xbb\xbf$ x\r\n" + log.replace("\n", "\r\n").encode(), "a byte-order mark; a prompt or other lines around it"),
            (read(WORLDS, "nim.log"), "another world"),
            (read(WORLDS, "river.log"), "another world"),
            (log[:200], "cut before its end"),
            ("Dear teacher,\n", "no transcript"),
            (log.replace("R=tower", "R=cellar"), ""),
        ]:
            with self.subTest(cause=cause, text=text[:40]):
                _, output, _ = called("grade", CASTLE, self.written(text))
                self.assertEqual(rows(output)[0]["likely"], cause)

    def test_the_lines_of_shell_mend_what_they_are_for(self):
        log = read(WORLDS, "apple.log")
        copied = log.replace("? choose\n", "? choose\n1\n")
        for cause, text in {
            "a text in UTF-16": log.encode("utf-16"),
            "a byte-order mark": b"\xef\xbb\xbf" + log.encode(),
            "line ends of carriage returns alone": log.replace("\n", "\r"),
            "no-break spaces": log.replace("have ", "have\u00a0"),
            "spaces at the edges of lines": " " + log.replace("\n", " \n"),
            "a copy of the terminal with what was typed": copied,
            "a prompt or other lines around it": "$ ./ceptre play apple.cep\n" + log,
        }.items():
            with self.subTest(cause=cause):
                self.written(text, "LOG")
                subprocess.run(["bash", "-c", MENDS[cause]], cwd=self.folder, check=True)
                self.assertEqual(read(self.folder, "NEW"), log)

    def test_a_transcript_that_is_too_long(self):
        self.assertEqual(likely("", "? a\n", "refused 0 TooLong"), ([TOO_LONG], ""))
        self.assertEqual(likely("", "step a\n", "refused 0 TooLong"), ([LARGE], ""))


if __name__ == "__main__":
    unittest.main()
