"""Each text of `explain/` is refused, and explained as the file beside it says.

Where the explanation was changed, `tools/explain NAME.cep >NAME.told` in that folder
writes it again.
"""

import os
import re
import shutil
import subprocess
import tempfile
import unittest
from concurrent.futures import ThreadPoolExecutor

from setting import TOOLS, TOP, read, tool, world_names
from ceptre_tools.explain import hints, limits, report, transcripts
from ceptre_tools.explain.refusal import Refusal, mends, reasons
from ceptre_tools.program import MOST_LOG, MOST_WORLD, refusal, refusal_of
from ceptre_tools.text import read_text

FOLDER = os.path.join(TOP, "tools", "tests", "explain")
APPLE = os.path.join(TOP, "worlds", "apple.cep")


def column(page, heading, place):
    """A column of the table of a page with this heading."""
    lines = read(TOP, "docs", page).splitlines()
    rows = []
    for line in lines[lines.index(heading) + 2 :]:
        if not line.startswith("| "):
            break
        rows.append(line.strip("|").split(" | ")[place].strip())
    return rows


def told(line_start):
    """What the lines with this start say, over all texts of the folder."""
    found = set()
    for name in os.listdir(FOLDER):
        if name.endswith(".told"):
            for line in read(FOLDER, name).splitlines():
                if line.startswith(line_start):
                    found.add(line.removeprefix(line_start).strip())
    return found


class Explain(unittest.TestCase):
    def setUp(self):
        self.folder = tempfile.mkdtemp()
        self.addCleanup(shutil.rmtree, self.folder)

    def written(self, text, name="w.cep"):
        """The path of a file with this text, which goes with the test."""
        path = os.path.join(self.folder, name)
        with open(path, "w", encoding="utf-8") as file:
            file.write(text)
        return path

    def test_each_text_is_explained_as_it_was(self):
        names = sorted(name for name in os.listdir(FOLDER) if name.endswith(".cep"))
        self.assertGreaterEqual(len(names), 60)

        def told_again(name):
            path = os.path.join(FOLDER, name)
            return report.lines(Refusal.of(read_text(path), refusal(path)), name)

        with ThreadPoolExecutor(os.cpu_count()) as pool:
            for name, lines in zip(names, pool.map(told_again, names)):
                with self.subTest(text=name):
                    self.assertEqual("\n".join(lines) + "\n", read(FOLDER, name[:-4] + ".told"))

    def test_a_text_that_is_refused(self):
        answer = tool("explain", "number.cep", folder=FOLDER)
        self.assertEqual(answer, (1, read(FOLDER, "number.told"), ""))

    def test_each_likely_cause_of_the_file_is_met(self):
        self.assertEqual(sorted(mends()), sorted(told("likely: ")))

    def test_each_reason_is_met_but_a_text_that_is_too_long(self):
        met = {name.split(": ")[1] for name in told("") if ".cep:" in name}
        self.assertEqual(met | {"TooLong"}, set(reasons()))

    def test_the_reasons_are_those_of_the_language_in_order(self):
        table = [reason.split("`")[1] for reason in column("LANGUAGE.md", "| refusal | where | an example |", 0)]
        self.assertEqual(list(reasons()), table)

    def test_a_text_that_is_too_long(self):
        path = self.written("% " + "a" * MOST_WORLD + "\n")
        status, output, _ = tool("explain", path)
        self.assertEqual(status, 1)
        self.assertIn(":1:1: TooLong\n", output)
        self.assertIn("mend:   Shorten the text\n", output)

    def test_an_accepted_world(self):
        told = "worlds/apple.cep: accepted\ngoals:  full (made by rules, needed by none)\n"
        self.assertEqual(tool("explain", "worlds/apple.cep"), (0, told, ""))

    def test_what_cannot_be_run(self):
        self.assertEqual(tool("explain", "worlds/none.cep")[0], 3)
        self.assertEqual(tool("explain", "worlds/apple.cep", CEPTRE="/nowhere/ceptre")[0], 3)
        self.assertEqual(tool("explain", "worlds/apple.cep", CEPTRE="/bin/false")[0], 3)
        self.assertEqual(tool("explain")[0], 2)

    def test_help(self):
        status, output, _ = tool("explain", "--help")
        self.assertEqual(status, 0)
        self.assertIn("usage: explain", output)

    def test_each_limit_has_its_number_in_the_table(self):
        heading = "| what is limited | the most | one more is | it stands at |"
        numbers = " ".join(column("LIMITS.md", heading, 1))
        for name, said in vars(limits).items():
            if name.isupper() and isinstance(said, str):
                for number in re.findall(r"[0-9][0-9,]*", said.rsplit(": ", 1)[1]):
                    self.assertIn(number.rstrip(","), numbers)

    def test_several_refusals_of_one_text(self):
        status, output, _ = tool("explain", "--all", "two_slips.cep", folder=FOLDER)
        self.assertEqual(status, 1)
        self.assertIn("two_slips.cep:6:7: Unexpected\n", output)
        self.assertIn("\nand after that, perhaps:\ntwo_slips.cep:13:9: Unexpected\n", output)
        self.assertIn("tried:  with `:` put in at 13:8 the text is accepted\n", output)

    def test_a_refusal_in_one_line_as_compilers_write_it(self):
        status, output, _ = tool("explain", "--format=gcc", "--all", "two_slips.cep", folder=FOLDER)
        self.assertEqual(status, 1)
        lines = output.splitlines()
        self.assertEqual(len(lines), 2)
        self.assertTrue(lines[0].startswith("two_slips.cep:6:7: error: Unexpected: "), output)
        self.assertIn("likely a missing colon; with `:` put in at 13:8", lines[1])

    def test_what_is_read_is_bounded(self):
        status, output, errors = tool("explain", "/dev/zero")
        self.assertEqual((status, errors), (1, ""))
        self.assertIn("/dev/zero:1:1: TooLong\n", output)
        self.assertEqual(len(read_text("/dev/zero", MOST_WORLD)), MOST_WORLD + 1)

    def test_a_pipe_is_read_once(self):
        script = "tools/explain <(cat worlds/apple.cep); tools/explain <(echo 'a : b.')"
        done = subprocess.run(["bash", "-c", script], cwd=TOP, capture_output=True, check=False)
        self.assertEqual((done.returncode, done.stderr), (1, b""))
        self.assertIn(b": accepted\n", done.stdout)
        self.assertIn(b"1:5: Unknown\n", done.stdout)

    def test_a_pipe_that_closes(self):
        script = 'tools/explain "$0" | :; echo "${PIPESTATUS[0]}"'
        path = self.written("a : " + "x" * 250 + ".\n")
        for _ in range(3):
            command = ["bash", "-c", script, path]
            done = subprocess.run(command, cwd=TOP, capture_output=True, text=True, check=False)
            self.assertEqual(done.stderr, "")
            self.assertIn(done.stdout, ("141\n", "1\n"))

    def test_a_full_disk(self):
        with open("/dev/full", "w", encoding="utf-8") as full:
            command = [os.path.join(TOOLS, "explain"), "worlds/apple.cep"]
            done = subprocess.run(command, cwd=TOP, stdout=full, stderr=subprocess.PIPE, check=False)
        self.assertEqual(done.returncode, 3)
        self.assertEqual(done.stderr.count(b"\n"), 1)

    def test_control_bytes_do_not_reach_the_terminal(self):
        path = self.written("a : type.\n% \033[31mred\r\nb \033[2J a.\n", "w\033[1m.cep")
        _, output, _ = tool("explain", path)
        self.assertNotIn("\033", output)
        self.assertIn("w\\x1b[1m.cep:3:3: BadByte\n", output)
        self.assertIn("b \\x1b[2J a.\n", output)

    def test_an_output_of_ascii(self):
        path = self.written("caf\xe9 : place.\n")
        status, output, errors = tool("explain", path, PYTHONIOENCODING="ascii")
        self.assertEqual((status, errors), (1, ""))
        self.assertIn("caf\\xe9 : place.", output)

    def test_a_stage_that_nothing_declares(self):
        world = "a : pred. over/it : pred.\nstage main = { r : a -o a. }\n{}qui * stage main -o stage over.\n"
        path = self.written(world.replace("{}", "") + "#trace _ main { a }.\n")
        _, output, _ = tool("explain", path)
        self.assertIn("likely: a name that nothing declares\n", output)
        self.assertIn("wanted: a stage, such as `main`; perhaps `stage over = {}`\n", output)
        self.assertNotIn("did you mean", output)

    def test_the_variable_that_nothing_says(self):
        world = "t : type. x : t. near t t : bwd. a t : pred.\nnear A B.\n"
        path = self.written(world + "stage main = { r : a A * near A C -o a C. }\n#trace _ main { a x }.\n")
        self.assertIn("mend:   Say which C, by a premise", tool("explain", path)[1])

    def test_claims_are_explained(self):
        for text, status, said in [
            ("% ours\nkeep coins = 1 coin\n", 0, "coins is kept: the start weighs 1\n"),
            ("fall all = 1 apple\n", 1, "all is not kept: the rule sell takes 1 and puts 1\n"),
            ("keep x = 1 none\n", 1, ":1: KeepName\n    1 | keep x = 1 none\nreason: A part of the sum"),
        ]:
            with self.subTest(text=text):
                answer = tool("explain", APPLE, self.written(text, "w.keeps"))
                self.assertIn(said, answer[1])
                self.assertEqual((answer[0], answer[2]), (status, ""))

    def test_files_that_are_not_there_are_named_as_by_the_command(self):
        self.assertEqual(tool("explain", "none.cep"), (3, "", "explain: there is no file none.cep\n"))
        self.assertEqual(tool("explain", "worlds"), (3, "", "explain: worlds is a folder\n"))

    def test_a_name_that_is_not_utf_8(self):
        path = os.path.join(os.fsencode(self.folder), b"caf\xe9.cep")
        shutil.copy(APPLE, path)
        done = subprocess.run([os.path.join(TOOLS, "explain").encode(), path], capture_output=True, check=False)
        self.assertEqual(done.returncode, 0, done.stderr)
        self.assertIn(b": accepted\n", done.stdout)

    def test_templates_that_do_not_fit(self):
        path = self.written(read(APPLE) + '%: fly "x"\n')
        self.assertIn(":1: hint: the world has no rule, thing or predicate fly\n", tool("explain", path)[1])

    def test_a_transcript_in_place_of_the_world(self):
        _, output, _ = tool("explain", "worlds/apple.log", "worlds/apple.cep")
        self.assertIn("the world comes first", output.splitlines()[0])


class Hints(unittest.TestCase):
    WORLD = """\
t : type.
u : type.
c : t.
d : t.
p t : pred.
q t : pred.
r t : pred.
s t : pred.
b t : bwd.
e t : bwd.
b c.
stage main = {
  one : $p X * p Y * r Z -o q X.
}
stage far = {}
away : qui * stage far -o stage main.
#interactive main.
context none = { p c }.
#trace _ main { p c, s c }.
"""

    def found(self, text):
        return [f"{hint.line}:{hint.column} {hint.said}" for hint in hints.hints(text)]

    def test_each_hint(self):
        told = [
            "2:1 `u` is never used",
            "4:1 `d` is never used",
            "7:1 `r` is needed, and nothing makes it",
            "8:1 `s` is there from the start, and nothing needs it",
            "9:1 `b` is said by clauses and never asked",
            "10:1 `e` is never used",
            "13:16 this `p` is taken, where the other is kept with `$`",
            "13:18 `Y` stands once: write `_` if any will do",
            "13:24 `Z` stands once: write `_` if any will do",
            "15:7 no rule leads to the stage `far`",
            "18:9 the context `none` is never used",
        ]
        self.assertIsNone(refusal_of(self.WORLD))
        self.assertEqual(self.found(self.WORLD), told)
        self.assertEqual(hints.goals(self.WORLD), ["q"])

    def test_a_comment_says_that_it_is_meant(self):
        text = self.WORLD.replace("u : type.", "u : type.  % meant: for later")
        text = text.replace("  one :", "  % All this is meant.\n  one :")
        lines = [hint.split(":")[0] for hint in self.found(text)]
        self.assertEqual(lines, ["4", "7", "8", "9", "10", "16", "19"])

    def test_no_hint_on_the_worlds_but_where_a_comment_says_why(self):
        for name in world_names():
            with self.subTest(world=name):
                self.assertEqual(hints.hints(read(TOP, "worlds", name + ".cep")), [])

    def test_hints_are_told_after_accepted_and_alone(self):
        with tempfile.NamedTemporaryFile("w", suffix=".cep") as file:
            file.write(self.WORLD)
            file.flush()
            status, output, _ = tool("explain", file.name)
            self.assertEqual(status, 0)
            self.assertTrue(output.startswith(f"{file.name}: accepted\n{file.name}:2:1: hint: "))
            status, output, _ = tool("explain", "--hints", file.name)
            self.assertEqual((status, len(output.splitlines())), (1, 13), "two of them are rules that can never apply")
            _, output, _ = tool("explain", "--format=gcc", file.name)
            self.assertIn(":2:1: warning: `u` is never used\n", output)
        self.assertEqual(tool("explain", "--hints", "worlds/manor.cep"), (0, "", ""))


class Transcripts(unittest.TestCase):
    LOG = read(TOP, "worlds", "apple.log")

    def told(self, text, *words):
        """What is told of a transcript with these bytes, and its mend carried out."""
        with tempfile.TemporaryDirectory() as folder:
            path = os.path.join(folder, "a log")
            with open(path, "wb") as file:
                file.write(text)
            status, output, errors = tool("explain", *words, APPLE, path, folder=folder)
            self.assertEqual(errors, "")
            mends = [x.removeprefix("mend:   ") for x in output.splitlines() if x.startswith("mend:")]
            for mend in mends if "tried:" in output else []:
                subprocess.run(["bash", "-c", mend], cwd=folder, check=True)
                path = os.path.join(folder, re.search(r"new\d*\.log", mend.split(">")[-1])[0])
            return status, output, tool("explain", APPLE, path)[0]

    def test_an_accepted_one(self):
        path = "worlds/apple.log"
        self.assertEqual(tool("explain", APPLE, path), (0, f"{path}: accepted 2\n", ""))

    def test_each_fault_of_form_is_mended_by_its_line(self):
        log = self.LOG.encode()
        spaced = log.replace(b"\n", b"  \n")
        typed = b"$ ./ceptre play\n" + log.replace(b"? choose\n", b"? choose\n1\n")
        for name, text in {
            "a byte-order mark": b"\xef\xbb\xbf" + log,
            "a text in UTF-16": self.LOG.encode("utf-16"),
            "spaces at the edges of lines": spaced,
            "a copy of the terminal with what was typed": typed,
            "line ends of carriage returns alone": log.replace(b"\n", b"\r"),
        }.items():
            with self.subTest(fault=name):
                status, output, mended = self.told(text)
                self.assertEqual((status, mended), (1, 0), output)
                self.assertIn(f"likely: {name}\n", output)
                self.assertIn("tried:  so mended it is accepted 2\n", output)

    def test_what_no_line_mends(self):
        cut = self.LOG[: self.LOG.index("end ")]
        for name, text in {
            "cut before its end": cut,
            "an empty file": "",
            "another world": read(TOP, "worlds", "river.log"),
            "no transcript": "Dear teacher,\n",
        }.items():
            with self.subTest(fault=name):
                status, output, _ = self.told(text.encode())
                self.assertEqual(status, 1)
                self.assertIn(f"likely: {name}\n", output)

    def test_one_that_is_too_long(self):
        start = self.LOG.index("? 1")
        long = self.LOG[:start] + "? no\n" * (MOST_LOG // 5) + self.LOG[start:]
        status, output, _ = self.told(long.encode())
        self.assertEqual(status, 1)
        self.assertIn("grep -av '^?'", output)

    def test_a_step_that_is_not_legal(self):
        text = self.LOG.replace("step sell P=ann", "step sell P=ben")
        status, output, _ = self.told(text.encode())
        self.assertEqual(status, 1)
        self.assertIn("reason: The step takes something that is not there\n", output)
        self.assertNotIn("likely:", output)
        _, output, _ = self.told(text.encode(), "--format=gcc")
        self.assertIn(":9:1: error: NotContained: The step takes", output)

    def test_the_premise_that_is_not_proved(self):
        world, log = (os.path.join(TOP, "worlds", "dungeon" + end) for end in (".cep", ".log"))
        with tempfile.NamedTemporaryFile("w", suffix=".log") as file:
            file.write(read(log).replace("A=gate B=yard [1]]", "A=gate B=yard [2]]", 1))
            file.flush()
            _, output, _ = tool("explain", world, file.name)
        self.assertIn("reason: The derivation of backward premise 1 does not prove it\n", output)

    def test_each_cause_of_the_formats_has_its_words(self):
        table = read(TOP, "docs", "FORMATS.md").split("| such as |")[1].split("\n\n")[0]
        causes = set(re.findall(r"^\| `(?:LINE|0) (\w+)", table, re.MULTILINE)) - {"NewTooLong"}
        self.assertEqual(causes, set(transcripts.MEANINGS))


if __name__ == "__main__":
    unittest.main()
