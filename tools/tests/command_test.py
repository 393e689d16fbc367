"""The script ./ceptre: its answers without a build, when and how it builds, how fast it asks, and its hints."""

import os
import pty
import resource
import shutil
import subprocess
import tempfile
import unittest

from setting import TOP, WORLDS

# A stand-in for the build without proofs: it ends with $BUILD, if that is said, and else leaves the program after a moment.
BUILD = """\
#!/bin/sh
echo 'ceptre: 1 of 3: reading the sources' >&2
[ -z "${BUILD-}" ] || exit "$BUILD"
sleep "${PAUSE-0}"
cp "$PROGRAM" "$1/new" && mv "$1/new" "$1/ceptre"
"""

# A stand-in for the kit's command: it says what a run says, and leaves the program.
KIT = """\
#!/bin/sh
[ "$*" = ci ] && [ -f HANDLES ] && [ ! -e crates/cep_column ] && [ ! -e crates/cep_base/must-fail ] || exit 1
echo 'rt: a remark'
echo 'rt: cep_base is kept: an earlier run proved it'
echo 'rt: ceptre proved'
mkdir -p crates/ceptre/out && cp "$PROGRAM" crates/ceptre/out/ceptre
"""

# The program stands on one crate, and another is none of its.
CRATES = """\
# Crates.
cep_base: itoa
cep_column:
ceptre: cep_base
"""


class Command(unittest.TestCase):
    """Each test has a copy of the scripts, with some sources, and a stand-in for the kit."""

    def setUp(self):
        folder = tempfile.TemporaryDirectory()
        self.addCleanup(folder.cleanup)
        self.top = os.path.join(folder.name, "a house")
        for name in ("crates/ceptre/src", "crates/cep_base/must-fail", "crates/cep_column", ".ci", "kit", "tools"):
            os.makedirs(os.path.join(self.top, name))
        for name in ("ceptre", ".ci/program", ".ci/prove", ".ci/sources", ".ci/kit", "HANDLES", "VERSION"):
            shutil.copy(os.path.join(TOP, name), os.path.join(self.top, name))
        self.write(".ci/build", BUILD)
        os.chmod(os.path.join(self.top, ".ci", "build"), 0o755)
        self.write("crates.txt", CRATES)
        self.write("crates/ceptre/src/main.rt", "fn main() {}\n")
        self.write("kit/rt", KIT)
        os.chmod(os.path.join(self.top, "kit", "rt"), 0o755)

    def write(self, name, text):
        with open(os.path.join(self.top, name), "w", encoding="utf-8") as file:
            file.write(text)

    def call(self, *words, kit=True, terminal=False, script="ceptre", **more):
        """The status, the output and the errors of the script; these perhaps as on a terminal. What
        stands last goes into its environment."""
        path = os.environ["PATH"]
        if kit:
            path = os.path.join(self.top, "kit") + ":" + path
        else:
            path = ":".join(p for p in path.split(":") if not os.path.exists(os.path.join(p, "rt")))
        environment = {**os.environ, "PATH": path, "PROGRAM": os.environ["CEPTRE"], **more}
        own, errors = pty.openpty() if terminal else os.pipe()
        done = subprocess.run(
            [os.path.join(self.top, script), *words],
            cwd=self.top,
            env=environment,
            stdin=subprocess.DEVNULL,
            stdout=subprocess.PIPE,
            stderr=errors,
            text=True,
            check=False,
        )
        os.close(errors)
        said = b""
        while True:
            try:
                part = os.read(own, 65536)
            except OSError:
                break
            if not part:
                break
            said += part
        os.close(own)
        return done.returncode, done.stdout, said.decode().replace("\r\n", "\n")

    def test_words_without_a_form_are_answered_without_a_build(self):
        program = os.environ["CEPTRE"]
        for words in (
            [],
            ["play"],
            ["world"],
            ["world", "0"],
            ["world", "007"],
            ["check", "a"],
            ["renew", "a", "b", "c"],
            ["weigh", "a"],
            ["dead", "a", "b"],
            ["rounds", "a"],
            ["rounds", "a", "players=2", "players=3"],
            ["rounds", "a", "seed=1"],
            ["again", "a", "b", "turns=1"],
            ["play", "a", "players=2"],
            ["play", "a", "seed=x"],
            ["play", "a", "seed=1", "seed=2"],
            ["play", "a", "b"],
            ["play", "a", "height=07"],
            ["PLAY", "a"],
        ):
            with self.subTest(words=words):
                done = subprocess.run([program, *words], stdout=subprocess.PIPE, text=True, check=False)
                self.assertEqual(self.call(*words, kit=False), (done.returncode, done.stdout, ""))
                self.assertEqual(done.returncode, 2)

    def test_where_nothing_can_be_built(self):
        status, output, errors = self.call("play", "a", kit=False)
        self.assertEqual((status, output), (69, ""))
        self.assertIn("the Rattle kit's command rt is not on the PATH", errors)

    def test_words_that_may_have_a_form_are_for_the_program(self):
        for words in (["world", "5001"], ["play", "a", "height=513"], ["rounds", "a", "players=17"]):
            with self.subTest(words=words):
                self.assertEqual(self.call(*words)[0], 2)

    def test_a_first_call_builds_without_proofs(self):
        status, output, errors = self.call("world", "1")
        self.assertEqual((status, output.split("\n")[0]), (0, "world 1"))
        self.assertIn("building it from these sources, without proofs", errors)
        self.assertIn("1 of 3: reading the sources\n", errors)
        self.assertRegex(errors, r"in \d+ seconds; not proved on this machine \(\.ci/run proves them")
        self.assertEqual(self.call("world", "1", kit=False), (0, output, ""))

    def test_a_build_that_fails_leaves_nothing(self):
        for status in ("1", "69", "130"):
            with self.subTest(status=status):
                self.assertEqual(self.call("world", "1", BUILD=status)[:2], (69, ""))
                self.assertEqual(self.call("--there", script=".ci/program")[0], 1)

    def test_where_the_kit_is_another_the_program_is_proved(self):
        status, output, errors = self.call("world", "1", BUILD="3")
        self.assertEqual((status, output.split("\n")[0]), (0, "world 1"))
        self.assertIn("so the program is proved instead\n", errors)
        self.assertIn("ceptre: 1 of 2 crates, 0:0", errors)
        self.assertIn("proved here\n", self.call("--version")[1])

    def test_proving_says_how_far_it_is(self):
        status, output, errors = self.call(script=".ci/prove")
        self.assertEqual((status, output), (0, ""))
        self.assertIn("proving and building 2 crates\n", errors)
        self.assertIn("ceptre: 1 of 2 crates, 0:0", errors)
        self.assertIn(" so far: cep_base\n", errors)
        self.assertIn(" so far: ceptre\n", errors)
        self.assertNotIn("remark", errors)
        self.assertEqual(self.call("world", "1", kit=False)[0::2], (0, ""))

    def test_a_proved_program_takes_over(self):
        self.assertEqual(self.call("world", "1", CEPTRE_PROVED="1")[:2], (69, ""))
        self.call("world", "1")
        self.assertIn("not proved here", self.call("--version")[1])
        self.assertEqual(self.call("world", "1", CEPTRE_PROVED="1")[:2], (69, ""))
        self.call(script=".ci/prove")
        self.assertIn("\nproved here", self.call("--version")[1])
        self.assertEqual(self.call("world", "1", CEPTRE_PROVED="1")[0], 0)

    def test_two_calls_build_once(self):
        words = [os.path.join(self.top, "ceptre"), "world", "1"]
        environment = {**os.environ, "PROGRAM": os.environ["CEPTRE"], "PAUSE": "1"}
        environment["PATH"] = os.path.join(self.top, "kit") + ":" + environment["PATH"]
        both = [
            subprocess.Popen(words, env=environment, stdout=subprocess.PIPE, stderr=subprocess.PIPE, text=True)
            for _ in range(2)
        ]
        said = [one.communicate() for one in both]
        self.assertEqual([one.returncode for one in both], [0, 0])
        self.assertEqual(said[0][0], said[1][0])
        errors = said[0][1] + said[1][1]
        self.assertEqual(errors.count("1 of 3"), 1)
        self.assertEqual(errors.count("another call is building the program: waiting for it"), 1)

    @unittest.skipIf(os.geteuid() == 0 and not shutil.which("setpriv"), "setpriv is not installed")
    def test_a_checkout_that_cannot_be_written_to(self):
        temporary = os.path.join(self.top, "..", "temporary")
        os.mkdir(temporary)
        os.chmod(temporary, 0o777)
        words = [os.path.join(self.top, "ceptre"), "world", "1"]
        environment = {**os.environ, "PROGRAM": os.environ["CEPTRE"], "TMPDIR": temporary}
        environment["PATH"] = os.path.join(self.top, "kit") + ":" + environment["PATH"]
        if os.geteuid() == 0:
            words = ["setpriv", "--reuid", "65534", "--clear-groups", *words]
        os.chmod(os.path.dirname(self.top), 0o755)
        os.chmod(self.top, 0o555)
        self.addCleanup(os.chmod, self.top, 0o755)
        done = subprocess.run(words, env=environment, capture_output=True, text=True, check=False)
        if "Permission denied" in done.stderr:
            self.skipTest("the program's own folder cannot be read by others")
        self.assertEqual(done.returncode, 0, done.stderr)
        self.assertIn("this checkout cannot be written to: the program is built in", done.stderr)
        again = subprocess.run(words, env=environment, capture_output=True, text=True, check=False)
        self.assertEqual((again.stdout, again.stderr), (done.stdout, ""))

    def test_version_and_help(self):
        with open(os.path.join(TOP, "VERSION"), encoding="utf-8") as file:
            version = file.read().strip()
        status, output, _ = self.call("--version", kit=False)
        self.assertEqual(status, 0)
        self.assertEqual(output.split("\n")[:2], [f"ceptre {version}", "not built here"])
        with open(os.path.join(TOP, "README.md"), encoding="utf-8") as file:
            self.assertIn(f"`{output.splitlines()[2]}`", file.read())
        for word in ("--help", "-h"):
            status, output, errors = self.call(word, kit=False)
            self.assertEqual((status, errors), (0, ""))
            for command in ("play", "check", "renew", "cause", "again", "rounds", "weigh", "dead", "world"):
                self.assertIn(f"  ceptre {command} ", output)

    def test_what_is_built_again(self):
        self.call("world", "1")
        path = os.path.join(self.top, "crates", "ceptre", "src")
        main, other = os.path.join(path, "main.rt"), os.path.join(path, "other.rt")

        def is_there():
            return self.call("--there", script=".ci/program", kit=False)[0] == 0

        self.assertTrue(is_there())
        os.utime(main)
        self.assertTrue(is_there(), "a source that has the same text")
        self.write("crates/ceptre/src/main.rt", "fn main() { }\n")
        os.utime(main, (1, 1))
        self.assertFalse(is_there(), "a source with another text, and with an old time")
        self.write("crates/ceptre/src/main.rt", "fn main() {}\n")
        self.assertTrue(is_there(), "its own text again")
        self.write("crates/ceptre/src/other.rt", "")
        self.assertFalse(is_there(), "a further source")
        os.remove(other)
        self.assertTrue(is_there(), "without it again")

    def test_many_calls_are_quick(self):
        """41 calls on an idle machine take under 2 seconds; the time of the processor is measured,
        since other work may go on beside the tests, and the program's own part is taken off."""
        shutil.rmtree(os.path.join(self.top, "crates"))
        built = shutil.ignore_patterns("out")
        shutil.copytree(os.path.join(TOP, "crates"), os.path.join(self.top, "crates"), ignore=built)
        self.call("world", "1")
        words = ["check", os.path.join(WORLDS, "apple.cep"), os.path.join(WORLDS, "apple.log")]

        def spent(script):
            before = resource.getrusage(resource.RUSAGE_CHILDREN)
            for _ in range(41):
                subprocess.run([script, *words], stdout=subprocess.DEVNULL, check=True)
            after = resource.getrusage(resource.RUSAGE_CHILDREN)
            return after.ru_utime + after.ru_stime - before.ru_utime - before.ru_stime

        self.call(*words, kit=False)
        asked = spent(os.path.join(self.top, "ceptre"))
        self.assertLess(asked - spent(os.environ["CEPTRE"]), 3)

    def test_hints_on_a_terminal(self):
        self.call("world", "1")
        self.write("w.cep", "no world\n")
        self.write("w.log", "ceptre 2\n")
        for words, wanted in [
            (["play", "w.cep"], "tools/explain 'w.cep' says what is likely wrong"),
            (["check", "w.log", "w.cep"], "w.log is a transcript: the world comes first"),
            (["play", "w.log"], "the world comes first, as in ./ceptre play FILE [seed=N] [height=N] [turns=N]\n"),
            (["dead", "w.log"], "the world comes first, as in ./ceptre dead FILE\n"),
            (["rounds", "w.log", "players=2"], "as in ./ceptre rounds FILE players=N [seed=N]"),
            (["weigh", "w.log", "w.cep"], "as in ./ceptre weigh FILE KEEPS\n"),
            (["play", "none.cep"], "there is no file none.cep"),
            (["play", "crates"], "crates is a folder"),
            (["play", "seed=1", "w.cep"], "options such as seed=1 stand after the file"),
            (["w.cep", "play"], "'play' comes first"),
        ]:
            with self.subTest(words=words):
                status, output, errors = self.call(*words, terminal=True, kit=False)
                self.assertIn(wanted, errors)
                self.assertEqual(errors.count("\n"), 1)
                self.assertEqual(self.call(*words, kit=False), (status, output, ""))


if __name__ == "__main__":
    unittest.main()
