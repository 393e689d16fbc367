"""The script ./install and the releases of .ci/release: what they put, where, and that nothing of it stays."""

import os
import shutil
import subprocess
import sys
import tempfile
import unittest

from setting import TOP, WORLDS

PROGRAM = os.environ["CEPTRE"]
BARE = {"PATH": os.pathsep.join([os.path.dirname(sys.executable), "/usr/bin", "/bin"])}

# What a checkout gives to an installation, without what tests and proofs need.
PARTS = ("ceptre", "install", "VERSION", "CHANGELOG.md", "README.md", "LICENSE-MIT", "LICENSE-APACHE", "HANDLES", "crates.txt")
FOLDERS = (".ci", "tools", "worlds", "docs", "man", "completion", "editors", "web")


def call(words, cwd=None, env=None):
    """The status, the output and the errors of a command, called with a bare environment if none is said."""
    done = subprocess.run(
        words, cwd=cwd, env=env or BARE, stdin=subprocess.DEVNULL, capture_output=True, text=True, check=False
    )
    return done.returncode, done.stdout, done.stderr


def files(folder):
    """All that is below a folder, folders among it."""
    return sorted(os.path.relpath(os.path.join(at, name), folder) for at, below, names in os.walk(folder) for name in below + names)


class Setting(unittest.TestCase):
    """Each test has a checkout with a program that was built without proofs, and a prefix."""

    def setUp(self):
        folder = tempfile.TemporaryDirectory()
        self.addCleanup(folder.cleanup)
        self.folder = folder.name
        self.top = os.path.join(folder.name, "a house")
        self.prefix = os.path.join(folder.name, "pre fix")
        ignore = shutil.ignore_patterns("__pycache__", "explain_cases")
        os.makedirs(os.path.join(self.top, "crates", "ceptre", "out"))
        for name in PARTS:
            shutil.copy(os.path.join(TOP, name), self.top)
        for name in FOLDERS:
            if os.path.isdir(os.path.join(TOP, name)):
                shutil.copytree(os.path.join(TOP, name), os.path.join(self.top, name), ignore=ignore)
        self.built = os.path.join(self.top, "crates", "ceptre", "out", "ceptre")
        shutil.copy(PROGRAM, self.built)
        self.stamp(self.built)

    def stamp(self, program):
        with open(program + ".sources", "w", encoding="utf-8") as file:
            subprocess.run([os.path.join(self.top, ".ci", "sources")], stdout=file, check=True)

    def install(self, *words, top=None):
        return call([os.path.join(top or self.top, "install"), "--prefix", self.prefix, *words])

    def write(self, name, text):
        os.makedirs(os.path.dirname(name), exist_ok=True)
        with open(name, "w", encoding="utf-8") as file:
            file.write(text)

    def plays(self):
        """The installed command plays, checks and explains from any folder."""
        command = os.path.join(self.prefix, "bin", "ceptre")
        world = os.path.join(self.prefix, "share", "ceptre", "worlds", "apple.cep")
        status, output, _ = call([command, "play", world], cwd="/")
        self.assertEqual((status, output.split("\n")[-4]), (0, "end input"))
        log = os.path.join(WORLDS, "apple.log")
        self.assertEqual(call([command, "check", world, log], cwd="/")[:2], (0, "accepted 2\n"))
        status, output, errors = call([command + "-explain", world], cwd="/")
        self.assertEqual((status, errors), (0, ""))


class Install(Setting):
    def test_what_is_installed_runs_without_the_checkout(self):
        status, output, errors = self.install()
        self.assertEqual((status, errors), (0, ""))
        self.assertIn("is not on the PATH", output)
        self.assertFalse([name for name in files(self.prefix) if "tests" in name or "__pycache__" in name])
        os.rename(self.top, self.top + " elsewhere")
        self.plays()
        version = call([os.path.join(self.prefix, "bin", "ceptre"), "--version"])[1]
        self.assertIn("\nproved here\n", version)
        for place in (
            "share/man/man1/ceptre.1",
            "share/bash-completion/completions/ceptre",
            "share/zsh/site-functions/_ceptre",
            "share/fish/vendor_completions.d/ceptre.fish",
            "share/vim/vimfiles/pack/ceptre/start/ceptre/syntax/ceptre.vim",
            "share/doc/ceptre/LICENSE-MIT",
        ):
            self.assertTrue(os.path.isfile(os.path.join(self.prefix, place)), place)

    def test_uninstall_leaves_nothing(self):
        self.install()
        self.plays()
        self.assertEqual(self.install("--uninstall")[0], 0)
        self.assertFalse(os.path.exists(self.prefix))
        self.assertEqual(self.install("--uninstall")[0], 1)

    def test_uninstall_leaves_what_is_of_others(self):
        other = os.path.join(self.prefix, "share", "man", "man1", "other.1")
        self.write(other, "other\n")
        self.install()
        changed = os.path.join(self.prefix, "share", "ceptre", "worlds", "apple.cep")
        self.write(changed, "% mine\n")
        errors = self.install("--uninstall")[2]
        self.assertIn("apple.cep was changed since, and stays", errors)
        left = [name for name in files(self.prefix) if os.path.isfile(os.path.join(self.prefix, name))]
        self.assertEqual(left, ["share/ceptre/worlds/apple.cep", "share/man/man1/other.1"])

    def test_a_file_of_others_is_not_overwritten(self):
        own = os.path.join(self.prefix, "bin", "ceptre")
        self.write(own, "mine\n")
        before = files(self.prefix)
        status, _, errors = self.install()
        self.assertEqual((status, errors.count("\n")), (1, 1))
        self.assertIn("bin/ceptre is there, and was not installed by this: nothing was done", errors)
        self.assertEqual(files(self.prefix), before)

    def test_a_later_version_takes_the_place(self):
        self.install()
        gone = os.path.join(self.top, "worlds", "apple.in")
        os.remove(gone)
        self.write(os.path.join(self.top, "worlds", "nim.cep"), "% other\n")
        self.assertEqual(self.install()[0], 0)
        self.assertNotIn("share/ceptre/worlds/apple.in", files(self.prefix))
        with open(os.path.join(self.prefix, "share/ceptre/worlds/nim.cep"), encoding="utf-8") as file:
            self.assertEqual(file.read(), "% other\n")
        self.install("--uninstall")
        self.assertFalse(os.path.exists(self.prefix))

    def test_another_root(self):
        root = os.path.join(self.folder, "root")
        words = [os.path.join(self.top, "install"), "--prefix=/usr", f"--destdir={root}"]
        self.assertEqual(call(words)[0], 0)
        self.assertEqual(os.listdir(root), ["usr"])
        self.assertEqual(call([*words, "--uninstall"])[0], 0)
        self.assertEqual([name for name in files(root) if not os.path.isdir(os.path.join(root, name))], [])

    def test_words(self):
        self.assertEqual(self.install("--help")[0], 0)
        status, _, errors = self.install("--nothing")
        self.assertEqual((status, errors.count("\n")), (2, 1))
        self.assertEqual(call([os.path.join(self.top, "install"), "--prefix"])[0], 2)


@unittest.skipUnless(shutil.which("git"), "git is not installed")
class Release(Setting):
    def setUp(self):
        super().setUp()
        self.git = {**os.environ, "GIT_CONFIG_GLOBAL": "/dev/null", "GIT_CONFIG_SYSTEM": "/dev/null"}
        for name in ("AUTHOR", "COMMITTER"):
            self.git |= {f"GIT_{name}_NAME": "a", f"GIT_{name}_EMAIL": "a", f"GIT_{name}_DATE": "2026-01-02T03:04:05Z"}
        self.write(os.path.join(self.top, ".gitignore"), "out/\n__pycache__/\n")
        for words in (["init", "-q"], ["add", "-A"], ["commit", "-qm", "All"]):
            subprocess.run(["git", *words], cwd=self.top, env=self.git, check=True)
        self.write(self.built + ".gate", "185 passed, 0 failed\n")
        self.make_program_for_pages()

    def make_program_for_pages(self):
        """A stand-in for the module of pages, as `.ci/wasm` leaves it for these sources: to make one takes a kit."""
        asked = "from importlib.machinery import SourceFileLoader as L; print(L('wasm', 'wasm').load_module().stamp(), end='')"
        command = [sys.executable, "-W", "ignore", "-c", asked]
        stamp = subprocess.run(command, cwd=os.path.join(self.top, ".ci"), capture_output=True, text=True, check=True).stdout
        self.write(os.path.join(self.top, "out", "ceptre.wasm"), "module\n")
        self.write(os.path.join(self.top, "out", "ceptre.wasm.sources"), stamp)

    def release(self, into="into"):
        folder = os.path.join(self.folder, into)
        os.makedirs(folder, exist_ok=True)
        return call([os.path.join(self.top, ".ci", "release"), folder], env=self.git)

    def test_it_is_installed_and_gone_again(self):
        status, output, errors = self.release()
        self.assertEqual((status, errors), (0, ""))
        archive = output.strip()
        with open(os.path.join(TOP, "VERSION"), encoding="utf-8") as file:
            version = file.read().strip()
        self.assertEqual(os.path.basename(archive), f"ceptre-{version}-x86_64-linux.tar.gz")
        there = os.path.join(self.folder, "there")
        os.mkdir(there)
        shutil.rmtree(self.top)
        self.assertEqual(call(["tar", "-xzf", archive], cwd=there)[0], 0)
        (name,) = os.listdir(there)
        release = os.path.join(there, name)
        self.assertEqual(call(["sha256sum", "--quiet", "-c", "SHA256SUMS"], cwd=release)[:2], (0, ""))
        with open(os.path.join(release, "PROVED.txt"), encoding="utf-8") as file:
            self.assertRegex(file.read(), r"commit: [0-9a-f]{40}\nkit: .*\ngate: 185 passed, 0 failed\nneeds: .*glibc 2")
        self.assertEqual(call([os.path.join(release, "ceptre"), "check", "worlds/apple.cep", "worlds/apple.log"], cwd=release)[0], 0)
        self.assertEqual(call([os.path.join(release, "tools", "explain"), "worlds/apple.cep"], cwd=release)[::2], (0, ""))
        self.assertEqual(self.install(top=release)[0], 0)
        shutil.rmtree(there)
        self.plays()
        self.assertTrue(os.path.isfile(os.path.join(self.prefix, "share", "ceptre", "web", "ceptre.wasm")))
        self.assertIn("proved before its release", call([os.path.join(self.prefix, "bin", "ceptre"), "--version"])[1])

    def test_uninstall_from_a_release(self):
        archive = self.release()[1].strip()
        call(["tar", "-xzf", archive], cwd=self.folder)
        release = os.path.join(self.folder, os.path.basename(archive).replace(".tar.gz", ""))
        self.assertEqual(self.install(top=release)[0], 0)
        self.assertEqual(self.install("--uninstall", top=release)[0], 0)
        self.assertFalse(os.path.exists(self.prefix))

    def test_the_same_sources_give_the_same_bytes(self):
        with open(self.release("one")[1].strip(), "rb") as one:
            first = one.read()
        with open(self.release("other")[1].strip(), "rb") as other:
            self.assertEqual(first, other.read())

    def test_what_is_refused(self):
        os.remove(self.built + ".gate")
        status, _, errors = self.release()
        self.assertEqual((status, errors.count("\n")), (1, 1))
        self.assertIn("has not passed the gate here", errors)
        self.write(self.built + ".gate", "185 passed, 0 failed\n")
        self.write(os.path.join(self.top, "worlds", "new.cep"), "")
        status, _, errors = self.release()
        self.assertEqual(status, 1)
        self.assertIn("this checkout has changes", errors)


if __name__ == "__main__":
    unittest.main()
