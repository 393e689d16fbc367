"""The completions of bash, zsh and fish offer what the usage line and the scripts name."""

import os
import pty
import re
import select
import shutil
import signal
import subprocess
import tempfile
import time
import unittest

from setting import TOP, scripts, tool, usage

FOLDER = os.path.join(TOP, "completion")
BASH, ZSH, FISH = (os.path.join(FOLDER, name) for name in ("ceptre.bash", "_ceptre", "ceptre.fish"))

# Stands in for the functions of zsh's completion, which need a terminal, and prints what they are asked.
ZSH_SETTING = """\
_files() { print -r -- "files $@" }
_describe() { print -rl -- ${${(P)2}%%:*} }
compadd() { shift 3; print -rl -- "$@" }
_arguments() { print -rl -- "$@" }
body=$(<$1); shift; words=("$@"); CURRENT=$#; eval "$body"
"""


def said(*command, folder=TOP, text=None):
    done = subprocess.run(command, cwd=folder, input=text, capture_output=True, text=True, check=False)
    assert not done.stderr, done.stderr
    return done.stdout


def offers(told):
    """What was offered, a line for each, in order and without what it is for."""
    return sorted(line.split("\t")[0] for line in told.split("\n") if line)


def by_bash(*words, folder=TOP):
    """What bash offers for the last of these words."""
    name = "_ceptre" if words[0] == "ceptre" else "_ceptre_script"
    script = f'source "$0"; COMP_WORDS=("$@"); COMP_CWORD=$(($# - 1)); {name}; printf "%s\\\\n" "${{COMPREPLY[@]}}"'
    return offers(said("bash", "-c", script, BASH, *words, folder=folder))


def by_zsh(*words, folder=TOP):
    return offers(said("zsh", "-f", "-s", ZSH, *words, folder=folder, text=ZSH_SETTING))


def by_fish(*words, folder=TOP):
    line = " ".join(words)
    told = said("fish", "--no-config", "-c", f"source {FISH}; complete -C'{line}'", folder=folder)
    return offers(told)


def options_of(script):
    """The long options that a script's --help lists."""
    told = tool(script, "--help")[1]
    return sorted(set(re.findall(r"--[a-z][a-z-]*", told.split("\n\n")[0] + " --help")))


class Shells:
    """What each shell has to offer. A mark in place of files stands for what the shell says of them."""

    complete = None

    def test_words_and_options_are_those_of_the_usage_line(self):
        self.assertEqual(self.complete("ceptre", ""), sorted(usage()))
        for command, (arguments, options) in usage().items():
            if options:
                given = ["ceptre", command] + ["7"] * len(arguments)
                self.assertEqual(self.complete(*given, ""), sorted(options))

    def test_an_option_is_offered_once(self):
        self.assertEqual(self.complete("ceptre", "play", "x", "seed=7", ""), ["height=", "turns="])


class Bash(Shells, unittest.TestCase):
    complete = staticmethod(by_bash)

    def test_what_was_begun(self):
        complete = self.complete
        self.assertEqual(complete("ceptre", "play", "x", "seed", "=", "7", ""), ["height=", "turns="])
        self.assertEqual(complete("ceptre", "world", "9", "t"), ["turns="])
        self.assertEqual(complete("ceptre", "play", "x", "seed="), [])
        self.assertEqual(complete("ceptre", "play", "x", "seed", "="), [])
        self.assertEqual(complete("ceptre", "check", "a", "b", ""), [])

    def test_the_options_of_the_scripts(self):
        for script in scripts():
            with self.subTest(script=script):
                self.assertEqual(self.complete(f"tools/{script}", "--"), options_of(script))

    def test_files(self):
        with tempfile.TemporaryDirectory() as folder:
            os.mkdir(os.path.join(folder, "worlds"))
            for name in ("a.cep", "a.log", "a.in"):
                with open(os.path.join(folder, name), "w", encoding="utf-8"):
                    pass
            for words, wanted in [
                (("ceptre", "play", ""), ["a.cep", "worlds"]),
                (("ceptre", "check", "a"), ["a.cep"]),
                (("ceptre", "check", "a.cep", ""), ["a.log", "worlds"]),
                (("ceptre", "play", "no"), []),
                (("ceptre", "world", ""), []),
                (("tools/grade", ""), ["a.cep", "worlds"]),
                (("tools/grade", "--goal", "rich", ""), ["a.cep", "worlds"]),
                (("tools/grade", "a.cep", ""), ["a.log", "worlds"]),
                (("tools/grade", "a.cep", "--typed", "a.i"), ["a.in"]),
                (("tools/grade", "a.cep", "--end", "q"), ["quiet"]),
                (("tools/player", "a.cep", "s"), ["seed="]),
                (("tools/player", "--from", ""), ["a.log", "worlds"]),
                (("tools/replay", "a.cep", ""), ["a.log", "worlds"]),
                (("tools/follow", "a.cep", "--at", ""), []),
            ]:
                with self.subTest(words=words):
                    self.assertEqual(self.complete(*words, folder=folder), wanted)

    def test_rules_and_atoms_of_the_world(self):
        world = os.path.join(TOP, "worlds", "apple.cep")
        self.assertEqual(self.complete("tools/why", world, "x.log", "0", ""), ["eat", "sell"])
        self.assertIn("apple ann", self.complete("tools/grade", world, "--goal", "app"))

    def test_a_script_that_is_installed(self):
        self.assertEqual(self.complete("tools/why", "--"), self.complete("ceptre-why", "--"))

    def test_a_name_with_a_space_is_quoted(self):
        with tempfile.TemporaryDirectory() as folder:
            for name in ("my house.cep", "other.cep"):
                with open(os.path.join(folder, name), "w", encoding="utf-8"):
                    pass
            shown = self.typed(folder, "ceptre play my\t")
            self.assertIn("ceptre play my\\ house.cep", shown)
            self.assertIn("tools/grade my\\ house.cep", self.typed(folder, "tools/grade my\t"))

    def typed(self, folder, line):
        """What a terminal shows where this is typed in bash."""
        child, terminal = pty.fork()
        if child == 0:
            os.chdir(folder)
            os.environ.update(PS1="$ ", TERM="dumb", INPUTRC="/dev/null")
            os.execvp("bash", ["bash", "--norc", "--noprofile", "-i"])
        os.write(terminal, f"source {BASH}; echo re''ady\n".encode())
        shown = self.until(terminal, "ready\r\n$ ")
        self.assertIn("ready", shown)
        os.write(terminal, line.encode())
        shown = self.until(terminal, ".cep ")
        os.kill(child, signal.SIGKILL)
        os.close(terminal)
        os.waitpid(child, 0)
        return shown

    def until(self, terminal, end):
        shown, last = "", time.monotonic() + 20
        while time.monotonic() < last and not shown.endswith(end):
            if select.select([terminal], [], [], 1)[0]:
                shown += os.read(terminal, 4096).decode()
        return shown


@unittest.skipUnless(shutil.which("zsh"), "zsh is not installed")
class Zsh(Shells, unittest.TestCase):
    complete = staticmethod(by_zsh)

    def test_files(self):
        self.assertEqual(self.complete("ceptre", "play", ""), ["files -g *.cep(-.)"])
        self.assertEqual(self.complete("ceptre", "check", "a", ""), ["files -g *.log(-.)"])
        self.assertEqual(self.complete("ceptre", "check", "a", "b", ""), [])

    def test_the_options_of_the_scripts(self):
        for script in scripts():
            with self.subTest(script=script):
                told = " ".join(self.complete(f"tools/{script}", ""))
                self.assertEqual(sorted(set(re.findall(r"--[a-z][a-z-]*", told))), options_of(script))


@unittest.skipUnless(shutil.which("fish"), "fish is not installed")
class Fish(Shells, unittest.TestCase):
    complete = staticmethod(by_fish)

    def test_the_options_of_the_scripts(self):
        for script in scripts():
            with self.subTest(script=script):
                self.assertEqual(self.complete(f"tools/{script}", "worlds/apple.cep", "--"), options_of(script))


if __name__ == "__main__":
    unittest.main()
