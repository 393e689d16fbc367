"""What CONTRIBUTING names is there: crates, files, definitions and commits."""

import os
import re
import shutil
import subprocess
import unittest

from setting import TOP, read

TEXT = read(TOP, "CONTRIBUTING.md")
RECIPES = TEXT.split("## Five recipes")[1].split("\n## ")[0]


def git(*words):
    if not shutil.which("git"):
        return None
    done = subprocess.run(["git", *words], cwd=TOP, capture_output=True, text=True, check=False)
    return done.stdout.strip() if done.returncode == 0 else None


def files_of_crates():
    """The paths and the texts of all sources and definitions."""
    found = {}
    for folder, folders, names in os.walk(os.path.join(TOP, "crates")):
        folders[:] = [name for name in folders if name not in ("out", "must-fail")]
        for name in names:
            if name.endswith((".rt", ".antt")):
                found[os.path.join(folder, name)] = read(folder, name)
    return found


class Contributing(unittest.TestCase):
    def test_crates_and_files_are_there(self):
        names = set(re.findall(r"`(cep_\w+)`", TEXT)) - {"cep_base::limits"}
        for name in sorted(names):
            self.assertTrue(os.path.isdir(os.path.join(TOP, "crates", name)), name)
        for path in re.findall(r"`((?:docs|tools|man|worlds|\.ci)/[\w./-]+)`", TEXT):
            if "NAME" not in path:
                self.assertTrue(os.path.exists(os.path.join(TOP, path)), path)

    def test_what_the_recipes_name_stands_in_the_crates(self):
        files = files_of_crates()
        texts, bases = "\n".join(files.values()), {os.path.basename(path) for path in files}
        known = set(re.findall(r"[A-Za-z_]\w*", texts))
        for name in sorted(set(re.findall(r"`((?:specs/)?\w+\.(?:rt|antt))`", RECIPES))):
            self.assertTrue(name.removeprefix("specs/") in bases, name)
        words = set(re.findall(r"`([A-Z][A-Za-z]+|[a-z]+_[a-z_]+)`", RECIPES))
        modules = {base.split(".")[0] for base in bases}
        own = {"NAME", "WORD", "END_WORDS", "has_no_form"} | set(os.listdir(os.path.join(TOP, "crates")))
        self.assertEqual(sorted(words - own - known - modules), [])

    def test_all_crates_of_an_end_word_are_named(self):
        table = RECIPES.split("| crate | what it has to say of the word |")[1].split("\n\n")[0]
        crates = set()
        for path, text in files_of_crates().items():
            if re.search(r"\bEndWord\b", text) and "proofs" not in path.split(os.sep):
                crates.add(os.path.relpath(path, os.path.join(TOP, "crates")).split(os.sep)[0])
        self.assertEqual(sorted(re.findall(r"^\| `(\w+)` \|", table, re.MULTILINE)), sorted(crates))

    @unittest.skipUnless(shutil.which("git"), "git is not installed")
    def test_the_commits_are_those_of_the_history(self):
        named = re.findall(r"\*([^*]+)\*\s+\(`([0-9a-f]{8})`\)", RECIPES)
        if not any(git("cat-file", "-t", commit) for _, commit in named):
            self.skipTest("the history is missing here")
        self.assertGreaterEqual(len(named), 5)
        self.assertEqual(len(named), len(re.findall(r"`[0-9a-f]{8}`", RECIPES)))
        for subject, commit in named:
            with self.subTest(commit=commit):
                self.assertEqual(git("log", "-1", "--format=%s", commit), " ".join(subject.split()))
                self.assertIsNotNone(git("merge-base", "--is-ancestor", commit, "HEAD"))


if __name__ == "__main__":
    unittest.main()
