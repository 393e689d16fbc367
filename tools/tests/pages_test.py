"""What the pages name is there: links and their anchors, files, crates, words of the code, and command lines."""

import os
import re
import shlex
import subprocess
import unittest

from setting import TOP, read

FENCE = re.compile(r"^```.*?^```$", re.DOTALL | re.MULTILINE)
WORD = re.compile(r"`([A-Za-z_][\w:]*)`")

# The pages whose words in backquotes are names of the code, of its definitions or of what a program writes.
OF_CODE = ["README.md", "docs/MODEL.md", "docs/MAP.md", "docs/PROVED.md", "docs/PROOFS.md", "docs/LIMITS.md"]


def pages():
    """The paths of all pages, as the repository has them."""
    for folder, folders, names in os.walk(TOP):
        folders[:] = [name for name in folders if name not in (".git", "out", "crates")]
        for name in sorted(names):
            if name.endswith(".md"):
                yield os.path.relpath(os.path.join(folder, name), TOP)


def known_words():
    """All words of the sources, the definitions, the proofs, the crates' names, the scripts and the worlds."""
    found = set(os.listdir(os.path.join(TOP, "crates")))
    for folder, folders, names in os.walk(TOP):
        folders[:] = [name for name in folders if name not in (".git", "out")]
        for name in names:
            if not name.endswith((".md", ".log")):
                try:
                    found.update(re.findall(r"[A-Za-z_]\w*", read(folder, name)))
                except UnicodeDecodeError:
                    continue
            found.add(name.split(".")[0])
    return found


def anchors(text):
    """The anchors of a page's headings, as they are made of them."""
    for heading in re.findall(r"^#+ (.*)$", FENCE.sub("", text), re.MULTILINE):
        yield re.sub(r"[^\w\- ]", "", heading.strip().lower()).replace(" ", "-")


class Pages(unittest.TestCase):
    def test_links_lead_to_files_and_headings(self):
        for page in pages():
            text = FENCE.sub("", read(TOP, page))
            for to in re.findall(r"\]\(([^)\s]+)\)", text):
                if re.match(r"[a-z]+:", to):
                    continue
                path, _, anchor = to.partition("#")
                path = os.path.normpath(os.path.join(os.path.dirname(page), path)) if path else page
                self.assertTrue(os.path.exists(os.path.join(TOP, path)), f"{page}: {to}")
                if anchor:
                    self.assertIn(anchor, set(anchors(read(TOP, path))), f"{page}: {to}")

    def test_headings_that_the_tools_name_are_there(self):
        for name in ("causes.csv", "reasons.csv"):
            for page, anchor in re.findall(r"\((docs/\w+\.md)#([\w-]+)\)", read(TOP, "tools", "ceptre_tools", "explain", name)):
                self.assertIn(anchor, set(anchors(read(TOP, page))), f"{name}: {page}")

    def test_files_and_crates_are_there(self):
        for page in pages():
            text = read(TOP, page)
            for path in re.findall(r"`((?:docs|tools|man|worlds|bench|crates|editors|completion|\.ci)/[\w./-]*)`", text):
                if not re.search(r"[A-Z]{4}", path) and not path.startswith("docs/NOT"):
                    self.assertTrue(os.path.exists(os.path.join(TOP, path)), f"{page}: {path}")
            for name in re.findall(r"`(cep_\w+)(?:::\w+)*`", text):
                self.assertTrue(os.path.isdir(os.path.join(TOP, "crates", name)), f"{page}: {name}")

    def test_words_of_the_code_are_there(self):
        known, missing = known_words(), []
        for page in OF_CODE:
            for name in WORD.findall(FENCE.sub("", read(TOP, page))):
                if any(part and part not in known for part in name.split("::")):
                    missing.append(f"{page}: {name}")
        self.assertEqual(missing, [])

    def test_command_lines_of_the_readme_are_well_formed(self):
        program = os.environ["CEPTRE"]
        for line in re.findall(r"^\./ceptre (.*?)(?:\s+#.*)?$", read(TOP, "README.md"), re.MULTILINE):
            done = subprocess.run([program, *shlex.split(line)], cwd=TOP, stdin=subprocess.DEVNULL, capture_output=True, check=False)
            self.assertEqual(done.returncode, 0, line)


if __name__ == "__main__":
    unittest.main()
