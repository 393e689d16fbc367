"""The one layout of worlds: its two laws, what it looks like, and the command that brings texts into it."""

import os
import random
import re
import subprocess
import tempfile
import unittest

from setting import TOOLS, TOP, WORLDS, read, world_names
from ceptre_tools.layout import WIDTH, formatted
from ceptre_tools.tokens import tokens_and_comments
from ceptre_tools.world import World

DATA = os.path.join(TOP, "crates", "cep_cases", "data")

# Of how many texts of cases one is tried, and how many random texts are: all and 500 with the variable.
FULL = bool(os.environ.get("CEPTRE_ALL_LAYOUTS"))
ONE_OF, RANDOM_TEXTS = (1, 500) if FULL else (20, 100)

SPREAD = """\


t:type.   a:t.  b : t. % two
  c    :   t   .
% above p
p t t:pred.


q t:bwd. q A<-p A B , p A B<-p A B<-p A B<-p A B<-p A B<-p A B<-p A B<-p A B<-p A B<-p A B<-p A B<-p A B.
stage main={r:p A B*$p A B*p A B*p A B*p A B*p A B*p A B*p A B*p A B*p A B*p A B*p A B*p A B-o p A B*p A B*()*p A B.}
stage two = { % here
 r : p A B
   -o () . % behind
    % own
  s : p A B % within
    -o p A A.

 }.
stage three={  }
context c={p a b,p a b, % x
   p b b
 % last
}
#interactive main.
#trace _ main{c,p a a}.
"""

LAID_OUT = """\
t : type.  a : t.  b : t.  % two
c : t.
% above p
p t t : pred.

q t : bwd.
q A <- p A B, p A B <- p A B <- p A B <- p A B <- p A B <- p A B <- p A B <- p A B <- p A B <- p A B
  <- p A B <- p A B.
stage main = {
  r : p A B * $p A B * p A B * p A B * p A B * p A B * p A B * p A B * p A B * p A B * p A B *
      p A B * p A B
    -o p A B * p A B * () * p A B.
}
stage two = {  % here
  r : p A B -o ().  % behind
  % own
  s : p A B  % within
    -o p A A.
}.
stage three = {}
context c = {
  p a b, p a b,         % x
  p b b
  % last
}
#interactive main.
#trace _ main { c, p a a }.
"""


def unescaped(text, texts):
    """The text of a case, with what its backslashes stand for."""
    text = re.sub(r"\\<([^>]*)>", lambda match: texts.get(match[1], ""), text)
    text = re.sub(r"\\\[([0-9]+)\|((?:[^]\\]|\\.)*)\]", lambda match: match[2] * min(int(match[1]), 600), text)
    marks = {"n": "\n", "r": "\r", "t": "\t", "\\": "\\"}
    text = re.sub(r"\\x([0-9a-f]{2})", lambda match: chr(int(match[1], 16)), text)
    return re.sub(r"\\(.)", lambda match: marks.get(match[1], match[1]), re.sub(r"\\\n", "", text))


def texts_of_cases():
    """The texts of worlds that stand in the files of cases."""
    found = {}
    for name in sorted(os.listdir(DATA)):
        with open(os.path.join(DATA, name), "rb") as file:
            content = file.read().decode("latin-1")
        texts = {}
        for part in re.split(r"^-- ", content, flags=re.MULTILINE)[1:]:
            head, _, body = part.partition("\n")
            body = re.split(r"^== ", body, flags=re.MULTILINE)[0].removesuffix("\n")
            if head.startswith("text "):
                texts[head.removeprefix("text ")] = unescaped(body, texts)
            elif head == "f":
                found[unescaped(body, texts)] = None
            elif head == "each f":
                found.update({unescaped(line, texts): None for line in body.split("\n")})
    return list(found)


def tokens(text):
    """What has to stay: the tokens, and after which token each comment stands."""
    found, comments = tokens_and_comments(text)
    starts = [token.start for token in found]
    after = [(sum(start < c.start for start in starts), c.text.rstrip()) for c in comments]
    return [(token.kind, token.text) for token in found], after


def accepts(text):
    """Whether the program accepts a text."""
    with tempfile.NamedTemporaryFile(suffix=".cep") as file:
        file.write(text.encode("latin-1"))
        file.flush()
        words = [os.environ["CEPTRE"], "check", file.name, os.devnull]
        return subprocess.run(words, stdout=subprocess.PIPE, check=False).stdout == b"refused 1 Line\n"


def call(*words, typed=None, folder=None):
    """The status, the output and the errors of the command."""
    pipes = {"stdout": subprocess.PIPE, "stderr": subprocess.PIPE}
    done = subprocess.run([os.path.join(TOOLS, "format"), *words], input=typed, cwd=folder, check=False, **pipes)
    return done.returncode, done.stdout, done.stderr.decode()


class Laws(unittest.TestCase):
    def keeps_the_laws(self, text):
        """Tokens stay, comments stay between them, and a second time nothing changes."""
        new = formatted(text)
        if new != text:
            self.assertEqual(tokens(new)[0], tokens(text)[0], text)
            self.assertEqual([c for _, c in tokens(new)[1]], [c for _, c in tokens(text)[1]], text)
            self.assertEqual(formatted(new), new, text)
        return new

    def test_worlds(self):
        for name in world_names():
            text = read(WORLDS, name + ".cep")
            self.assertEqual(self.keeps_the_laws(text), text, name)

    def test_texts_of_cases(self):
        texts = texts_of_cases()
        self.assertGreater(len(texts), 900)
        accepted = 0
        for text in texts[::ONE_OF]:
            self.keeps_the_laws(text)
            if len(text) < 4_000 and accepts(text):
                accepted += 1
                self.assertEqual(World(text).unread, [], text)
                self.assertTrue(accepts(formatted(text)), text)
        self.assertGreater(accepted, len(texts) // ONE_OF // 3)

    def test_random_texts(self):
        chance = random.Random(23)
        items = [part for name in world_names() for part in World(read(WORLDS, name + ".cep")).items]
        spaces = [" "] * 12 + ["", "  ", "\n", "\n\n\n", "\n   ", " %c x\n", "\n% own\n", "\t", "\r\n", "\n%\n\n"]
        for _ in range(RANDOM_TEXTS):
            text = ""
            for item in chance.sample(items, chance.randrange(1, 8)):
                for token in item.tokens:
                    text += token.text + (chance.choice(spaces) or ("" if not token.text[-1].isalnum() else " "))
            self.keeps_the_laws(text)


class Layouts(unittest.TestCase):
    def test_what_it_looks_like(self):
        self.assertEqual(formatted(SPREAD), LAID_OUT)
        self.assertLessEqual(max(map(len, LAID_OUT.splitlines())), WIDTH)

    def test_carriage_returns_stay_at_the_ends_of_lines(self):
        self.assertEqual(formatted("a:type. % x \r\n\r\n\r\nb:type."), "a : type.  % x\r\n\r\nb : type.\r\n")

    def test_a_text_that_does_not_fit_the_grammar_stays(self):
        for text in ("a : type\nb  : type.", "a  : ; .", "stage s = { r : a -o b. ", ""):
            self.assertEqual(formatted(text), text)

    def test_the_worlds_of_the_documents_are_in_it(self):
        fence = re.compile(r"^```ceptre[^\n]*\n(.*?)^```$", re.DOTALL | re.MULTILINE)
        docs = os.path.join(TOP, "docs")
        pages = [os.path.join(docs, name) for name in os.listdir(docs) if name.endswith(".md")]
        for name in [os.path.join(TOP, "README.md"), *pages]:
            for match in fence.finditer(read(name)):
                # The generated world stands as the program makes it.
                if "move : at W R * $link R S" not in match[1]:
                    self.assertEqual(formatted(match[1]), match[1], name)


class Command(unittest.TestCase):
    def setUp(self):
        folder = tempfile.TemporaryDirectory()
        self.addCleanup(folder.cleanup)
        self.folder = folder.name

    def write(self, name, text):
        with open(os.path.join(self.folder, name), "w", encoding="utf-8") as file:
            file.write(text)

    def test_files(self):
        self.write("a.cep", "p:pred. stage s={r:p-o p.} #trace _ s{p}.")
        self.write("b.cep", "p : pred.\nstage s = {\n")
        status, out, errors = call("--check", "a.cep", folder=self.folder)
        self.assertEqual((status, out, errors), (1, b"a.cep: it is not in the layout\n", ""))
        status, out, errors = call("a.cep", "b.cep", "c.cep", folder=self.folder)
        self.assertEqual((status, out), (3, b"a.cep: written\n"))
        left = "format: b.cep: refused 3:1 3 Unexpected: it is left as it is\n"
        self.assertEqual(errors, left + "format: there is no file c.cep\n")
        self.assertEqual(read(self.folder, "a.cep"), "p : pred.  stage s = { r : p -o p. }  #trace _ s { p }.\n")
        self.assertEqual(call("--check", "a.cep", folder=self.folder), (0, b"", ""))
        self.assertEqual(call("b.cep", folder=self.folder)[0], 1)

    def test_standard_input(self):
        self.assertEqual(call(typed=b"p:pred.  % caf\xc3\xa9 \n"), (0, b"p : pred.  % caf\xc3\xa9\n", ""))
        self.assertEqual(call(typed=b"p : \n")[:2], (1, b"p : \n"))
        self.assertEqual(call("--check", typed=b"p:pred."), (1, b"", ""))
        self.assertEqual(call("--no-such", typed=b"")[0], 2)


if __name__ == "__main__":
    unittest.main()
