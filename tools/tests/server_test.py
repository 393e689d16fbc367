"""The language server answers as the dialogues in server/ say, with the real program over real pipes; and whatever
comes, it goes on."""

import json
import os
import random
import re
import shutil
import tempfile
import time
import unittest

from client import Editor, address, edit, lengthened, position, shortened
from setting import TOP, WORLDS, read, world_names

FOLDER = os.path.join(TOP, "tools", "tests", "server")
REASONS = address(os.path.join(TOP, "docs", "LANGUAGE.md")) + "#what-is-refused"

# How many worlds are edited at random, and how often; all of them, 200 times each, with the variable.
FULL = bool(os.environ.get("CEPTRE_ALL_EDITS"))
EDITED, EDITS = (None, 200) if FULL else (4, 50)


def turns(path):
    """The turns of a dialogue: a method, its parameters and what is expected."""
    for part in re.split(r"^> ", read(path), flags=re.MULTILINE)[1:]:
        said, _, rest = part.partition("\n< ")
        method, _, params = said.partition("\n")
        decoder = json.JSONDecoder()
        yield method.strip(), decoder.decode(params.strip() or "{}"), decoder.raw_decode(rest)[0] if rest else None


def simplified(method, answer):
    """What is compared of an answer: of completions what is shown beside them, of actions their titles and edits."""
    if method == "textDocument/completion":
        return [item["detail"] for item in answer["items"]]
    if method == "textDocument/codeAction":
        return [simplified_action(action) for action in answer]
    if isinstance(answer, dict) and "contents" in answer:
        contents = answer["contents"]
        return {**answer, "contents": {**contents, "value": contents["value"].split("\n\n")}}
    return answer


def simplified_action(action):
    """The title and the edits of an action."""
    (changes,) = action["edit"]["changes"].values()
    edits = [f"{shortened(change['range'])} {change['newText']}" for change in changes]
    found = {"title": action["title"], "edit": edits}
    return {**found, "isPreferred": True} if action.get("isPreferred") else found


class Dialogues(unittest.TestCase):
    maxDiff = None

    def test_dialogues(self):
        for name in sorted(os.listdir(FOLDER)):
            if name.endswith(".dialogue"):
                with self.subTest(dialogue=name), Editor() as editor:
                    editor.initialize(FOLDER)
                    self.speak(editor, name)
                    self.assertEqual(editor.end(), (0, ""))

    def speak(self, editor, name):
        """Says each line of a dialogue, and compares what comes back."""
        path = os.path.join(FOLDER, name.replace(".dialogue", ".cep"))
        uri, version = address(path), 0
        for method, params, expected in turns(os.path.join(FOLDER, name)):
            params = lengthened(params)
            if method in ("textDocument/didOpen", "textDocument/didChange"):
                version += 1
                if method.endswith("didOpen"):
                    editor.open(uri, read(path), version)
                else:
                    editor.change(uri, version, *params["contentChanges"])
                answer = editor.diagnostics(uri, version, lambda found: self.is_same(found, expected, uri))
            elif method.startswith("workspace/did"):
                editor.tell(method, **params)
                continue
            else:
                document = {"textDocument": {"uri": uri}} if method.startswith("textDocument/") else {}
                answer = editor.ask(method, **document, **params)
            self.assertEqual(self.written(simplified(method, answer), uri), expected, f"{name}: {method} {params}")

    def is_same(self, found, expected, uri):
        return self.written(found, uri) == expected

    def written(self, answer, uri):
        """An answer as the dialogues write it."""
        text = json.dumps(shortened(answer)).replace(uri, "WORLD").replace(REASONS, "REASONS")
        return json.loads(text)


WORLD = read(FOLDER, "lamp.cep")
SMALL_WORLD = "p : pred.\nstage s = { r : p -o p. }\n#trace _ s { p }.\n"


class Texts(unittest.TestCase):
    """Positions, changes and texts of all kinds."""

    def setUp(self):
        self.editor = Editor()
        self.addCleanup(self.editor.__exit__)

    def test_units_of_utf_16_and_bytes(self):
        text = "% \u00e9\U0001f600 comment\n" + SMALL_WORLD.replace(" pred.", " pred. % \U0001f600\U0001f600").replace("-o p", "-o q")
        odd = text + "\u00e9"
        for encodings, encoding in (([], "utf-16"), (["utf-32", "utf-8"], "utf-8")):
            with Editor() as editor:
                told = editor.initialize("/", general={"positionEncodings": encodings})
                self.assertEqual(told["capabilities"]["positionEncoding"], encoding)
                editor.open("file:///a.cep", text)
                found = editor.diagnostics("file:///a.cep", 1)
                self.assertEqual([shortened(one["range"]) for one in found], ["3:22-23"])
                editor.open("file:///b.cep", odd)
                found = editor.diagnostics("file:///b.cep", 1)
                place = "5:1-2" if encoding == "utf-16" else "5:1-3"
                self.assertEqual([shortened(one["range"]) for one in found], [place])

    def test_an_edit_after_characters_beyond_the_first_plane(self):
        editor = self.editor
        editor.initialize()
        text = SMALL_WORLD.replace("p : pred.", "% \U0001f600\u00e9\np : pred. % \U0001f600 end")
        editor.open("file:///a.cep", text)
        place = text.index("end")
        change, text = edit(text, place, place + 3, "\U0001f600 X")
        editor.change("file:///a.cep", 2, change)
        place = text.index("-o p") + 3
        change, text = edit(text, place, place + 1, "qq")
        editor.change("file:///a.cep", 3, change)
        found = editor.diagnostics("file:///a.cep", 3)
        self.assertEqual([shortened(one["range"]) for one in found], ["3:22-24"])

    def test_carriage_returns_end_lines_of_editors(self):
        editor = self.editor
        editor.initialize()
        editor.open("file:///a.cep", SMALL_WORLD.replace("\n", "\r\n").replace("-o p", "-o\rq"))
        self.assertEqual(shortened(editor.diagnostics("file:///a.cep", 1)[0]["range"]), "3:1-2")

    def test_changes_that_do_not_fit(self):
        editor = self.editor
        editor.initialize()
        editor.open("file:///a.cep", SMALL_WORLD, 7)
        editor.change("file:///a.cep", 8, {"range": lengthened("90:5-99:3"), "text": "% end"})
        said = editor.notification("window/logMessage")["message"]
        self.assertEqual(said, "file:///a.cep: an edit of version 8 is beyond the text")
        editor.change("file:///a.cep", 7, {"range": lengthened("1:90-95"), "text": " % line"})
        said = editor.notification("window/logMessage")["message"]
        self.assertEqual(said, "file:///a.cep: version 7 came after version 8")
        editor.change("file:///a.cep", 9, {"range": {"start": "x"}, "text": 3}, {"text": SMALL_WORLD})
        self.assertIn("textDocument/didChange", editor.notification("window/logMessage")["message"])
        editor.change("file:///a.cep", 10, {"text": SMALL_WORLD + "%"})
        self.assertEqual(editor.diagnostics("file:///a.cep", 10), [])
        editor.change("file:///none.cep", 2, {"text": ""})
        said = editor.notification("window/logMessage")["message"]
        self.assertEqual(said, "textDocument/didChange: file:///none.cep is not open")
        self.assertEqual(editor.end(), (0, ""))

    def test_texts_of_all_kinds(self):
        editor = self.editor
        editor.initialize()
        half = "\ud83d"
        texts = ["", "a", "-", "#", "(" * 3_000, "}{" * 500, "stage s = {", "\0\x01\ufeff", half, "% " + half]
        texts += ["a : type", "\u2028p"]
        for number, text in enumerate(texts):
            with self.subTest(text=text[:9]):
                uri = f"file:///{number}.cep"
                editor.open(uri, text)
                self.assertEqual(len(editor.diagnostics(uri, 1)[:1]), 1)
                for method in ("hover", "completion", "signatureHelp", "documentHighlight", "prepareRename"):
                    place = position(text, len(text) // 2)
                    answer = editor.ask(f"textDocument/{method}", textDocument={"uri": uri}, position=place)
                    self.assertNotIn("code", answer or {}, method)
                for method in ("documentSymbol", "foldingRange", "semanticTokens/full", "codeLens"):
                    answer = editor.ask(f"textDocument/{method}", textDocument={"uri": uri})
                    self.assertNotIn("code", answer or {}, method)
        self.assertEqual(editor.end(), (0, ""))


class Faults(unittest.TestCase):
    """What is no message, and a program that fails."""

    def test_what_is_no_message(self):
        with Editor() as editor:
            self.assertEqual(editor.ask("textDocument/hover")["code"], -32002)
            editor.initialize()
            faults = [b"Content-Length: 3\r\n\r\n\xff\xfe\xfd", b"Content-Length: 2\r\n\r\n[]"]
            faults += [b"Content-Length: x\r\n\r\n", b"Content-Type: a\r\n\r\n", b"x" * 70_000 + b"\r\n\r\n"]
            faults += [b"Content-Length: 40000\r\n\r\n" + b"[" * 40_000]
            for fault in faults:
                editor.write(fault)
                answer = editor.wait(lambda message: "error" in message)
                self.assertIsNone(answer["id"])
                self.assertIn(answer["error"]["code"], (-32700, -32600))
                editor.heard.clear()
            self.assertEqual(editor.ask("no/such")["code"], -32601)
            self.assertEqual(editor.ask("textDocument/hover", textDocument=3)["code"], -32602)
            self.assertEqual(editor.ask("textDocument/hover", textDocument={"uri": "file:///none.cep"})["code"], -32602)
            editor.tell("$/cancelRequest", id=1)
            self.assertEqual(editor.end(), (0, ""))

    def test_a_program_that_cannot_be_started_or_is_killed(self):
        with tempfile.TemporaryDirectory() as folder:
            program = os.path.join(folder, "program")
            with Editor(CEPTRE=program) as editor:
                editor.initialize()
                editor.open("file:///a.cep", SMALL_WORLD)
                said = editor.notification("window/showMessage")["message"]
                self.assertEqual(said, f"ceptre-server: {program}: No such file or directory")
                with open(program, "w", encoding="utf-8") as file:
                    file.write("#!/bin/sh\nkill -9 $$\n")
                os.chmod(program, 0o755)
                editor.change("file:///a.cep", 2, {"text": SMALL_WORLD})
                said = editor.notification("window/showMessage")["message"]
                self.assertEqual(said, "ceptre-server: the program was ended by signal 9")
                os.unlink(program)
                shutil.copy(os.environ["CEPTRE"], program)
                editor.change("file:///a.cep", 3, {"text": SMALL_WORLD})
                self.assertEqual(editor.diagnostics("file:///a.cep", 3), [])
                self.assertEqual(editor.end(), (0, ""))

    def test_it_ends_when_its_client_does(self):
        with Editor() as editor:
            editor.initialize()
            editor.child.stdin.close()
            self.assertEqual(editor.child.wait(20), 1)

    def test_nothing_is_answered_after_the_shutdown(self):
        with Editor() as editor:
            editor.initialize()
            editor.ask("shutdown")
            self.assertEqual(editor.ask("workspace/symbol", query="")["code"], -32600)
            editor.tell("exit")
            self.assertEqual(editor.child.wait(20), 0)


class Transcripts(unittest.TestCase):
    def setUp(self):
        self.folder = tempfile.mkdtemp()
        self.addCleanup(shutil.rmtree, self.folder)
        for name in ("castle.cep", "castle.log"):
            shutil.copy(os.path.join(WORLDS, name), self.folder)
        self.world, self.log = (address(os.path.join(self.folder, name)) for name in ("castle.cep", "castle.log"))
        self.text = read(WORLDS, "castle.log")
        self.editor = Editor()
        self.addCleanup(self.editor.__exit__)
        self.editor.initialize(self.folder)

    def place(self, word, after=0):
        return position(self.text, self.text.index(word) + after)

    def test_a_step_in_words_and_its_rule(self):
        self.editor.open(self.log, self.text)
        self.assertEqual(self.editor.diagnostics(self.log, 1), [])
        place = {"textDocument": {"uri": self.log}, "position": self.place("step search", 7)}
        said = self.editor.ask("textDocument/hover", **place)["contents"]["value"]
        self.assertTrue(said.startswith("Step "), said)
        rule = "search : guard A * $awake * way A B -o guard B."
        for line in (rule, "  - guard ", "  $ awake", "  + guard ", "  by way "):
            self.assertIn("\n" + line, said)
        told, world = self.editor.ask("textDocument/definition", **place), read(WORLDS, "castle.cep")
        self.assertEqual((told["uri"], told["range"]["start"]), (self.world, position(world, world.index("search :"))))
        place["position"] = self.place("stage night", 7)
        told = self.editor.ask("textDocument/definition", **place)
        self.assertEqual(told["range"]["start"], position(world, world.index("night = {")))

    def test_a_transcript_is_checked_again_when_its_world_changes(self):
        self.editor.open(self.log, self.text)
        self.editor.diagnostics(self.log, 1)
        self.editor.change(self.log, 2, {"text": self.text.replace("step take", "step tale", 1)})
        line = self.text[: self.text.index("step take")].count("\n") + 1
        (found,) = self.editor.diagnostics(self.log, 2)
        self.assertEqual((found["code"], found["range"]["start"]["line"] + 1), ("NoRule", line))
        world = read(WORLDS, "castle.cep").replace("take :", "tale :").replace("%: take", "%: tale")
        self.editor.open(self.world, world)
        self.assertEqual(self.editor.diagnostics(self.log, 2), [])

    def test_lenses(self):
        broken = os.path.join(self.folder, "castle.broken.log")
        with open(broken, "w", encoding="utf-8") as file:
            file.write(self.text.replace("step take", "step tale", 1))
        line = self.text[: self.text.index("step take")].count("\n") + 1
        self.editor.open(self.world, read(WORLDS, "castle.cep"))
        self.editor.diagnostics(self.world, 1)
        steps = self.text.count("\nstep ")
        expected = ["play", f"castle.broken.log: refused at line {line}", f"castle.log: accepted, {steps} steps"]
        end = time.monotonic() + 20
        titles = []
        while titles != expected and time.monotonic() < end:
            told = self.editor.ask("textDocument/codeLens", textDocument={"uri": self.world})
            titles = [lens["command"]["title"] for lens in told]
            time.sleep(0.05)
        self.assertEqual(titles, expected)
        command = told[0]["command"]
        said = self.editor.ask("workspace/executeCommand", command=command["command"], arguments=command["arguments"])
        self.assertEqual(said, f"ceptre-player {os.path.join(self.folder, 'castle.cep')}")


class Edits(unittest.TestCase):
    def test_random_edits_typed_in_and_undone(self):
        names = world_names()[:EDITED]
        chance = random.Random(11)
        with Editor() as editor:
            editor.initialize(WORLDS)
            for name in names:
                text, uri = read(WORLDS, name + ".cep"), f"file:///edited/{name}.cep"
                fresh = f"file:///fresh/{name}.cep"
                editor.open(uri, text)
                version = self.type_in(editor, uri, text, chance)
                editor.open(fresh, text)
                at_last = editor.diagnostics(uri, version)
                self.assertEqual(at_last, editor.diagnostics(fresh, 1), name)
            self.assertEqual(editor.end(), (0, ""))

    def type_in(self, editor, uri, text, chance):
        """Types in random edits, each undone after some others, and answers the version."""
        version, undone = 1, []
        present = text
        for _ in range(EDITS):
            start = chance.randrange(len(present) + 1)
            end = min(len(present), start + chance.choice((0, 0, 1, 3)))
            put = chance.choice(("", "x", " ", "\n", ".", "}", "(", "%", "\u00e9", "\U0001f600", "stage s = {", ": t."))
            undone.append((start, present[start:end], put))
            change, present = edit(present, start, end, put)
            version += 1
            editor.change(uri, version, change)
            if chance.random() < 0.1:
                place = position(present, chance.randrange(len(present)))
                editor.ask("textDocument/hover", textDocument={"uri": uri}, position=place)
                editor.ask("textDocument/completion", textDocument={"uri": uri}, position=place)
        for start, was, put in reversed(undone):
            change, present = edit(present, start, start + len(put), was)
            version += 1
            editor.change(uri, version, change)
        self.assertEqual(present, text)
        return version


if __name__ == "__main__":
    unittest.main()
