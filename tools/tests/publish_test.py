"""The script that makes pages: what is in them, what has none, and where the program for browsers is from."""

import base64
import hashlib
import json
import os
import re
import tempfile
import unittest
from unittest import mock

from setting import TOP, WORLDS, called, read, run
from ceptre_tools.program import CannotRun
from ceptre_tools.publish import module
from ceptre_tools.publish.about import first_paragraph, title_of
from ceptre_tools.transcript import Transcript
from ceptre_tools.world import World

# What stands for the program: nothing here runs it.
MODULE = b"\0asm a module </script>"

REFUSED = "a : pred.\nstage s = { r : a -o b. }\n#trace _ s { a }.\n"

HOSTILE = """\
% </script> <!-- <script>
a : pred.
stage s = { r : a -o (). }
#trace _ s { a }.
%: start "</script><script>alert(1)</script> & \\"it\\""
%: r "{A}"
"""


class Setting(unittest.TestCase):
    """Each test has a folder, with a file that stands for the program."""

    def setUp(self):
        folder = tempfile.TemporaryDirectory()
        self.addCleanup(folder.cleanup)
        self.folder = folder.name
        self.write("ceptre.wasm", MODULE.decode())
        named = mock.patch.dict(os.environ, CEPTRE_WASM=self.path("ceptre.wasm"))
        named.start()
        self.addCleanup(named.stop)

    def path(self, *names):
        return os.path.join(self.folder, *names)

    def write(self, name, text):
        os.makedirs(os.path.dirname(self.path(name)), exist_ok=True)
        with open(self.path(name), "w", encoding="utf-8") as file:
            file.write(text)
        return self.path(name)

    def page(self, *words):
        """The text of the page that is made by these words."""
        path = self.path("page.html")
        self.assertEqual(called("publish", *words, "-o", path)[:2], (0, path + "\n"))
        return read(path)

    def settings(self, page):
        return json.loads(self.element(page, "settings"))

    def element(self, page, name):
        return re.search(rf'id="{name}">(.*?)</script>', page, re.DOTALL)[1]


class OneWorld(Setting):
    def test_a_page_is_one_file_that_asks_for_nothing(self):
        page = self.page("worlds/castle.cep")
        self.assertEqual(re.findall(r"\b(?:src|srcset|action|data|poster)=", page), [])
        self.assertEqual(re.findall(r'href="([^"]*)"', page), ["data:,"])
        self.assertEqual(set(re.findall(r"https?://[^\"'\s]*", page)), {"http://www.w3.org/2000/svg"})
        self.assertEqual(re.findall(r"@import|url\(|import\(|fetch\(|XMLHttp|WebSocket|sendBeacon", page), [])
        policy = re.search(r'Content-Security-Policy" content="([^"]*)"', page)[1]
        self.assertIn("default-src 'none'", policy)
        self.assertNotIn("unsafe-inline", policy)

    def test_the_policy_allows_what_stands_there(self):
        page = self.page("worlds/castle.cep")
        for text in (re.search("<script>(.*?)</script>", page, re.DOTALL)[1], re.search("<style>(.*?)</style>", page, re.DOTALL)[1]):
            found = base64.b64encode(hashlib.sha256(text.encode()).digest()).decode()
            self.assertIn(f"'sha256-{found}'", page)

    def test_what_is_in_it(self):
        page, world = self.page("worlds/castle.cep", "--seed", "7"), read(WORLDS, "castle.cep")
        self.assertEqual(base64.b64decode(self.element(page, "world")).decode(), world)
        settings = self.settings(page)
        self.assertEqual((settings["file"], settings["seed"], settings["options"]), ("castle.cep", "7", []))
        self.assertEqual(settings["prose"]["rules"]["sneak"], ["You slip into {B}.", "Slip into {B}"])
        for content in (world.encode(), MODULE):
            self.assertIn(hashlib.sha256(content).hexdigest()[:16], page)
        self.assertIn("not the proved build; the same sources by another back end", page)
        self.assertIn("<title>Castle</title>", page)
        self.assertEqual(page, self.page("worlds/castle.cep", "--seed", "7"))

    def test_options_of_the_run(self):
        settings = self.settings(self.page("worlds/race.cep", "--players", "3", "--turns", "9", "--height", "12"))
        self.assertEqual((settings["players"], settings["options"]), (3, ["players=3", "height=12", "turns=9"]))

    def test_texts_stay_texts(self):
        page = self.page(self.write("hostile.cep", HOSTILE), "--title", "</title> & <b>")
        self.assertEqual(page.count("<script"), 5)
        self.assertEqual(page.count("</script>"), 5)
        self.assertIn("<h1>&lt;/title&gt; &amp; &lt;b&gt;</h1>", page)
        self.assertEqual(self.settings(page)["prose"]["start"], '</script><script>alert(1)</script> & "it"')

    def test_templates_that_do_not_fit_are_named(self):
        world = self.write("hostile.cep", HOSTILE)
        errors = called("publish", world, "-o", self.path("page.html"))[2]
        self.assertEqual(errors, f"publish: {world}:6: the rule r has no variable A\n")

    def test_bytes_that_are_no_text(self):
        with open(self.path("odd.cep"), "wb") as file:
            file.write(b'% caf\xe9 \xc3\xa9\na : pred.\nstage s = {}\n#trace _ s { a }.\n%: a "caf\xc3\xa9 \xff"\n')
        page = self.page(self.path("odd.cep"))
        with open(self.path("odd.cep"), "rb") as file:
            self.assertEqual(base64.b64decode(self.element(page, "world")), file.read())
        self.assertEqual(self.settings(page)["prose"]["words"], {"a": "caf\u00e9 \ufffd"})

    def test_a_world_that_is_refused_has_no_page(self):
        world = self.write("refused.cep", REFUSED)
        status, output, errors = called("publish", world, "-o", self.path("page.html"))
        self.assertEqual((status, output, errors), (1, called("explain", world)[1], ""))
        self.assertFalse(os.path.exists(self.path("page.html")))

    def test_a_height_that_no_browser_has_the_stack_for(self):
        for words in (["--height", "129"], ["--height", "512"]):
            status, output, _ = called("publish", "worlds/castle.cep", *words, "-o", self.path("page.html"))
            self.assertEqual((status, "at most 128 levels" in output), (1, True))
        self.assertFalse(os.path.exists(self.path("page.html")))

    def test_usage(self):
        for words in (
            [],
            ["worlds/castle.cep", "--site", "worlds"],
            ["--site", "worlds", "--transcript", "worlds/castle.log"],
            ["worlds/castle.cep", "--seed", "-1"],
            ["worlds/castle.cep", "--seed", str(2**64)],
            ["worlds/castle.cep", "--players", "1"],
            ["worlds/castle.cep", "--turns", "0"],
        ):
            self.assertEqual(called("publish", *words)[0], 2, words)
        self.assertEqual(called("publish", "worlds/none.cep")[::2], (3, "publish: there is no file worlds/none.cep\n"))

    def test_without_a_place_it_is_written_here(self):
        place = os.getcwd()
        try:
            os.chdir(self.folder)
            with mock.patch("setting.TOP", self.folder):
                self.assertEqual(called("publish", os.path.join(WORLDS, "nim.cep"))[:2], (0, "nim.html\n"))
        finally:
            os.chdir(place)
        self.assertTrue(os.path.exists(self.path("nim.html")))


    def test_what_is_no_page_is_not_overwritten(self):
        world = self.write("mine.cep", read(WORLDS, "nim.cep"))
        status, _, errors = called("publish", world, "-o", world)
        self.assertEqual((status, errors), (3, f"publish: {world}: it is no page, and is kept\n"))
        self.assertEqual(read(world), read(WORLDS, "nim.cep"))
        self.page(world)
        self.page(world)


class Transcripts(Setting):
    def walk(self, world, log, *words):
        return self.settings(self.page(world, "--transcript", log, *words))["walk"]

    def test_the_states_are_those_of_the_transcript(self):
        for name in ("castle", "manor", "island", "blocks"):
            with self.subTest(name):
                walk = self.walk(f"worlds/{name}.cep", f"worlds/{name}.log")
                log = Transcript.of(read(WORLDS, name + ".log"))
                copies = dict(map(tuple, walk["start"]))
                for step, (_, state) in zip([None, *walk["steps"]], log.states(World(read(WORLDS, name + ".cep")))):
                    for atom, more in step["changes"] if step else ():
                        copies[atom] = copies.get(atom, 0) + more
                    self.assertEqual({walk["atoms"][n]: count for n, count in copies.items() if count}, dict(state))
                self.assertEqual([step["offer"] for step in walk["steps"]], [step.offer for step in log.steps])

    def test_causes_are_those_of_the_program(self):
        steps = self.walk("worlds/castle.cep", "worlds/castle.log")["steps"]
        lines = run("cause", "worlds/castle.cep", "worlds/castle.log").lines
        found = [re.search(r"after (.*)", line) for line in lines]
        self.assertEqual([step["after"] for step in steps], [list(map(int, after[1].split())) if after else [] for after in found])

    def test_one_goes_on_by_what_was_typed(self):
        walk = self.walk("worlds/castle.cep", "worlds/castle.log")
        self.assertEqual((walk["typed"], walk["again"], walk["why"]), ([1, 2, 2, 2, 4, 6, 1, 1, 7, 1, 7], 11, ""))

    def test_a_seed_that_does_something_else(self):
        walk = self.walk("worlds/dungeon.cep", "worlds/dungeon.log", "--seed", "1")
        self.assertEqual(walk["again"], 19)
        walk = self.walk("worlds/manor.cep", "worlds/manor.log", "--seed", "1")
        self.assertEqual((walk["typed"], walk["again"]), ([], 0))
        self.assertRegex(walk["why"], "^Nobody can go on from step 1 or a later one: .*by this seed the run does")
        walk = self.walk("worlds/nim.cep", "worlds/nim.log", "--seed", "3")
        self.assertEqual((walk["again"], walk["typed"]), (2, [2]))

    def test_one_of_rounds_is_gone_on_with_by_one_player(self):
        walk = self.walk("worlds/race.cep", "worlds/race.log")
        self.assertEqual((walk["again"], walk["why"]), (len(walk["steps"]), ""))

    def test_a_transcript_that_is_refused(self):
        log = self.write("other.log", read(WORLDS, "castle.log").replace("take R=tower", "take R=hall"))
        words = ["worlds/castle.cep", "--transcript", log, "-o", self.path("page.html")]
        status, output, _ = called("publish", *words)
        self.assertEqual((status, output.startswith(f"{log}: refused 26 ")), (1, True), output)
        self.assertFalse(os.path.exists(self.path("page.html")))


class Sites(Setting):
    def site(self, *words):
        return called("publish", "--site", self.path("worlds"), "-o", self.path("site"), *words)

    def test_a_site_has_a_page_of_each_world_and_a_list(self):
        for name in ("race.cep", "race.in", "race.words", "dungeon.cep", "dungeon.words", "times.cep"):
            self.write(f"worlds/{name}", read(WORLDS, name))
        status, output, errors = self.site("--title", "A few & more")
        pages = [self.path("site", name) for name in ("dungeon.html", "race.html", "times.html", "index.html")]
        self.assertEqual((status, output.split(), errors), (0, pages, ""))
        self.assertEqual(self.settings(read(pages[1]))["options"], ["players=3"])
        self.assertEqual(self.settings(read(pages[0]))["options"], ["height=12"])
        index = read(pages[3])
        self.assertIn("<h1>A few &amp; more</h1>", index)
        self.assertEqual(re.findall(r'href="([^"]*)"', index), ["data:,", "dungeon.html", "race.html", "times.html"])
        self.assertIn("for 3 at one screen, 18 choices when it was played once", index)
        self.assertIn("runs by itself, by its seed", index)
        self.assertIn("A race over a brook, for two to four players who all choose at once: rounds.", index)

    def test_what_is_refused_has_no_page(self):
        self.write("worlds/good.cep", read(WORLDS, "nim.cep"))
        self.write("worlds/refused.cep", REFUSED)
        self.write("worlds/high.cep", read(WORLDS, "castle.cep"))
        self.write("worlds/high.words", "height=512")
        status, output, _ = self.site()
        self.assertEqual((status, sorted(os.listdir(self.path("site")))), (1, ["good.html", "index.html"]))
        self.assertIn("refused.cep:2:", output)
        self.assertNotIn("refused", read(self.path("site", "index.html")))
        self.assertIn("height=512: a page has derivations of at most 128 levels", output)


    def test_a_world_with_the_name_of_the_list(self):
        self.write("worlds/index.cep", read(WORLDS, "nim.cep"))
        self.assertEqual(self.site()[0], 0)
        self.assertIn('href="index-world.html"', read(self.path("site", "index.html")))


class About(unittest.TestCase):
    def test_titles_and_first_paragraphs(self):
        self.assertEqual(title_of("worlds/the_old-mill.cep"), "The old mill")
        self.assertEqual(first_paragraph("% One\n%   two.\n%\n% Three.\na : pred.\n"), "One two.")
        self.assertEqual(first_paragraph("%: start \"x\"\na : pred.\n"), "")


class Module(Setting):
    """Where the program for browsers is found, in the order in which it is looked for."""

    def found(self):
        with mock.patch.object(module, "TOP", self.folder), mock.patch.dict(os.environ):
            del os.environ["CEPTRE_WASM"]
            return module.path_of_module()

    def script(self, name, text):
        os.chmod(self.write(name, "#!/bin/sh\n" + text), 0o755)

    def test_what_is_named(self):
        self.assertEqual(module.module(), MODULE)

    def test_that_of_an_installation(self):
        path = self.write("web/ceptre.wasm", "")
        self.assertEqual(self.found(), path)

    def test_that_of_a_checkout(self):
        self.script(".ci/sources", "echo now\n")
        self.script(".ci/wasm", "exit 3\n")
        path = self.write("out/ceptre.wasm", "")
        self.write("out/ceptre.wasm.sources", "now\n")
        self.assertEqual(self.found(), path)

    def test_it_is_made_where_it_is_not_there_or_of_other_sources(self):
        self.script(".ci/sources", "echo now\n")
        self.script(".ci/wasm", 'echo said; mkdir -p "$1" && echo made >"$1/ceptre.wasm"\n')
        self.assertEqual(read(self.found()), "made\n")
        self.write("out/ceptre.wasm", "kept")
        self.assertEqual(read(self.found()), "kept")
        self.write("out/ceptre.wasm.sources", "before\n")
        self.assertEqual(read(self.found()), "made\n")

    def test_it_cannot_be_made(self):
        with self.assertRaisesRegex(CannotRun, "there is no ceptre.wasm, which a page needs"):
            self.found()
        self.script(".ci/sources", "echo now\n")
        self.script(".ci/wasm", "exit 3\n")
        with self.assertRaisesRegex(CannotRun, "none can be made"):
            self.found()

    def test_all_that_a_page_is_made_of_is_there(self):
        for name in ("page.html", "page.css", "page.js", "prose.js", "walk.html", "walk.js", "loader.js", "index.html"):
            self.assertTrue(os.path.exists(os.path.join(TOP, "web", name)), name)


if __name__ == "__main__":
    unittest.main()
