"""Pages in a headless browser: played to their ends, undone, saved, checked, by mouse and by keyboard."""

from __future__ import annotations

import os
import re
import tempfile
import unittest

import setting
from browser import MISSING as NO_DRIVER
from browser import Browser

MISSING = NO_DRIVER or setting.MISSING

# The worlds that are clicked to their ends, and the words of `publish` and of the program for them.
PLAYED: dict[str, tuple[list[str], list[str]]] = {
    "castle": ([], ["play"]),
    "market": ([], ["play"]),
    "dungeon": (["--height", "12"], ["play", "height=12"]),
    "nim": ([], ["play"]),
    "race": (["--players", "3"], ["rounds", "players=3"]),
}

HOSTILE = """\
% <script>document.title = 'broken'</script> & "quotes" ' </script><!-- <script>
place : type.  here : place.  there : place.  constructor : place.
at place : pred.
stage main = {
  toString : at here -o at there.
  go : at there -o at constructor.
}
#interactive main.
#trace _ main { at here }.
%: start "<script>document.title = 'broken'</script> </script> & &amp; \\"quoted\\" <!-- <b>bold</b>"
%: toString "<img src=x onerror=alert(1)> {A}" "</button><script>x</script> & 'go'"
%: at "</li><b>{1}</b>"
%: here "<i>here</i>"
"""

# As many offers as there may be.
MANY = (
    "t : type.\n"
    + "".join(f"c{n} : t.\n" for n in range(256))
    + "a t : pred.\nb t : pred.\nstage main = { pick : $a X * $b Y -o (). }\n#interactive main.\n#trace _ main { "
    + ", ".join(f"a c{n}, b c{n}" for n in range(256))
    + " }.\n"
)

# A turn that takes longer than anybody waits: 60 to the fifth ways to meet premises that nothing meets at last.
ENDLESS = (
    "t : type.\n"
    + "".join(f"c{n} : t.\n" for n in range(60))
    + "a t : pred.\nz t t t t t : pred.\nb : pred.\nnothing : fact.\nstage main = {\n  begin : $nothing -o b.\n"
    + "  wait : b * a A * a B * a C * a D * a E * z A B C D E -o ().\n}\n#interactive main.\n#trace _ main { nothing, "
    + ", ".join(f"a c{n}" for n in range(60))
    + " }.\n"
)

# A derivation of 512 levels of eight goals each, which the stack of no worker holds.
DEEP = (
    "n : type. z : n. s n : n.\nok : bwd. ok.\nhigh n : bwd.\nhigh z.\n"
    + "high (s N) <- ok <- ok <- ok <- ok <- ok <- ok <- ok <- high N.\nat n : pred. ready : fact. done : pred.\n"
    + "stage main = {\n  begin : $ready -o at "
    + "(s " * 500
    + "z"
    + ")" * 500
    + ".\n  climb : at N * high N -o done.\n}\n#interactive main.\n#trace _ main { ready }.\n"
)


# The state after six steps of a game in the castle.
STATE_THEN = [
    "You are in the tower",
    "The guard is in the winding stairs (gone)",
    "The guard is in the cellar",
    "You carry the crown",
    "The guard is awake",
]


@unittest.skipIf(MISSING, MISSING)
class Pages(unittest.TestCase):
    browser: Browser
    folder: str

    @classmethod
    def setUpClass(cls) -> None:
        place = tempfile.TemporaryDirectory()
        cls.addClassCleanup(place.cleanup)
        cls.folder = place.name
        cls.browser = Browser(place.name)
        cls.addClassCleanup(cls.browser.close)
        for name, (words, _) in PLAYED.items():
            setting.publish(place.name, os.path.join(setting.WORLDS, name + ".cep"), *words)

    def setUp(self) -> None:
        self.browser.size(1280, 900)
        self.browser.prefer(prefers_color_scheme="light")

    def open(self, name: str) -> None:
        self.browser.open(os.path.join(self.folder, name + ".html"))

    def expected(self, name: str, typed: list[str], *options: str) -> bytes:
        command, *words = PLAYED[name][1]
        world = os.path.join(setting.WORLDS, name + ".cep")
        return setting.native("".join(f"{choice}\n" for choice in typed), command, world, *words, *options)

    def choose(self, number: str) -> None:
        """Clicks an offer, after the curtain where one hides it."""
        if self.browser.value("!document.getElementById('curtain').hidden"):
            self.browser.click("#present")
        self.browser.click(f'#offers button[data-number="{number}"]')
        self.browser.idle()

    def download(self, name: str) -> bytes:
        self.browser.script("document.querySelector('main details').open = true")
        return self.browser.downloaded("#download", name + ".log")

    def said(self) -> str:
        return self.browser.text("#said")

    def test_worlds_are_played_to_their_ends_and_undone(self) -> None:
        for name in PLAYED:
            with self.subTest(name):
                self.open(name)
                typed = setting.choices_of(name)
                for number in typed:
                    self.choose(number)
                log = self.download(name)
                self.assertEqual(log, self.expected(name, typed))
                path = os.path.join(self.folder, "given.log")
                with open(path, "wb") as file:
                    file.write(log)
                world = os.path.join(setting.WORLDS, name + ".cep")
                self.assertRegex(setting.native("", "check", world, path), b"^accepted ")
                self.browser.click("#check")
                self.waited("is accepted")
                for _ in range(2):
                    self.browser.click("#undo")
                    self.browser.idle()
                left = self.expected(name, typed[:-2])
                self.assertEqual(self.download(name), left)
                shown = self.browser.value("document.querySelectorAll('#story .step').length")
                self.assertEqual(shown, len(re.findall(rb"^step ", left, re.MULTILINE)))

    def errors(self) -> list[str]:
        """What the browser has to say of the page."""
        return [entry["message"] for entry in self.browser.log("browser")]

    def test_no_page_asks_for_anything(self) -> None:
        self.browser.log("performance")
        self.open("castle")
        self.choose("1")
        went = str([entry["message"] for entry in self.browser.log("performance")])
        self.assertEqual(re.findall(r'"url":"(?!file:|blob:|data:|about:)([^"]+)"', went), [])
        self.assertEqual(self.errors(), [])
        script = "fetch('https://localhost/').catch(() => arguments[0]('refused'))"
        refused = self.browser.call("POST", "/execute/async", {"script": script, "args": []})
        self.assertEqual(refused, "refused")
        self.browser.log("browser")

    def test_the_keyboard_plays_and_undoes(self) -> None:
        self.open("castle")
        self.browser.type("1")
        self.browser.idle()
        self.browser.type("\ue015\ue015\ue007")
        self.browser.wait("!game.busy && game.typed.length === 2")
        self.assertEqual(self.browser.value("game.typed"), [1, 2])
        self.assertEqual(self.browser.value("document.activeElement.id"), "now")
        self.browser.type("u")
        self.browser.wait("game.typed.length === 1")
        self.assertEqual(self.said(), "The last choice is taken back.")
        self.browser.click("#keys")
        self.browser.type("1")
        self.assertEqual(self.browser.value("game.typed"), [1])

    def test_what_a_screen_reader_is_handed(self) -> None:
        self.open("castle")
        self.choose("1")
        tree = self.browser.tree()
        buttons = [name for role, name in tree if role == "button"]
        for offer in ("1 Slip into the garden", "2 Slip into the winding stairs", "3 Slip into the cellar"):
            self.assertIn(offer, buttons)
        self.assertNotIn("", buttons)
        self.assertEqual([name for role, name in tree if role in ("listitem", "paragraph") and name], [])
        self.assertIn(("log", "The story so far"), tree)
        self.assertIn(("heading", "Choose (3 ways)"), tree)
        self.assertIn(("region", "What there is now"), tree)
        self.assertLessEqual({"main", "status", "textbox", "checkbox", "contentinfo"}, {role for role, _ in tree})
        self.assertIn("You slip into the great hall.", [name for _, name in tree])

    def test_each_width_and_both_colours(self) -> None:
        self.open("dungeon")
        self.choose("1")
        for width in (320, 1280):
            for scheme in ("light", "dark"):
                with self.subTest(width=width, scheme=scheme):
                    self.browser.size(width, 900)
                    self.browser.prefer(prefers_color_scheme=scheme, prefers_reduced_motion="reduce")
                    self.assertLessEqual(self.browser.value("document.documentElement.scrollWidth"), width)
                    self.assertEqual([pair for pair in self.contrasts() if pair[1] < 4.5], [])
                    high = "[...document.querySelectorAll('button')].map((it) => it.offsetHeight).filter(Boolean)"
                    self.assertGreaterEqual(min(self.browser.value(high)), 24)

    def contrasts(self) -> list[tuple[str, float]]:
        """The contrast of each text that is shown with what is behind it."""
        found: list[tuple[str, float]] = self.browser.script("""
            const parts = (colour) => (colour.match(/[\\d.]+/g) || []).map(Number);
            const light = ([red, green, blue]) => [red, green, blue].map((part) => part / 255)
              .map((part) => part <= 0.04045 ? part / 12.92 : ((part + 0.055) / 1.055) ** 2.4)
              .reduce((sum, part, n) => sum + part * [0.2126, 0.7152, 0.0722][n], 0);
            const behind = (it) => { const own = parts(getComputedStyle(it).backgroundColor);
              return own.length === 4 && own[3] === 0 ? behind(it.parentElement) : own; };
            const shown = [...document.querySelectorAll('body *')].filter((it) => it.offsetHeight && !it.disabled
              && [...it.childNodes].some((node) => node.nodeType === 3 && node.data.trim()));
            return shown.map((it) => {
              const [low, high] = [light(parts(getComputedStyle(it).color)), light(behind(it))].sort((a, b) => a - b);
              return [it.tagName + ' ' + it.id, (high + 0.05) / (low + 0.05)]; });
        """)
        self.assertGreater(len(found), 10)
        return found

    def test_what_is_printed(self) -> None:
        self.open("castle")
        self.choose("1")
        self.browser.devtools("Emulation.setEmulatedMedia", media="print")
        self.assertEqual(self.browser.value("document.getElementById('table').offsetHeight"), 0)
        self.assertIn("You slip into the great hall.", self.browser.text("#story"))
        self.browser.devtools("Emulation.setEmulatedMedia", media="")

    def test_saved_games(self) -> None:
        self.open("castle")
        for number in ("1", "2"):
            self.choose(number)
        self.browser.script("document.querySelector('main details').open = true")
        self.browser.click("#keep")
        self.assertEqual(self.said(), "Saved: 2 choices.")
        saved = self.browser.downloaded("#save", "castle.saved").decode()
        self.assertRegex(saved, r"^saved game of castle.cep, world [0-9a-f]{16}, seed 42\n1\n2\n$")
        self.open("castle")
        self.browser.script("document.querySelector('main details').open = true")
        self.browser.click("#fetch")
        self.browser.wait("game.typed.length === 2")
        self.assertEqual(self.said(), "Loaded: 2 choices.")
        self.browser.click("#again")
        self.browser.idle()
        self.given("castle.saved", saved.replace("\n2\n", "\n2\n77\n1\n"))
        self.browser.wait("game.typed.length === 2")
        self.assertEqual(self.said(), "Only 2 of 4 choices could be made.")
        self.given("other.saved", re.sub("world .{16}", "world 0123456789abcdef", saved))
        self.assertIn("That was saved in another world", self.waited("another world"))

    def given(self, name: str, text: str) -> None:
        """Hands the page a file."""
        path = os.path.join(self.folder, name)
        with open(path, "w", encoding="utf-8") as file:
            file.write(text)
        self.browser.type(path, "#file")

    def waited(self, text: str) -> str:
        """What the page says, once it has this text."""
        self.browser.wait(f"document.getElementById('said').textContent.includes('{text}')")
        return self.said()

    def test_transcripts_are_checked(self) -> None:
        self.open("castle")
        self.browser.script("document.querySelector('main details').open = true")
        self.given("given.log", setting.read(os.path.join(setting.WORLDS, "castle.log")))
        self.assertEqual(self.waited("given.log"), "given.log is accepted: it is legal, with 11 steps.")
        log = setting.read(os.path.join(setting.WORLDS, "castle.log"))
        text = log.replace("step take R=tower", "step take R=hall", 1)
        self.browser.script(
            "const moved = new DataTransfer(); moved.items.add(new File([arguments[0]], 'mine.log'));"
            "const dropped = new DragEvent('drop', { dataTransfer: moved, bubbles: true, cancelable: true });"
            "document.body.dispatchEvent(dropped)",
            text,
        )
        said = "mine.log is refused at line 26: NotContained have 0 need 1 thief hall."
        self.assertEqual(self.waited("mine.log"), said)

    def test_another_seed(self) -> None:
        self.open("nim")
        self.browser.script("document.getElementById('seed').value = ''")
        self.browser.type("7\ue007", "#seed")
        self.browser.wait("!game.busy && game.seed === '7'")
        self.assertEqual(self.download("nim"), self.expected("nim", [], "seed=7"))
        self.browser.script("document.getElementById('seed').value = ''")
        self.browser.type("seven\ue007", "#seed")
        self.assertIn("A seed is a number", self.said())

    def test_players_take_turns_at_one_screen(self) -> None:
        self.open("race")
        self.assertEqual(self.browser.value("document.getElementById('table').offsetHeight"), 0)
        self.assertEqual(self.browser.text("#come"), "It is the turn of player 1")
        self.choose("1")
        self.assertEqual(self.browser.text("#come"), "It is the turn of player 2")
        self.choose("1")
        self.choose("2")
        self.assertIn("Player 2 cannot do that: run: ann", self.browser.text("#story"))

    def test_texts_of_a_world_are_texts(self) -> None:
        title = '</title><script>1</script> & "it"'
        self.browser.open(setting.made(self.folder, "hostile", HOSTILE, "--title", title))
        self.assertEqual(self.browser.value("document.title"), title)
        self.assertIn('& &amp; "quoted" <!-- <b>bold</b>', self.browser.text("#story"))
        self.assertEqual(self.browser.text("#offers").split("\n")[-1], "</button><script>x</script> & 'go'")
        self.assertEqual(self.browser.text("#state"), "</li><b><i>here</i></b>")
        self.choose("1")
        self.choose("1")
        self.assertIn("<img src=x onerror=alert(1)> {A}", self.browser.text("#story"))
        self.assertEqual(self.browser.text("#state"), "</li><b>constructor</b>")
        made = "document.querySelectorAll('main script, main img, main b, main i').length"
        self.assertEqual(self.browser.value(made), 0)
        self.assertEqual(self.browser.value("document.title"), title)
        self.assertEqual(self.browser.value("document.getElementById('text').textContent"), HOSTILE)
        self.assertEqual(self.errors(), [])

    def test_as_many_offers_as_there_may_be(self) -> None:
        self.browser.open(setting.made(self.folder, "many", MANY))
        self.assertEqual(self.browser.text("#now"), "Choose (65,536 ways)")
        self.assertEqual(self.browser.value("document.querySelectorAll('#offers button').length"), 50)
        self.assertTrue(self.browser.value("document.getElementById('earlier').disabled"))
        self.browser.click("#more")
        self.assertEqual(self.browser.text("#part"), "51 to 100 of 65,536 offers")
        self.browser.type("pick c200 c255", "#words")
        found = ["51456", "Pick: c200, c255", "65481", "Pick: c255, c200"]
        self.assertEqual(self.browser.text("#offers").split("\n"), found)
        self.browser.click("#offers button")
        self.browser.idle()
        self.assertEqual(self.browser.value("game.typed"), [51456])

    def test_a_turn_without_end_is_stopped(self) -> None:
        self.browser.open(setting.made(self.folder, "endless", ENDLESS))
        self.browser.click("#offers button")
        self.browser.wait("!document.getElementById('stop').hidden")
        self.browser.click("#stop")
        self.browser.idle()
        self.assertEqual(self.said(), "That took too long, and is undone.")
        self.assertEqual(self.browser.value("game.typed"), [])
        self.browser.script("check('This game', game.transcript)")
        self.waited("is accepted")

    def test_what_breaks_off_is_said_and_undone(self) -> None:
        deep = setting.made(self.folder, "deep", DEEP, "--height", "128")
        self.browser.open(setting.changed(deep, "height=128", "height=512"))
        self.browser.click("#offers button")
        self.browser.idle()
        self.assertIn("more of the browser's stack than there is, and is undone", self.said())
        self.assertEqual(self.browser.text("#now"), "Choose (1 way)")
        castle = os.path.join(self.folder, "castle.html")
        full = "ceptre = { run: (m, r) => r.typed.length ? { status: 9, said: new Uint8Array() } : run(m, r) };"
        self.browser.open(setting.changed(castle, "ceptre = { run };", full))
        self.browser.click("#offers button")
        self.browser.idle()
        self.assertEqual(self.said(), "Out of memory: that choice is undone.")
        trap = "ceptre = { run: (m, r) => { if (r.typed.length) throw new Error('a trap'); return run(m, r); } };"
        self.browser.open(setting.changed(castle, "ceptre = { run };", trap))
        self.browser.click("#offers button")
        self.browser.idle()
        self.assertEqual(self.said(), "The program broke off (Error: a trap), and that choice is undone.")

    def test_a_transcript_is_walked_through_and_gone_on_with(self) -> None:
        world = os.path.join(setting.WORLDS, "castle")
        setting.publish(self.folder, world + ".cep", "--transcript", world + ".log", "-o", "walked.html")
        self.open("walked")
        self.assertEqual(self.browser.text("#step"), "The start, before 11 steps")
        for _ in range(4):
            self.browser.click("#next")
        self.browser.type("\ue014\ue014")
        self.assertEqual(self.browser.text("#step"), "Step 6 of 11: The guard comes to the cellar.")
        self.assertEqual(self.browser.text("#rests"), "Step 6 rests on steps 4 and 5.")
        self.assertEqual(self.browser.text("#state-then").split("\n"), STATE_THEN)
        self.assertEqual(self.browser.value("document.querySelectorAll('#causes path').length"), 7 - 1)
        self.assertIn(("button", "6 The guard comes to the cellar."), self.browser.tree())
        self.browser.size(320, 900)
        self.assertLessEqual(self.browser.value("document.documentElement.scrollWidth"), 320)
        self.browser.click("#last")
        self.assertEqual(self.browser.text("#state-then").split("\n")[-1], "You are rich")
        self.browser.click("#back")
        self.browser.click("#goon")
        self.browser.wait("!game.busy && game.typed.length === 10")
        self.assertIn("Flee over the wall", self.browser.text("#offers"))
        self.choose("7")
        log = self.download("castle").decode()
        self.assertEqual(log, setting.read(world + ".log"))

    def test_the_site_of_all_worlds(self) -> None:
        setting.publish(self.folder, "--site", setting.WORLDS, "--title", "All")
        self.browser.call("POST", "/url", {"url": f"file://{self.folder}/site/index.html"})
        for said in ("for one, 3 choices when it was played once", "for 3 at one screen", "runs by itself"):
            self.assertIn(said, self.browser.text("main"))
        self.browser.size(320, 900)
        self.assertLessEqual(self.browser.value("document.documentElement.scrollWidth"), 320)
        pages = self.browser.value("[...document.links].map((link) => decodeURI(link.pathname))")
        names = [name[:-4] for name in sorted(os.listdir(setting.WORLDS)) if name.endswith(".cep")]
        self.assertEqual([os.path.basename(page) for page in pages], [name + ".html" for name in names])
        for name, page in zip(names, pages):
            with self.subTest(name):
                self.browser.open(page)
                words = setting.words_of(name)
                command = "rounds" if any("players=" in word for word in words) else "play"
                log = setting.native("", command, os.path.join(setting.WORLDS, name + ".cep"), *words).decode()
                self.assertEqual(self.browser.value("textOf(game.transcript)"), log)
                self.assertLessEqual(self.browser.value("document.documentElement.scrollWidth"), 320)
        self.assertEqual(self.errors(), [])


if __name__ == "__main__":
    unittest.main()
