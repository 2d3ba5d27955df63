"""./dustroute route: what it prints, what it tells, how it ends."""
import json
import os
import shutil
import signal
import subprocess
import sys
import tempfile
import unittest
import xml.etree.ElementTree as ElementTree
from pathlib import Path

from common import EXAMPLES, content, examples
from dustroute import header
from dustroute.repository import HEADER
from dustsheet import text as texts
from dustsheet.job import to_bytes

ROOT = Path(__file__).resolve().parents[2]
COMMAND = [sys.executable, str(ROOT / "dustroute")]
STORED = ROOT / "tests" / "route"
SMALL = "room 3 1 1\nblock lever 0 0 0\nsource 1 0 0\nsink 2 0 0\n"
SLEEPS = 4  # seconds
DARK = "room 5 20 22\nsource 1 1 0\nsink 1 19 19\n"


def run(*words, given=b"", **more):
    """Its status, what it prints and what it says on standard error."""
    done = subprocess.run([*COMMAND, *words], input=given, stdout=subprocess.PIPE, stderr=subprocess.PIPE, check=False, **more)
    return done.returncode, done.stdout.decode(), done.stderr.decode()


def routed(text, *words):
    return run("route", *words, "-", given=text if isinstance(text, bytes) else text.encode())


class Printed(unittest.TestCase):
    """Standard output is what program route prints, for texts and for sheets."""

    def test_examples(self):
        for name in examples():
            for end in (".txt", ".sheet"):
                status, printed, said = run("route", os.path.join(EXAMPLES, name + end))
                self.assertEqual(printed, content(name + ".out").decode(), name + end)
                self.assertEqual(status, 3 if printed.startswith("refused") else 0, said)

    def test_the_stored_sheets_of_the_program(self):
        # the program's own limits are not the library's: its room, its queue, its branch buffer
        own = ("2-over-4096", "1-before-over-4096", "13-", "15-")
        for file in sorted(STORED.glob("*.sheet")):
            if not file.name.startswith(own):
                status, printed, said = run("route", str(file))
                self.assertEqual(printed, file.with_suffix(".out").read_text(), file.name)
                self.assertEqual(status, 3 if printed.startswith("refused") else 0, said)

    def test_every_room_that_the_library_takes(self):
        for room, sink in (("25 25 25", "24 1 24"), ("64 4 64", "63 1 63"), ("16 64 16", "15 1 15"), ("300 8 27", "20 1 20")):
            status, printed, said = routed("room %s\nsource 0 1 0\nsink %s\n" % (room, sink))
            self.assertEqual(status, 0, said)
            self.assertTrue(printed.startswith("net 1 "))
        status, printed, said = routed("room 41 40 40\nsource 0 1 0\nsink 1 1 1\n")
        self.assertEqual((status, printed), (3, "refused 2 0\n"))
        self.assertIn("a room of 65600 cells; at most 65536 are allowed", said)

    def test_it_runs_from_anywhere_and_through_a_link(self):
        with tempfile.TemporaryDirectory() as folder:
            os.symlink(ROOT / "dustroute", os.path.join(folder, "link"))
            done = subprocess.run([os.path.join(folder, "link"), "route", os.path.join(EXAMPLES, "lane.txt")], cwd="/", stdout=subprocess.PIPE, check=False)
            self.assertEqual(done.stdout, content("lane.out"))


class Refused(unittest.TestCase):
    """On a refusal plain words go to standard error, and the status is 3."""

    def told(self, text, due, words):
        status, printed, said = routed(text)
        self.assertEqual((status, printed), (3, "refused %d %d\n" % due), said)
        self.assertIn(words, said)
        self.assertTrue(all(line.startswith("dustroute: ") for line in said.splitlines()), said)
        return said

    def test_words(self):
        self.told(b"\1\0", (1, 0), "dustroute: the sheet ends at byte 2")
        self.told(b"", (1, 0), "the sheet ends at byte 0")
        self.told("room 5 2 5\nsource 0 0 0\nblock solid 1 1 1\nblock solid 1 1 1\n", (7, 16), "standard input:4: a second block in cell (1, 1, 1)")
        self.told("room 5 2 5\nsource 0 0 0\nsink block-power 1 1 1\n", (8, 1), "standard input:3: sink 1: block-power needs a facing")
        self.told("room 5 2 5\nsource 0 0 0\nsink 9 1 1\n", (4, 0), "position (9, 1, 1) is outside the room")
        self.told("limit 800001\n" + SMALL, (3, 0), "a node limit of 800001; at most 800000 is allowed")

    def test_no_way(self):
        said = self.told("room 11 2 5\nblock solid 9 0 0 to 9 1 4\nsource 0 1 4\nsink 10 1 4\n", (14, 109), "no way was found to sink 1 at (10, 1, 4)\n")
        self.assertIn("dustroute: Sink 1 at (10, 1, 4) can't be reached, at any costs.\ndustroute: From (10, 1, 4) wire gets to 10 cells and no further. "
                      "Round them stand 10 Solid and the room's edge.\n", said)

    def test_it_never_says_that_there_is_no_way(self):
        """A tree's searches can miss one: in an empty room of 2x3x2 there is a way from cell 0 to cell 4."""
        said = self.told("room 2 3 2\nsource 0 0 0\nsink 0 2 0\n", (14, 4), "no way was found to sink 1 at (0, 2, 0)")
        self.assertNotIn("there is no way", said)
        self.assertNotIn("can't be reached", said)
        self.assertIn("There may be another way.", said)

    def test_the_limit_is_told_where_it_is_to_blame(self):
        room = "room 20 1 20\nlimit %d\nsource 0 0 0\nsink 19 0 19\n"
        said = self.told(room % 3, (14, 399), "the node limit 3 was passed; a limit of 1996 suffices")
        self.assertEqual(routed(room % 1996)[0], 0)
        said = self.told(room % 3 + "block solid 10 0 0 to 10 0 19\n", (14, 399), "can't be reached, at any costs")
        self.assertNotIn("was passed", said)
        two = "room 9 1 1\nlimit 3\nblock solid 7 0 0\nsource 0 0 0\nsink 5 0 0\nsink 8 0 0\n"
        self.told(two, (14, 5), "the node limit 3 was passed; a limit of 41 suffices for it, and then no way was found to sink 2 at (8, 0, 0)")

    def test_low_costs(self):
        self.told("costs 0 0 0\nlimit 2\nroom 9 1 1\nsource 0 0 0\nsink 8 0 0\n", (14, 8), "the node limit 2 was passed; a limit of 800000 suffices")
        shelf = "costs 0 0 0\nlimit %d\nroom 2 2 2\nblock solid 0 1 0\nsource 0 0 0\nsink 0 1 1\n"
        self.told(shelf % 800_000, (14, 3), "the node limit 800000 is the highest there is")
        self.told(shelf % 100, (14, 3), "a node limit of 800000 doesn't help")


class Json(unittest.TestCase):
    def test_a_net(self):
        status, printed, _ = run("route", "--json", os.path.join(EXAMPLES, "lane.txt"))
        said = json.loads(printed)
        self.assertEqual(said["supports"], {"fetch": 5, "start": 0, "on_path": 0})
        self.assertEqual((status, said["room"], said["occupied"], said["repeaters"]), (0, [13, 5, 5], 13, [[6, 3, 2]]))
        branch = said["branches"][0]
        self.assertEqual((branch["sink"], branch["at"], branch["steps"], branch["stairs"], branch["signal"]), (1, [12, 1, 2], 12, 4, 10))
        self.assertEqual((len(branch["cells"]), branch["cells"][-1], branch["repeaters"]), (13, [12, 1, 2], [[6, 3, 2]]))
        self.assertEqual(branch["new_supports"], [[4, 1, 2], [5, 2, 2], [6, 2, 2], [7, 2, 2], [8, 1, 2]])
        self.assertEqual(branch["signals"], [15, 14, 13, 12, 11, 10, 15, 15, 14, 13, 12, 11, 10])

    def test_limits(self):
        status, printed, _ = run("route", "--json", os.path.join(EXAMPLES, "dust-inside.txt"))
        said = json.loads(printed)
        self.assertEqual((status, said["run"], said["repeaters"]), (0, 12, [[6, 1, 5]]))
        self.assertEqual([(branch["tail"], branch["signal"]) for branch in said["branches"]], [(11, 4), (4, 12)])

    def test_a_refusal(self):
        status, printed, said = routed("room 2 3 2\nsource 0 0 0\nsink 0 2 0\n", "--json")
        told = json.loads(printed)
        self.assertEqual((status, told["refused"]["number"], told["refused"]["detail"]), (3, 14, 4))
        self.assertIn("no way was found to sink 1", told["refused"]["words"])
        for line in told["refused"]["words"].split("\n"):
            self.assertIn("dustroute: %s\n" % line, said)
        why = told["refused"]["why"]
        self.assertEqual((why["sink"], why["approach"], why["verdict"], why["impossible"], why["reached"]), (1, [0, 2, 0], "conflicts", False, []))
        self.assertIsNone(json.loads(routed(b"\1", "--json")[1])["room"])

    def test_every_key_is_in_the_document(self):
        document = (ROOT / "tools" / "README.md").read_text(encoding="utf-8")
        net = json.loads(run("route", "--json", os.path.join(EXAMPLES, "lane.txt"))[1])
        refused = json.loads(run("route", "--json", os.path.join(EXAMPLES, "walled-in.txt"))[1])
        for key in {*net, *net["branches"][0], *refused, *refused["refused"], *refused["refused"]["why"]}:
            self.assertIn("`%s`" % key, document)

    def test_warnings(self):
        told = json.loads(routed(DARK, "--json")[1])
        self.assertIn([1, 19, 19], [warning["at"] for warning in told["warnings"]])
        self.assertIn("shape", told["not_checked"])


class Strict(unittest.TestCase):
    """--strict: another answer is printed, told as JSON and drawn, and no warning of wire on another net's."""
    GAP = os.path.join(EXAMPLES, "gap.txt")

    def test_the_example(self):
        for words, file in (([], "gap.out"), (["--strict"], "gap-strict.out")):
            status, printed, said = run("route", *words, self.GAP)
            self.assertEqual((status, printed), (0, content(file).decode()))
            self.assertEqual("needs a support at (4, 1, 0), which is another net's conductor" in said, not words, said)

    def test_json(self):
        for words, mode, supports in (([], "published", [[4, 1, 0]]), (["--strict"], "strict", [[4, 2, 0]])):
            told = json.loads(run("route", "--json", *words, self.GAP)[1])
            self.assertEqual((told["mode"], told["branches"][0]["new_supports"]), (mode, supports))
        self.assertEqual(json.loads(routed(b"\1", "--json", "--strict")[1])["mode"], "strict")

    def test_a_refusal_and_the_node_limit(self):
        over = "room 1 2 3\nlimit %d\nconductor 0 0 1\nsource 0 1 0\nsink 0 1 2\n"
        self.assertEqual(routed(over % 1, "--strict")[1], "refused 14 5\n")
        # the published mode has a way at a limit that suffices; strict mode has none
        self.assertIn("the node limit 1 was passed", routed(over % 1)[2])
        self.assertIn("Sink 1 at (0, 1, 2) can't be reached, at any costs.", routed(over % 1, "--strict")[2])

    def test_the_page_says_which_mode(self):
        with tempfile.TemporaryDirectory() as folder:
            page = os.path.join(folder, "page.html")
            for words, says in (([], "Published mode:"), (["--strict"], "Strict mode:")):
                run("route", self.GAP, "--view", page, *words)
                text = "".join(ElementTree.parse(page).getroot().itertext())
                self.assertEqual([mode for mode in ("Published mode:", "Strict mode:") if mode in text], [says])


class Views(unittest.TestCase):
    def test_pages(self):
        with tempfile.TemporaryDirectory() as folder:
            page = os.path.join(folder, "page.html")
            for name, words in (("lane.txt", "The net: 1 branch"), ("walled-in.sheet", "Refused.")):
                _, printed, _ = run("route", os.path.join(EXAMPLES, name), "--view", page)
                self.assertEqual(printed, content(name.split(".")[0] + ".out").decode())
                self.assertIn(words, "".join(ElementTree.parse(page).getroot().itertext()))
            for given in (b"\1\0", b"room 64 4 64\nsource 0 9 0\n", b"room 64 4 64\nsource 0 1 0\nsink 63 1 63\n"):
                run("route", "-", "--view", page, given=given)
                ElementTree.parse(page)

    def test_view_takes_a_text_and_an_answer(self):
        with tempfile.TemporaryDirectory() as folder:
            page = os.path.join(folder, "page.html")
            status, _, said = run("view", os.path.join(EXAMPLES, "lane.txt"), os.path.join(EXAMPLES, "lane.out"), "-o", page)
            self.assertEqual((status, said), (0, ""))
            self.assertIn("The net: 1 branch", "".join(ElementTree.parse(page).getroot().itertext()))
            self.assertEqual(run("view", os.path.join(EXAMPLES, "lane.txt"))[0], 0)


class Warned(unittest.TestCase):
    def test_a_lamp_that_stays_dark(self):
        status, printed, said = routed(DARK)
        self.assertEqual((status, printed[:6]), (0, "net 1 "))
        self.assertIn("dustroute: warning: sink 1 at (1, 19, 19) stays dark: 19 steps behind the source, and no repeater fits", said)

    def test_nothing_is_said_where_nothing_is_wrong(self):
        for name in ("lane", "lamp", "three-lamps", "power-block"):
            self.assertEqual(run("route", os.path.join(EXAMPLES, name + ".txt"))[2], "", name)


class Habits(unittest.TestCase):
    def test_help_and_version(self):
        for words in (["--help"], ["route", "--help"], ["sheet", "make", "--help"], ["view", "-h"]):
            status, printed, said = run(*words)
            self.assertEqual((status, said), (0, ""))
            self.assertTrue(printed.startswith("usage: dustroute"), printed)
        cargo = (ROOT / "bindings" / "rust" / "Cargo.toml").read_text(encoding="utf-8")
        status, printed, _ = run("--version")
        self.assertEqual(status, 0)
        self.assertIn('version = "%s"' % printed.split()[1], cargo)

    def test_bad_usage_and_bad_files(self):
        for words in ([], ["rout"], ["route"], ["route", "--unknown", "x"], ["route", "/no/such/file"], ["route", "/"], ["sheet"]):
            status, printed, said = run(*words)
            self.assertEqual((status, printed), (2, ""), words)
            self.assertTrue(said)
            self.assertNotIn("Traceback", said)
        status, printed, said = routed("room 3 1 1\nblok\n")
        self.assertEqual((status, printed), (2, ""))
        self.assertIn("standard input:2: unknown word 'blok'; did you mean 'block'?", said)
        self.assertIn("this is no text", routed(b"room 3 1 1\n\xff")[2])

    def test_sheet_make_and_show(self):
        status, printed, _ = run("sheet", "make", os.path.join(EXAMPLES, "lane.txt"), "--hex")
        self.assertEqual((status, bytes.fromhex(printed)), (0, content("lane.sheet")))
        status, printed, _ = run("sheet", "show", os.path.join(EXAMPLES, "lane.sheet"))
        self.assertEqual((status, to_bytes(texts.job_of(texts.read(printed, "shown")))), (0, content("lane.sheet")))

    def test_an_answer_that_can_not_be_written(self):
        with open("/dev/full", "wb") as full:
            done = subprocess.run([*COMMAND, "route", os.path.join(EXAMPLES, "lane.txt")], stdout=full, stderr=subprocess.PIPE, check=False)
        self.assertEqual(done.returncode, 1)
        self.assertIn(b"the answer could not be written", done.stderr)

    def test_a_library_that_is_not_there(self):
        with tempfile.TemporaryDirectory() as folder:
            status, printed, said = run("route", os.path.join(EXAMPLES, "lane.txt"), env={**os.environ, "DUSTROUTE_ARCHIVE": folder})
        self.assertEqual((status, printed), (1, ""))
        self.assertIn("there is no libdustroute.so in it", said)


@unittest.skipUnless(shutil.which("cc"), "no C compiler: no library that takes long can be made")
class LongWork(unittest.TestCase):
    """Work of over a second tells that it goes on, -q silences it, and Ctrl-C and TERM end it. A library that sleeps stands in."""

    @classmethod
    def setUpClass(cls):
        cls.folder = tempfile.TemporaryDirectory()
        cls.addClassCleanup(cls.folder.cleanup)
        names = header.read(HEADER).functions
        # 13 without a word more; no reason is told then
        code = "unsigned sleep(unsigned);\n" + "".join("unsigned %s(void) { sleep(%d); return %d; }\n" % (name, SLEEPS, 0 if "why" in name else 13)
                                                       for name in names)
        library = os.path.join(cls.folder.name, "libdustroute.so")
        subprocess.run(["cc", "-shared", "-fPIC", "-x", "c", "-", "-o", library], input=code.encode(), check=True)

    def started(self, *words):
        process = subprocess.Popen([*COMMAND, "route", *words, os.path.join(EXAMPLES, "lane.txt")], stdout=subprocess.PIPE, stderr=subprocess.PIPE,
                                   env={**os.environ, "DUSTROUTE_ARCHIVE": self.folder.name})
        self.addCleanup(process.stdout.close)
        self.addCleanup(process.stderr.close)
        self.addCleanup(process.wait)
        self.addCleanup(process.kill)
        return process

    def test_progress(self):
        self.assertRegex(self.started().stderr.readline(), rb"^dustroute: routing, [0-9]+ s\n$")

    def test_quiet(self):
        process = self.started("-q")
        self.assertEqual(process.wait(60), 3)
        self.assertNotIn(b"routing", process.stderr.read())

    def test_signals(self):
        for how, status in ((signal.SIGINT, 130), (signal.SIGTERM, -signal.SIGTERM)):
            process = self.started()
            process.stderr.readline()
            process.send_signal(how)
            self.assertEqual(process.wait(10), status)
            self.assertNotIn(b"Traceback", process.stderr.read())
