"""./dustroute why, and tools/why: what is said, what is drawn, how it ends."""
import json
import os
import subprocess
import sys
import tempfile
import unittest
import xml.etree.ElementTree as ElementTree
from pathlib import Path

from common import EXAMPLES, content

ROOT = Path(__file__).resolve().parents[2]
COMMANDS = ([str(ROOT / "dustroute"), "why"], [str(ROOT / "tools" / "why")])
DOOR = os.path.join(EXAMPLES, "lever-door")
NET_SAYS = ("Sink 1 at (6, 1, 0) can't be reached, at any costs.\n"
            "From (6, 1, 0) wire gets to 14 cells and no further. Round them stand 24 Solid, 1 RedstoneLamp and the room's edge; "
            "1 cell has nothing beneath that bears; 2 cells are kept free: 2 beside a live block.\n"
            "Try this: take away the Solid at (4, 1, 2); then sink 1 is reached.\n"
            "Try this: move the Lever at (6, 1, 3); then sink 1 is reached.\n")
DOOR_SAYS = ("No wire can get from (6, 1, 0) to (1, 1, 2), at any costs.\n"
             "From (6, 1, 0) wire gets to 16 cells and no further. Round them stand 25 Solid, 1 Lever, 1 RedstoneLamp and the room's edge; "
             "2 cells have nothing beneath that bears.\n")
ROW = "room 5 1 1\nblock solid 2 0 0\nsource 0 0 0\nsink 4 0 0\n"


def run(*words, given="", command=COMMANDS[0]):
    done = subprocess.run([sys.executable, *command, *words], input=given.encode(), stdout=subprocess.PIPE, stderr=subprocess.PIPE, check=False)
    return done.returncode, done.stdout.decode(), done.stderr.decode()


class Viewed(unittest.TestCase):
    """`view --why` draws the page that `why -o` draws."""
    VIEWS = ([str(ROOT / "dustroute"), "view"], [str(ROOT / "tools" / "view")])

    def test_the_same_page(self):
        with tempfile.TemporaryDirectory() as folder:
            page = Path(folder, "why.html")
            for mode in ([], ["--strict"]):
                self.assertEqual(run(DOOR + ".txt", "-o", str(page), *mode), (0, NET_SAYS, ""))
                for command in self.VIEWS:
                    self.assertEqual(run(DOOR + ".txt", "--why", *mode, command=command), (0, page.read_text(encoding="utf-8"), ""))

    def test_nothing_to_draw(self):
        for words, said in ((("--why", os.path.join(EXAMPLES, "lane.txt")), "view: there is no reason to draw. Every sink is reached: 1 branch, "),
                            (("--why", DOOR + ".sheet", DOOR + ".out"), "view: --why takes a job alone")):
            status, printed, message = run(*words, command=self.VIEWS[0])
            self.assertEqual((status, printed), (2, ""))
            self.assertIn(said, message)


class Net(unittest.TestCase):
    """Of a job's net: which sink wasn't reached, and what may be said of it."""

    def said(self, text, *words):
        status, said, told = run("-", *words, given=text)
        self.assertEqual((status, told), (0, ""))
        return said

    def example(self, name, *words):
        status, said, told = run(os.path.join(EXAMPLES, name + ".txt"), *words)
        self.assertEqual((status, told), (0, ""))
        return said

    def test_text_and_sheet_by_either_command(self):
        for command in COMMANDS:
            for end in (".txt", ".sheet"):
                self.assertEqual(run(DOOR + end, command=command), (0, NET_SAYS, ""))

    def test_the_examples(self):
        self.assertEqual(self.example("closet"), (
            "Sink 1 at (10, 1, 4) can't be reached from the net so far, at any costs.\n"
            "From (10, 1, 4) wire gets to 16 cells and no further. Round them stand 40 Solid, 2 Transparent, 1 RedstoneLamp and the room's edge; "
            "1 cell has nothing beneath that bears.\nSinks 2 and 3 were reached before it.\n"
            "Try this: take away the Solid at (8, 1, 3); then sink 1 is reached.\n"
            "Try this: take away the Transparent at (8, 1, 4); then sink 1 is reached.\n"))
        self.assertEqual(self.example("hemmed-in"), (
            "Sink 1 at (9, 1, 0) can't be reached from the net so far, at any costs.\n"
            "From (9, 1, 0) wire gets to 29 cells and no further. Round them stand 23 Solid, 1 RedstoneLamp and the room's edge; "
            "1 cell has nothing beneath that bears; 17 cells are kept free: 16 beside another net's wire and 1 reserved.\n"
            "Sink 2 was reached before it.\n"
            "Try this: move the other net's wire at (5, 1, 2), (5, 1, 3) and (5, 1, 4); then sink 1 is reached.\n"))
        self.assertEqual(self.example("shelf"), (
            "Sink 1 at (0, 1, 1) was not reached.\n"
            "Wire from (0, 1, 1) can get to the net, but each route tried lay right above or beneath wire of this net, or had a stair without "
            "headroom. There may be another way.\n"
            "Try this: let sink 1 face east; then sink 1 is reached.\n"
            "Try this: take away the Solid at (0, 1, 0); then sink 1 is reached.\n"
            "Try this: move sink 1 to (1, 1, 1); then sink 1 is reached.\n"))
        self.assertIn("1 cell is over one that is kept free, on which no wire may rest: 1 reserved.", self.example("hemmed-in", "--strict"))

    def test_what_is_tried_helps(self):
        """Each change that is told, made by hand in the text of the example, gives a tree."""
        for name, line, instead in (("closet", "clear 8 1 4 to 8 2 4", "clear 8 1 3\nclear 8 1 4 to 8 2 4"),
                                    ("closet", "block transparent 8 1 4 to 8 2 4 ", "block transparent 8 2 4 "),
                                    ("hemmed-in", "conductor 5 1 0 to 5 1 5 ", "conductor 5 1 0 to 5 1 1\nconductor 5 1 5"),
                                    ("shelf", "sink wire 0 1 1", "sink wire 0 1 1 east"), ("shelf", "block solid 0 1 0", "#"),
                                    ("shelf", "sink wire 0 1 1", "sink wire 1 1 1")):
            text = content(name + ".txt").decode()
            self.assertEqual(text.count(line), 1, line)
            self.assertIn("Every sink is reached: ", self.said(text.replace(line, instead)))

    def test_other_verdicts(self):
        row = "room 5 1 1\nsource 0 0 0\nsink 4 0 0%s\n"
        taken = self.said(row % " west" + "block lever 3 0 0\n")
        self.assertEqual(taken, "Sink 1 at (4, 0, 0) can't be reached, at any costs.\nThe cell from which it is approached, (3, 0, 0), holds a Lever.\n"
                                "Try this: take away the Lever at (3, 0, 0); then sink 1 is reached.\n")
        limited = self.said(row % "" + "limit 1\n")
        self.assertEqual(limited, "Sink 1 at (4, 0, 0) was not reached: its search was cut short.\nThe node limit is 1; a limit of 21 always suffices in "
                                  "this room. There may be a way.\nTry this: raise the node limit from 1 to 21; then sink 1 is reached.\n")
        cheap = self.said(row % "" + "limit 1\ncosts 0 0 0\n")
        self.assertIn("At a flat step under 10 or a stair under 20 it isn't known which node limit suffices; this one is 1.", cheap)
        self.assertIn("Try this: let a flat step cost 10 and a stair 20, at a node limit of 21; then sink 1 is reached.", cheap)
        thick = self.said(row % "" + "block solid 1 0 0 to 3 0 0\n")
        self.assertIn("doesn't help: more than one is in the way.", thick)

    def test_only_two_verdicts_say_that_it_can_not_be(self):
        for text, words in (("room 2 3 2\nsource 0 0 0\nsink 0 2 0\n", ()), ("room 2 3 2\nsource 0 0 0\nsink 0 2 0\n", ("--strict",)),
                            ("room 9 1 1\nlimit 1\nsource 0 0 0\nsink 8 0 0\n", ())):
            said = self.said(text, *words)
            self.assertNotIn("can't be reached", said)
            self.assertNotIn("no way to", said)
            self.assertIn("There may be", said)

    def test_who_had_a_turn(self):
        text = "room 1 1 9\nblock solid 0 0 3\nsource 0 0 1\nsink 0 0 8\nsink 0 0 0\nsink 0 0 4\n"
        self.assertIn("Sink 3 at (0, 0, 4) can't be reached from the net so far, at any costs.", self.said(text))
        self.assertIn("\nSink 2 was reached before it; sink 1 had no turn yet.\n", self.said(text))

    def test_every_sink_is_reached(self):
        with tempfile.TemporaryDirectory() as folder:
            out = os.path.join(folder, "lane.html")
            status, said, told = run(os.path.join(EXAMPLES, "lane.sheet"), "-o", out)
            self.assertEqual((status, said, os.path.exists(out)), (0, "Every sink is reached: 1 branch, 13 cells occupied. `route` draws them.\n", False))
            self.assertIn("no page was drawn", told)
        self.assertIsNone(json.loads(run(os.path.join(EXAMPLES, "lane.sheet"), "--json")[1])["why"])

    def test_json(self):
        told = json.loads(self.example("hemmed-in", "--json"))
        why = told["why"]
        self.assertEqual((told["room"], told["mode"], told["refused"]), ([11, 3, 8], "published", {"number": 14, "detail": 224}))
        self.assertEqual((why["sink"], why["at"], why["approach"], why["verdict"], why["impossible"]), (1, [9, 1, 0], [9, 1, 0], "shut in", True))
        self.assertEqual((len(why["reached"]), why["at_edge"], why["net_is_exact"]), (29, True, True))
        self.assertEqual((why["net"][0], why["net"][1][0], why["net"][1][-1]), ([], [1, 1, 5], [2, 1, 7]))
        self.assertIn({"at": [6, 1, 0], "reason": "kept free"}, why["walls"])
        self.assertIn({"at": [7, 1, 2], "causes": ["reserved"]}, why["kept_free"])
        self.assertEqual(why["tries"], [{"words": "move the other net's wire at (5, 1, 2), (5, 1, 3) and (5, 1, 4)", "at": [6, 1, 3]}])
        self.assertEqual(json.loads(self.example("hemmed-in", "--json", "--strict"))["mode"], "strict")
        document = (ROOT / "tools" / "README.md").read_text(encoding="utf-8")
        for key in {*told, *why, *why["walls"][0], *why["kept_free"][0], *why["tries"][0]}:
            self.assertIn("`%s`" % key, document)

    def test_a_page(self):
        with tempfile.TemporaryDirectory() as folder:
            out = os.path.join(folder, "closet.html")
            said = self.example("closet", "-o", out)
            with open(out, "rb") as file:
                drawn = "".join(ElementTree.fromstring(file.read()).itertext())
        for line in said.splitlines():
            words = line.replace("Try this: ", "")
            self.assertIn(words[:1].upper() + words[1:], drawn)


class Said(unittest.TestCase):
    """One search past the blocks alone."""

    def test_text_and_sheet_by_either_command(self):
        for command in COMMANDS:
            for end in (".txt", ".sheet"):
                self.assertEqual(run(DOOR + end, "--search", command=command), (0, DOOR_SAYS, ""))

    def test_json(self):
        told = json.loads(run(DOOR + ".txt", "--search", "--json")[1])
        self.assertEqual((told["from"], told["to"], told["way"], len(told["reached"])), ([6, 1, 0], [1, 1, 2], None, 16))
        self.assertEqual(told["words"] + "\n", DOOR_SAYS)
        told = json.loads(run("-", "--from", "3,0,0", "--json", given=ROW.replace("block solid 2 0 0\n", ""))[1])
        self.assertEqual(told["way"], [[3, 0, 0], [2, 0, 0], [1, 0, 0], [0, 0, 0]])

    def test_two_cells(self):
        self.assertEqual(run("-", "--from", "1,0,0", "--to", "3,0,0", given=ROW), (
            0, "No wire can get from (1, 0, 0) to (3, 0, 0), at any costs.\n"
               "From (1, 0, 0) wire gets to 2 cells and no further. Round them stand 1 Solid and the room's edge.\n", ""))
        # of the two one may be left out
        self.assertIn("from (4, 0, 0) to (3, 0, 0) past the blocks: 1 step,", run("-", "--to", "(3, 0, 0)", given=ROW)[1])

    def test_a_way_past_the_blocks(self):
        status, said, _ = run(os.path.join(EXAMPLES, "lane.sheet"), "--search")
        self.assertEqual(status, 0)
        self.assertIn("Wire can get from (12, 1, 2) to (0, 1, 2) past the blocks: 12 steps, 0 of them stairs.", said)

    def test_what_is_refused(self):
        for words, given, status, says in (
                (["-", "--from", "2,0,0"], ROW, 3, "cell (2, 0, 0), number 2, holds neither air nor redstone wire"),
                (["-", "--search"], ROW + "limit 0\n", 3, "the node limit 0 was passed; no wall is named"),
                (["-", "--search", "--strict"], ROW, 2, "--strict is for a net"),
                (["-", "--to", "5,0,0"], ROW, 2, "(5, 0, 0) is outside the room; its last cell is (4, 0, 0)"),
                (["-", "--to", "5,0"], ROW, 2, "'5,0' is no position; X,Y,Z was expected"),
                (["-"], "room 5 1 1\nsource 0 0 0\n", 2, "there is no sink; name the two cells with --from and --to"),
                (["-"], "room 5 1 1\nsource 0 0 0\nsink 4 0 0 east\n", 2, "name the two cells with --from and --to"),
                (["-"], ROW + "block solid 2 0 0\n", 2, "a second block in cell (2, 0, 0), number 2"),
                (["-"], "\1\0", 2, "(number 1)"),
                (["-"], "room 5 1\nsource 0 0 0\n", 2, "standard input:1: side Z is missing")):
            with self.subTest(given=given, words=words):
                found = run(*words, given=given)
                self.assertEqual((found[0], found[1]), (status, ""))
                self.assertIn(says, found[2])


class Drawn(unittest.TestCase):
    def test_a_page(self):
        with tempfile.TemporaryDirectory() as folder:
            out = os.path.join(folder, "door.html")
            self.assertEqual(run(DOOR + ".txt", "--search", "-o", out), (0, DOOR_SAYS, ""))
            with open(out, "rb") as file:
                said = "".join(ElementTree.fromstring(file.read()).itertext())
        self.assertIn(DOOR_SAYS.split("\n")[1], said)
        self.assertIn("lever-door.txt", said)

    def test_no_page_where_there_is_a_way(self):
        with tempfile.TemporaryDirectory() as folder:
            out = os.path.join(folder, "lane.html")
            status, said, told = run(os.path.join(EXAMPLES, "lane.sheet"), "--search", "-o", out)
            self.assertEqual((status, os.path.exists(out)), (0, False))
            self.assertIn("no page was drawn", told)
        self.assertIn("Wire can get", said)

    def test_the_example_is_the_routers(self):
        self.assertEqual(content("lever-door.out"), b"refused 14 114\n")
