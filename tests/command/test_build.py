"""./dustroute build: the function file, the data pack, what it tells and what it refuses."""
import os
import tempfile
import unittest
import zipfile

from common import EXAMPLES, content, examples
from dustroute import nets, read_function
from dustsheet import answer as answers
from dustsheet.job import from_bytes, sheets_of
from dustsheet.laying import lay
from test_route import run

SMALL = b"room 3 1 1\nblock lever 0 0 0\nsource 1 0 0\nsink 2 0 0\n"
LINES = ("setblock ~ ~ ~ minecraft:lever[face=floor] replace\nsetblock ~1 ~ ~ minecraft:redstone_wire replace\n"
         "setblock ~2 ~ ~ minecraft:redstone_wire replace\n")


class Built(unittest.TestCase):
    def setUp(self):
        folder = tempfile.TemporaryDirectory()
        self.addCleanup(folder.cleanup)
        self.folder = folder.name

    def path(self, name):
        return os.path.join(self.folder, name)

    def made(self, name):
        with open(self.path(name), "rb") as file:
            return file.read()

    def test_examples(self):
        """What is written lays the room with its net."""
        for name in examples():
            printed = content(name + ".out").decode()
            status, said, warned = run("build", os.path.join(EXAMPLES, name + ".txt"), "-o", self.path("room.mcfunction"))
            if printed.startswith("refused"):
                self.assertEqual((status, said), (3, printed), warned)
                continue
            self.assertEqual(status, 0, warned)
            job = from_bytes(content(name + ".sheet"))
            laid = lay(job, answers.read(printed, job, False))
            found = read_function(job.sides, self.made("room.mcfunction"))
            self.assertEqual((found.kinds, found.facings), (bytes(laid.kinds), bytes(laid.facings)))
            own = {(job.number(block.at), block.kind, block.facing) for block in job.blocks}
            new = [cell for cell in range(job.cells()) if found.kinds[cell] and (cell, found.kinds[cell], found.facings[cell]) not in own]
            self.assertIn("blocks to fetch, %d in all, beside the %d of the room itself:" % (len(new), found.lines - len(new)), said)

    def test_stored_rooms(self):
        """The stored function files are what their texts are built to."""
        stored = sorted(name[:-11] for name in os.listdir(EXAMPLES) if name.endswith(".mcfunction"))
        self.assertIn("controller", stored)
        for name in stored:
            status, _, warned = run("build", os.path.join(EXAMPLES, name + ".txt"), "-o", self.path("room.mcfunction"))
            self.assertEqual(status, 0, warned)
            self.assertEqual(self.made("room.mcfunction"), content(name + ".mcfunction"), name)

    def test_standard_output(self):
        status, printed, said = run("build", "-", given=SMALL)
        self.assertEqual((status, printed), (0, LINES))
        for words in ("blocks to fetch, 2 in all, beside the 1 of the room itself:\n     2  redstone_wire\nto load", "/function dustroute:room", "3 blocks to the east, 1 up and 1 to the south"):
            self.assertIn(words, said)
        status, printed, said = run("build", "-q", "-", given=SMALL)
        self.assertEqual((status, printed), (0, LINES))
        self.assertNotIn("fetch", said)

    def test_a_pack(self):
        status, said, _ = run("build", os.path.join(EXAMPLES, "lane.txt"), "--pack", self.path("My Room.zip"))
        self.assertEqual(status, 0)
        self.assertIn("into the folder datapacks of the world (Java Edition 1.21 to 1.21.8)", said)
        self.assertIn("/function dustroute:my_room", said)
        with zipfile.ZipFile(self.path("My Room.zip")) as pack:
            text = pack.read("data/dustroute/function/my_room.mcfunction")
        run("build", os.path.join(EXAMPLES, "lane.sheet"), "-o", self.path("lane.mcfunction"))
        self.assertEqual(text, self.made("lane.mcfunction"))
        self.assertEqual(text.count(b"repeater[facing="), 1)

    def test_how_it_is_loaded(self):
        _, said, _ = run("build", "-", "-o", self.path("Lamp.mcfunction"), given=SMALL)
        self.assertIn("data/dustroute/function/lamp.mcfunction, up to version 1.20.6 as data/dustroute/functions/lamp.mcfunction", said)

    def test_a_facing_that_cannot_be(self):
        for block, words in ((b"redstone-torch 0 0 0 up", "write facing none, north, east, south or west; one that stands on the ground has facing none"),
                             (b"solid 0 0 0 south", "the solid at (0, 0, 0) faces south, and the game has none that does: write facing none"),
                             (b"repeater 0 0 0", "write facing north, east, south or west")):
            status, printed, said = run("build", "-", "-o", self.path("none"), given=b"room 3 1 1\nblock " + block + b"\nsource 1 0 0\nsink 2 0 0\n")
            self.assertEqual((status, printed), (3, ""))
            self.assertIn(words, said)
            self.assertFalse(os.path.exists(self.path("none")))

    def test_several_nets(self):
        """From a text, from a list and from a file for each net the same room, laid as it is routed."""
        sheets = sheets_of(content("controller.sheets"))
        for place, sheet in enumerate(sheets):
            with open(self.path("net-%d.sheet" % place), "wb") as file:
                file.write(sheet)
        due = nets(content("controller.sheets"))
        each = [self.path("net-%d.sheet" % place) for place in range(len(sheets))]
        for given in ([os.path.join(EXAMPLES, "controller.txt")], [os.path.join(EXAMPLES, "controller.sheets")], each):
            status, said, warned = run("build", *given, "-o", self.path("room.mcfunction"), "--pack", self.path("room.zip"))
            self.assertEqual((status, warned), (0, ""))
            found = read_function(due.room, self.made("room.mcfunction"))
            self.assertEqual((found.kinds, found.facings), (due.kinds, due.facings))
            self.assertIn("blocks to fetch, 82 in all, beside the 275 of the room itself:\n     4  glass\n    65  redstone_wire\n     5  repeater\n"
                          "     8  stone\n", said)
            self.assertIn("/function dustroute:room", said)

    def test_several_nets_refused(self):
        status, printed, said = run("build", os.path.join(EXAMPLES, "lane.txt"), os.path.join(EXAMPLES, "gap.txt"), "-o", self.path("none"))
        self.assertEqual((status, printed), (3, "refused 1 1 0\n"))
        self.assertIn("net 1 (gap), %s: its room is 9x5x1, and that of net 0 is 13x5x5" % os.path.join(EXAMPLES, "gap.txt"), said)
        self.assertFalse(os.path.exists(self.path("none")))
        torch = b"room 3 1 3\nblock redstone-torch 1 0 1 up\nnet a\nsource 0 0 0\nnet b\nsource 0 0 2\n"
        status, printed, said = run("build", "-", given=torch)
        self.assertEqual((status, printed), (3, ""))
        self.assertIn("the redstone-torch at (1, 0, 1) faces up, and the game has none that does", said)

    def test_strict(self):
        gap = os.path.join(EXAMPLES, "gap.txt")
        status, printed, _ = run("build", gap, "--strict", "-o", self.path("strict"))
        published, _, _ = run("build", gap, "-o", self.path("published"))
        self.assertEqual((status, published), (0, 0))
        self.assertNotEqual(self.made("strict"), self.made("published"))


if __name__ == "__main__":
    unittest.main()
