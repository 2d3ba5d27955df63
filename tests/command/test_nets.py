"""./dustroute nets: what it prints, draws and tells of several nets, and what it refuses."""
import json
import os
import tempfile
import unittest
import xml.etree.ElementTree as ElementTree

from common import EXAMPLES, content, list_examples
from dustsheet.job import sheets_of
from test_route import run

CONTROLLER = os.path.join(EXAMPLES, "controller.txt")
OVERLAP = b"room 1 2 3\nnet a\nsource 0 0 0\nsink 0 1 1 south\nnet b\nsource 0 1 0\nsink 0 0 1\n"


def turned(*order):
    """The controller with its nets in another order."""
    head, *nets = content("controller.txt").decode().split("\nnet ")
    by_name = {net.split("\n")[0]: net for net in nets}
    return "\nnet ".join([head, *(by_name[name] for name in order)]).encode()


REFUSED = turned("alarm", "pump", "door", "light")  # in strict mode alone


class Files(unittest.TestCase):
    def setUp(self):
        folder = tempfile.TemporaryDirectory()
        self.addCleanup(folder.cleanup)
        self.folder = folder.name

    def path(self, name):
        return os.path.join(self.folder, name)

    def write(self, name, given):
        with open(self.path(name), "wb") as file:
            file.write(given)
        return self.path(name)

    def page(self, *words, given=b""):
        """The page of a list, as text; it is well-formed."""
        run("nets", *words, "--view", self.path("page.html"), given=given)
        with open(self.path("page.html"), encoding="utf-8") as file:
            return "".join(ElementTree.fromstring(file.read()).itertext())


class Printed(Files):
    def test_examples(self):
        for name in list_examples():
            due = content(name + ".out").decode()
            self.assertEqual(run("nets", os.path.join(EXAMPLES, name + ".txt")), (0, due, ""))
            bare = "".join(line if not line.startswith("net ") else " ".join(line.split()[:4]) + "\n" for line in due.splitlines(True))
            self.assertEqual(run("nets", os.path.join(EXAMPLES, name + ".sheets")), (0, bare, ""))
            self.assertEqual(run("route", os.path.join(EXAMPLES, name + ".txt")), (0, due, ""))

    def test_a_file_for_each_net(self):
        """They are named by their files."""
        sheets = sheets_of(content("controller.sheets"))
        listed = [self.write(name + ".sheet", sheet) for name, sheet in zip(("light", "door", "alarm", "pump"), sheets)]
        self.assertEqual(run("nets", *listed), (0, content("controller.out").decode(), ""))
        mixed = [self.write("first.sheets", sheets[0] + sheets[1]), listed[2], listed[3]]
        status, printed, _ = run("nets", *mixed)
        self.assertEqual((status, [line for line in printed.split("\n") if line.startswith("net ")]),
                         (0, ["net 0 2 25", "net 1 1 18", "net 2 1 9 alarm", "net 3 1 18 pump"]))

    def test_one_net(self):
        status, printed, _ = run("nets", os.path.join(EXAMPLES, "lane.txt"))
        lines = content("lane.out").decode().split("\n", 1)
        self.assertEqual((status, printed), (0, "nets 1\nnet 0 %s\n%s" % (lines[0][4:], lines[1])))

    def test_json(self):
        _, printed, _ = run("nets", CONTROLLER, "--json")
        told = json.loads(printed)
        self.assertEqual((told["room"], told["mode"], [net["name"] for net in told["nets"]]),
                         ([20, 5, 13], "published", ["light", "door", "alarm", "pump"]))
        self.assertEqual((told["nets"][2]["branches"][0]["at"], told["warnings"], len(told["laid"])), ([10, 1, 12], [], 82))
        _, printed, _ = run("nets", "-", "--json", "--strict", given=REFUSED)
        refused = json.loads(printed)["refused"]
        self.assertEqual((refused["net"], refused["name"], refused["number"], refused["detail"]), (3, "light", 14, 1186))
        self.assertEqual((refused["why"]["sink"], refused["why"]["verdict"]), (1, "shut in"))

    def test_the_page(self):
        said = self.page(CONTROLLER)
        for words in ("Net 0 (light)", "The room as it is laid, seen from the south-east", "Published mode:", "source of net 3 (pump)"):
            self.assertIn(words, said)
        run("nets", CONTROLLER, "--picture", self.path("room.svg"))
        with open(self.path("room.svg"), "rb") as file:
            self.assertEqual(file.read(), content("controller.svg"))


class Refusals(Files):
    def test_no_way(self):
        status, printed, said = run("nets", "-", "--strict", given=REFUSED)
        self.assertEqual((status, printed), (3, "refused 3 14 1186\n"))
        for words in ("net 3 (light): no way was found to sink 1 at (18, 1, 3)\n", "Sink 1 at (18, 1, 3) can't be reached, at any costs.",
                      "beside another net's wire", "Try this: put net 3 (light) before net 2 (door); then all nets are routed.\n"):
            self.assertIn(words, said)
        self.assertEqual(run("nets", "-", "--strict", given=turned("alarm", "pump", "light", "door"))[0], 0)
        self.assertEqual(run("nets", "-", given=REFUSED)[0], 0)
        page = self.page("-", "--strict", given=REFUSED)
        for words in ("Net 3 (light), one of 4 nets, was refused.", "Put net 3 (light) before net 2 (door); then all nets are routed.", "Strict mode:"):
            self.assertIn(words, page)

    def test_an_overlap(self):
        status, printed, said = run("nets", "-", given=OVERLAP)
        self.assertEqual((status, printed), (3, "refused 1 16 1\n"))
        self.assertIn("net 1 (b): its wire would lie in a cell that a net before it occupies: (0, 0, 1), number 1\n", said)
        self.assertIn("It is net 0 (a) that lies there.", said)
        self.assertIn("Refused. Net 1 (b): its wire would lie", self.page("-", given=OVERLAP))

    def test_other_rooms(self):
        lane, gap = (os.path.join(EXAMPLES, name + ".txt") for name in ("lane", "gap"))
        status, printed, said = run("nets", lane, gap)
        self.assertEqual((status, printed), (3, "refused 1 1 0\n"))
        self.assertIn("net 1 (gap), %s: its room is 9x5x1, and that of net 0 is 13x5x5: nets of a list share one room\n" % gap, said)
        other = self.write("other.txt", content("lane.txt").replace(b"block lever", b"block button"))
        _, printed, said = run("nets", lane, other)
        self.assertEqual(printed, "refused 1 1 0\n")
        self.assertIn("its blocks aren't those of net 0: it has a button at (0, 1, 3) that net 0 hasn't", said)
        self.assertIn("its blocks aren't those of net 0", self.page(lane, other))

    def test_lines_of_a_text(self):
        text = b"room 3 2 1\nnet a\nsource 0 0 0\nnet b\nsource 1 0 0\nsink block-power 2 0 0\n"
        status, printed, said = run("nets", "-", given=text)
        self.assertEqual((status, printed), (3, "refused 1 8 1\n"))
        self.assertIn("net 1 (b): standard input:6: sink 1: block-power needs a facing", said)
        status, printed, said = run("nets", "-", given=text.replace(b"source 1", b"sorce 1"))
        self.assertEqual((status, printed), (2, ""))
        self.assertIn("standard input:5: unknown word 'sorce'; did you mean 'source'?", said)

    def test_damaged_lists(self):
        """What follows a sheet that is cut off isn't taken for the rest of it."""
        whole = content("controller.sheets")
        first = len(sheets_of(whole)[0])
        for given, due in ((b"", "refused 0 1 0\n"), (whole[:-1], "refused 3 1 0\n"), (whole[:first] + b"\1\0", "refused 1 1 0\n"),
                           (b"\7" + whole[1:], "refused 0 1 0\n")):
            self.assertEqual(run("nets", self.write("damaged.sheets", given))[:2], (3, due))
        cut = self.write("cut.sheet", whole[:first - 1])
        status, printed, said = run("nets", cut, os.path.join(EXAMPLES, "lane.sheet"))
        self.assertEqual((status, printed), (3, "refused 0 1 0\n"))
        self.assertIn("net 0 (cut), %s: the length says that" % cut, said)

    def test_bad_usage(self):
        self.assertEqual(run("nets", "-", "-", given=OVERLAP)[:2], (2, ""))
        self.assertIn("4 nets; --check takes one", run("route", CONTROLLER, "--check")[2])


if __name__ == "__main__":
    unittest.main()
