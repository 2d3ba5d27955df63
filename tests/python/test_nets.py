"""Several nets over one room: routed in their order, each as a single job, and laid."""
import random
import re
import unittest

from common import content, examples, list_examples, random_nets
from dustroute import BadText, Memory, NetRefusal, Nets, Refusal, library, list_of, nets, route
from dustroute.repository import ROOT
from dustsheet import laying, several, text as texts
from dustsheet.answer import Answer
from dustsheet.job import from_bytes, sheets_of, to_bytes

ROW = "room 3 2 1\nsource 0 0 0\nsink 2 0 0\n"


def two(first, second, head="room 3 2 3\n"):
    return head + "net a\n" + first + "net b\n" + second


def refused(given, **more):
    try:
        nets(given, **more)
    except NetRefusal as refusal:
        return refusal.net, refusal.number, refusal.detail
    return None


def as_nets(listed, answer):
    """The nets with their jobs, as the tools have them."""
    found = []
    for place, (job, tree) in enumerate(zip(listed, answer.nets)):
        cells = Answer([[job.place(cell) for cell in branch] for branch in tree.branches], [job.place(cell) for cell in tree.repeaters])
        found.append(several.Net(place, "", job, cells))
    return found


class Answers(unittest.TestCase):
    def test_examples_however_they_are_given(self):
        for name in list_examples():
            whole = content(name + ".sheets")
            names = [net.name for net in texts.read(content(name + ".txt").decode(), name).nets]
            due = content(name + ".out").decode().split("\n")
            bare = "\n".join(line[:-len(own) - 1] if line.startswith("net ") else line for line, own in zip(due, _names_by_line(due, names)))
            for given in (whole, content(name + ".txt"), content(name + ".txt").decode(), sheets_of(whole), [from_bytes(one) for one in sheets_of(whole)]):
                answer = nets(given)
                self.assertIsInstance(answer, Nets)
                self.assertEqual(str(answer), bare)
            self.assertEqual(list_of(content(name + ".txt")), whole)

    def test_the_example_of_the_text(self):
        with open(ROOT / "tools" / "TEXT.md", encoding="utf-8") as file:
            self.assertEqual(len(nets(re.findall(r"```text\n(.*?)```", file.read(), re.DOTALL)[1]).nets), 2)

    def test_a_list_of_one_is_its_tree(self):
        for name in examples():
            if name == "hall":
                continue
            try:
                due = route(content(name + ".sheet"))
            except Refusal as refusal:
                self.assertEqual(refused(content(name + ".sheet")), (0, refusal.number, refusal.detail))
                continue
            answer = nets(content(name + ".sheet"))
            self.assertEqual(answer.nets, (due,))
            self.assertEqual([cell for cell, owner in enumerate(answer.owners) if owner], list(due.occupied))

    def test_each_is_the_tree_of_a_single_job(self):
        """With the wire of those before it and the ends of those behind it in its lists, in both modes; and all are laid."""
        rng, memory, seen = random.Random(9), Memory(), 0
        for _ in range(400):
            listed = random_nets(rng)
            strict = rng.random() < 0.5
            try:
                answer = nets(listed, memory, strict=strict)
            except NetRefusal as refusal:
                self.assertTrue(refusal.words)
                continue
            found = as_nets(listed, answer)
            for place, job in enumerate(listed):
                self.assertEqual(route(several.seen_by(job, found[:place], listed[place + 1:]), strict=strict), answer.nets[place])
            laid = laying.lay_all([(net.job, net.answer) for net in found])
            self.assertEqual((answer.kinds, answer.facings), (bytes(laid.kinds), bytes(laid.facings)))
            seen += len(listed) > 1
        self.assertGreater(seen, 40)

    def test_laid_with_no_wire(self):
        """The smallest list in which a net's cells hold another's supports, and the other order."""
        upper, lower = "source 0 1 0\nsink 1 1 0\n", "source 0 0 0\nsink 1 0 0\n"
        self.assertEqual(list(nets(two(upper, lower, "room 2 2 1\n")).kinds), [2, 3, 2, 3])
        self.assertEqual(list(nets(two(lower, upper, "room 2 2 1\n")).kinds), [3, 3, 3, 3])


def _names_by_line(lines, names):
    left = list(names)
    return [left.pop(0) if line.startswith("net ") else "" for line in lines]


class Refused(unittest.TestCase):
    def test_all_of_a_net_is_judged_before_the_next(self):
        good, outside = "source 0 0 0\nsink 2 0 0\n", "source 0 0 0\nsink 2 0 0 east\n"
        jobs = [texts.job_of(texts.read("room 3 2 1\n" + one, "text")) for one in (good, outside)]
        other = texts.job_of(texts.read("room 4 2 1\n" + good, "text"))
        self.assertEqual(refused([jobs[1], other]), (0, 9, 1))
        self.assertEqual(refused([jobs[0], jobs[1]]), (1, 9, 1))
        self.assertEqual(refused([jobs[0], other]), (1, 1, 0))
        self.assertEqual(refused(to_bytes(jobs[0]) + b"\1\0"), (1, 1, 0))
        self.assertEqual(refused(b""), (0, 1, 0))

    def test_much_that_is_left_over(self):
        """Twelve thousand nets of five bytes over a hall: no memory is lent for them."""
        memory = Memory()
        self.assertEqual(refused(content("hall.sheet") + bytes(60_000), memory=memory), (1, 1, 0))
        self.assertLess(memory.size(), 20_000_000)

    def test_words(self):
        jobs = [texts.job_of(texts.read(one, "text")) for one in (ROW, ROW.replace("room 3", "room 4"), ROW + "block solid 1 1 0\n")]
        for listed, words in ((jobs[:2], "its room is 4x2x1, and that of net 0 is 3x2x1"), ([jobs[0], jobs[2]], "it has a solid at (1, 1, 0) that net 0 hasn't"),
                              ([b"\1"], "the sheet ends at byte 1")):
            with self.assertRaisesRegex(NetRefusal, words.replace("(", r"\(").replace(")", r"\)")):
                nets(listed)

    def test_an_overlap(self):
        self.assertEqual(refused("room 1 1 1\nnet\nsource 0 0 0\nnet\nsource 0 0 0\n"), (1, 16, 0))
        given = "room 1 2 3\nnet\nsource 0 0 0\nsink 0 1 1 south\nnet\nsource 0 1 0\nsink 0 0 1\n"
        with self.assertRaisesRegex(NetRefusal, r"its wire would lie in a cell that a net before it occupies: \(0, 0, 1\), number 1"):
            nets(given)

    def test_no_way(self):
        # the first net's wire runs between the second one's ends
        given = two("source 1 0 0\nsink 1 0 2\n", "source 0 0 1\nsink 2 0 1\n", "room 3 1 3\n")
        refusal = None
        try:
            nets(given)
        except NetRefusal as found:
            refusal = found
        self.assertEqual((refusal.number in (14, 16), refusal.line()), (True, "refused %d %d %d\n" % (refusal.net, refusal.number, refusal.detail)))

    def test_a_text_of_several_is_no_single_job(self):
        with self.assertRaisesRegex(BadText, "line 4: a second net; `nets` routes several"):
            route(two("source 0 0 0\n", "source 2 0 2\n"))
        self.assertEqual(route("room 3 1 1\nnet a\nsource 0 0 0\nsink 2 0 0\n").branches, ((0, 1, 2),))

    def test_a_bad_text(self):
        with self.assertRaisesRegex(BadText, "line 2: net 0 has no 'source' line"):
            nets("room 1 1 1\nnet\n")


class Bare(unittest.TestCase):
    """The call by its parameters' names: what it touches."""

    def lent(self, cells=6, count=2, **other):
        function = library()["dustroute_nets"]
        lengths = {"branches": 16 * count * (cells + 1), "lengths": 16 * count, "queue": 10 * cells, "values": 3, **other}
        return {one.name: (one.type * lengths.get(one.name, cells))(*[7] * lengths.get(one.name, cells))
                for one in function.parameters if one.is_slice and one.name != "list"}

    def call(self, listed, lent, strict=0):
        return library()["dustroute_nets"](strict=strict, list=listed, **lent)

    def test_a_success(self):
        sheet = to_bytes(texts.job_of(texts.read(ROW, "text")))
        lent = self.lent(count=1)
        self.assertEqual((self.call(sheet, lent), list(lent["values"])), (0, [0, 0, 1]))
        self.assertEqual((list(lent["owners"]), list(lent["lengths"])), ([1, 0, 1, 0, 1, 0], [3] + [0] * 15))
        for name in ("occupied", "planned_work", "before_work", "room_work", "blocked", "classes", "joinable", "known", "previous", "path", "best"):
            self.assertFalse(any(lent[name]), name)

    def test_one_to_six_touch_the_values_alone(self):
        sheet = to_bytes(texts.job_of(texts.read(ROW, "text")))
        lent = self.lent()
        self.assertEqual((self.call(sheet + b"\1", lent), list(lent["values"])), (1, [0, 1, 0]))
        self.assertTrue(all(set(lent[name]) == {7} for name in lent if name != "values"))
        lent = self.lent(count=1)
        self.assertEqual((self.call(sheet + sheet, lent), list(lent["values"])), (6, [0, 1, 0]))
        lent = self.lent(values=2)
        self.assertEqual((self.call(sheet, lent), list(lent["values"])), (6, [7, 7]))

    def test_from_seven_on_all_is_zero(self):
        bad = to_bytes(texts.job_of(texts.read(ROW.replace("sink 2 0 0", "sink 2 0 0 east"), "text")))
        lent = self.lent()
        self.assertEqual((self.call(bad, lent), list(lent["values"])), (9, [1, 0, 0]))
        self.assertFalse(any(any(lent[name]) for name in ("branches", "lengths", "owners", "repeaters", "kinds", "facings")))


if __name__ == "__main__":
    unittest.main()
