"""Repeaters in one call: rows, the stored nets, a tree's own repeaters, and each refusal."""
import ctypes
import dataclasses
import os
import struct
import unittest

from common import ROOT, content, small_examples
from dustroute import Refusal, place_repeaters, route
from dustroute.library import library
from dustsheet import text as texts
from dustsheet.job import End, Job, Sink

WIRE, BLOCK_POWER = 0, 1


def row(run=12, tail=8, **other):
    """A row of ten cells, from end to end."""
    return dataclasses.replace(Job((10, 1, 1), 30_000, (10, 25, 15), End((0, 0, 0), WIRE, 0), [Sink((9, 0, 0), WIRE, 0, tail)], run=run), **other)


def refused(run):
    """The number and detail with which a call is refused."""
    try:
        run()
    except Refusal as refusal:
        return refusal.number, refusal.detail
    return 0, 0


class Stored:
    """The records of tests/bindings/repeaters.bin: oracle/STORED.md has their format."""

    def __init__(self):
        with open(os.path.join(ROOT, "tests", "bindings", "repeaters.bin"), "rb") as file:
            self.rest = file.read()

    def take(self, form):
        size = struct.calcsize(">" + form)
        taken, self.rest = struct.unpack(">" + form, self.rest[:size]), self.rest[size:]
        return taken

    def counted(self, form):
        (count,) = self.take("I")
        return self.take("%d%s" % (count, form))

    def __iter__(self):
        magic, count = self.take("4sI")
        assert magic == b"DRR1"
        for _ in range(count):
            wide, high, deep, run = self.take("3BI")
            lists = self.counted("H"), self.counted("H"), self.counted("I"), self.counted("I")
            lent = self.take("5I")
            number, detail = self.take("BI")
            yield (wide, high, deep, run), lists, lent, number, detail, () if number else self.counted("H")
        assert not self.rest


class Repeaters(unittest.TestCase):
    def test_a_row(self):
        for run, tail, due in ((15, 15, ()), (4, 15, (5,)), (15, 4, (5,)), (4, 3, (5, 7)), (1, 15, (2, 4, 6, 8))):
            self.assertEqual(place_repeaters(row(run, tail), [range(10)]), due)
        self.assertEqual(place_repeaters(row(1, 1), [range(5), range(6, 10)]), ())
        self.assertEqual(place_repeaters(row(1, 1), []), ())

    def test_stored(self):
        """Over the bare call, with memory of the stored lengths, full of rubbish."""
        function = library()["dustroute_place_repeaters"]
        names = ("repeaters", "classes", "known", "previous", "path")
        kinds = {one.name: one.type for one in function.parameters if one.is_slice}
        for place, (head, lists, lent, number, detail, cells) in enumerate(Stored()):
            memory = {name: (kinds[name] * length)(*[85] * length) for name, length in zip(names, lent)}
            values = (ctypes.c_uint64 * 2)(85, 85)
            given = {name: (kinds[name] * len(numbers))(*numbers) for name, numbers in zip(("source", "sinks", "branches", "lengths"), lists)}
            told = function(**dict(zip(("wide", "high", "deep", "run"), head)), **given, **memory, values=values)
            with self.subTest(place=place):
                self.assertEqual(told, number)
                left = 85 if 0 < number <= 6 else 0
                self.assertEqual(list(values), [85, 85] if left else [detail, len(cells)])
                for name in names[1:]:
                    self.assertEqual(set(memory[name]) - {left}, set())
                marks = [left] * lent[0]
                for cell in cells:
                    marks[cell] = 1
                self.assertEqual(list(memory["repeaters"]), marks)

    def test_trees(self):
        """Over a tree's branches the call gives the tree's repeaters."""
        found = 0
        for name in small_examples():
            job = texts.job_of(texts.read(content(name + ".txt").decode(), "text"))
            try:
                tree = route(job)
            except Refusal:
                continue
            self.assertEqual(place_repeaters(job, tree.branches), tree.repeaters, name)
            found += len(tree.repeaters)
        self.assertGreater(found, 0)

    def test_refusals(self):
        way = [range(10)]
        sink = Sink((9, 0, 0), WIRE, 0, 8)
        for due, job, branches in (
                ((2, 0), row(sides=(0, 1, 1)), way), ((3, 0), row(run=16), way), ((3, 0), row(tail=0), way),
                ((4, 0), row(source=End((10, 0, 0), WIRE, 0)), way), ((5, 0), row(source=End((0, 0, 0), 2, 0)), way),
                ((4, 0), row(), [[0, 2]]), ((4, 0), row(), [[0, 10]]), ((4, 0), row(), [[3, 3]]),
                ((6, 0), row(), [[0]] * 17), ((6, 0), row(sinks=[sink] * 17), way),
                ((8, 1), row(sinks=[Sink((9, 0, 0), BLOCK_POWER, 0, 8)]), way), ((9, 0), row(source=End((0, 0, 0), BLOCK_POWER, 4)), way)):
            with self.subTest(due=due):
                self.assertEqual(refused(lambda: place_repeaters(job, branches)), due)
        with self.assertRaisesRegex(Refusal, "branch 1 jumps from cell 0 to cell 2"):
            place_repeaters(row(), [[0, 2]])


if __name__ == "__main__":
    unittest.main()
