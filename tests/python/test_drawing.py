"""One route drawn: the smallest inputs, the stored drawings, a search's route, and each refusal."""
import os
import struct
import unittest

from common import ROOT
from dustroute import Drawn, Kind, Refusal, Repeater, Room, draw, insert_repeaters, materialize_route, search

UPRIGHT, ROW = Room(2, 2, 1), Room(5, 1, 1)


def refused(run):
    """The number with which a call is refused; 0 where it isn't."""
    try:
        run()
    except Refusal as refusal:
        return refusal.number
    return 0


class Stored:
    """The records of tests/bindings/drawings.bin: oracle/STORED.md has their format."""

    def __init__(self):
        with open(os.path.join(ROOT, "tests", "bindings", "drawings.bin"), "rb") as file:
            self.rest = file.read()

    def take(self, form):
        size = struct.calcsize(">" + form)
        taken, self.rest = struct.unpack(">" + form, self.rest[:size]), self.rest[size:]
        return taken

    def counted(self, form):
        (count,) = self.take("I")
        return self.take("%d%s" % (count, form))

    def __iter__(self):
        magic, count = self.take("4sI")
        assert magic == b"DRD1"
        for _ in range(count):
            wide, high, deep, support, run, cells, facings = self.take("3B4I")
            asked = Room(wide, high, deep), bytes(self.counted("B")), self.counted("I"), support, run, min(cells, facings)
            laid, listed = self.take("2B")
            drawn, repeatered = bytes(self.counted("B")), bytes(self.counted("B"))
            (entries,) = self.take("I")
            yield asked, laid, drawn, listed, repeatered, tuple(Repeater(*self.take("HB")) for _ in range(entries))
        assert not self.rest


class Drawings(unittest.TestCase):
    def test_smallest(self):
        self.assertEqual(materialize_route(UPRIGHT, [0] * 4, [1, 2, 0]), bytes([1, 3, 3, 0]))
        self.assertEqual(materialize_route(UPRIGHT, [0] * 4, [0, 2, 1]), bytes([3, 3, 3, 0]))
        self.assertEqual(materialize_route(UPRIGHT, [0] * 4, [1], Kind.AIR), bytes([0, 3, 0, 0]))
        for run, cells in ((0, (1, 2, 3)), (1, (1, 2, 3)), (2, (2,)), (3, (3,)), (4, ())):
            told = insert_repeaters(ROW, [3] * 5, range(5), run)
            self.assertEqual(told.repeaters, tuple(Repeater(cell, 2) for cell in cells))
            self.assertEqual(told.kinds, bytes(5 if cell in cells else 3 for cell in range(5)))

    def test_stored(self):
        for place, (asked, laid, drawn, listed, repeatered, repeaters) in enumerate(Stored()):
            room, kinds, path, support, run, lent = asked
            with self.subTest(place=place):
                self.assertEqual(refused(lambda: materialize_route(room, kinds, path, support)), laid)
                if not laid:
                    self.assertEqual(materialize_route(room, kinds, path, support), drawn)
                if listed == 6 and lent < len(path):
                    continue  # the module always lends a list that is long enough
                self.assertEqual(refused(lambda: insert_repeaters(room, drawn, path, run)), listed)
                if not listed:
                    self.assertEqual(insert_repeaters(room, drawn, path, run), Drawn(room, repeatered, repeaters))

    def test_a_route_that_was_searched(self):
        room, kinds = Room(20, 2, 1), [0] * 40
        route = search(room, kinds, room.cell(0, 1, 0), room.cell(19, 1, 0))
        told = draw(room, kinds, route.path)
        self.assertEqual(told.kinds[route.path[0]], Kind.REDSTONE_WIRE)
        self.assertTrue(all(told.kinds[cell] in (Kind.REDSTONE_WIRE, Kind.REPEATER) for cell in route.path))
        self.assertEqual([told.kinds[entry.cell] for entry in told.repeaters], [Kind.REPEATER])

    def test_refusals(self):
        for due, room, kinds, path in ((2, Room(0, 1, 1), [13], [9]), (6, ROW, [13], [9]), (5, ROW, [13, 0, 0, 0, 0], [9]),
                                       (4, ROW, [0] * 5, [5])):
            self.assertEqual(refused(lambda: materialize_route(room, kinds, path)), due)
            self.assertEqual(refused(lambda: insert_repeaters(room, kinds, path)), due)
        self.assertEqual(refused(lambda: materialize_route(ROW, [0] * 5, [0], 13)), 5)
        self.assertEqual(refused(lambda: materialize_route(ROW, [0] * 5, [0], 256)), 5)


if __name__ == "__main__":
    unittest.main()
