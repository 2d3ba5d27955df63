"""Why there is no route: the rooms of docs/MORE-RULES.md, refusals, and the stored answers of the oracle, byte for byte."""
import ctypes
import os
import unittest

from common import ROOT
from dustroute import MOVES, Config, Kind, Memory, Reason, Refusal, Room, Route, WalledIn, library, why
from dustroute.reasons import neighbour

LEVERS = [Kind.LEVER, 0, 0, 0, Kind.LEVER, 0]


class Reasons(unittest.TestCase):
    def moves(self, told, cell):
        return [told.reason(cell, move) for move in range(12)]

    def test_sample_d(self):
        told = why(Room(3, 1, 1), [0, Kind.SOLID, 0], 0, 2)
        self.assertEqual((told.reached, told.expanded), ((0,), 1))
        self.assertEqual(self.moves(told, 0), [1, 2] + [1] * 10)

    def test_sample_i(self):
        told = why(Room(3, 2, 1), [0, 0, Kind.LEVER, 0, 0, 0], 1, 5)
        self.assertEqual(told.reached, (1,))
        self.assertEqual(self.moves(told, 1), [2, 3] + [1] * 10)

    def test_every_reason(self):
        told = why(Room(3, 2, 1), LEVERS, 1, 5)
        self.assertEqual((told.reached, told.expanded), ((1, 2, 3), 3))
        self.assertEqual(self.moves(told, 1), [0, 0] + [1] * 10)
        self.assertEqual(self.moves(told, 2), [1, 2, 3, 1, 2, 3] + [1] * 6)
        self.assertEqual(self.moves(told, 3), [2, 3, 1, 2, 3, 1] + [1] * 6)
        walls = list(told.walls())
        self.assertEqual(len(walls), 34)
        for reason, cells in ((Reason.OUTSIDE, {None}), (Reason.TAKEN, {0, 4}), (Reason.BAD_SUPPORT, {1, 5})):
            self.assertEqual({wall.to for wall in walls if wall.reason == reason}, cells)

    def test_a_route_is_that_of_the_search(self):
        self.assertEqual(why((3, 1, 1), b"\0\0\0", 0, 2, (30_000, 10, 25, 15)), Route((0, 1, 2), cost=20, expanded=2, steps=20, supports=0, laid=0))

    def test_refusals(self):
        for due, run in (((2, 0), lambda: why(Room(301, 1, 1), [0] * 301, 0, 1)), ((6, 0), lambda: why(Room(3, 1, 1), [0] * 2, 0, 2)),
                         ((4, 0), lambda: why(Room(3, 1, 1), [0] * 3, 0, 3)), ((5, 0), lambda: why(Room(3, 1, 1), [0, 13, 0], 0, 2)),
                         ((10, 2), lambda: why(Room(3, 1, 1), [0, 0, Kind.LEVER], 0, 2)),
                         ((12, 1), lambda: why(Room(3, 1, 1), [0, 1, 0], 0, 2, Config(limit=0)))):
            with self.subTest(due=due):
                with self.assertRaises(Refusal) as caught:
                    run()
                self.assertEqual((caught.exception.number, caught.exception.detail), due)

    def test_moves(self):
        room = Room(3, 4, 5)
        self.assertEqual((MOVES[0], MOVES[4], MOVES[11]), ((1, -1, 0), (-1, 0, 0), (0, 1, -1)))
        self.assertEqual([neighbour(room, room.cell(1, 1, 1), move) for move in (1, 3, 8)], [room.cell(2, 1, 1), room.cell(0, 0, 1), room.cell(1, 2, 2)])
        self.assertEqual([neighbour(room, room.cell(2, 0, 0), move) for move in (0, 1, 3, 10)], [None] * 4)


def stored():
    """The oracle's stored cases with their answers; their format is in oracle/STORED.md."""
    with open(os.path.join(ROOT, "tests", "bindings", "whys.bin"), "rb") as file:
        data = file.read()
    assert data[:4] == b"DRW1"
    place = 4

    def value(size=4):
        nonlocal place
        place += size
        return int.from_bytes(data[place - size:place], "big")

    def taken(size):
        nonlocal place
        place += size
        return data[place - size:place]

    for _ in range(value()):
        sides, limit, costs, ends = [value(1) for _ in range(3)], value(), [value() for _ in range(3)], [value(), value()]
        queue, lent, kinds, outputs = value(), value(), taken(value()), [value(), value()]
        answer = [value(1), value(), value(), value()]
        path = [value(2) for _ in range(value())]
        yield sides, [limit, *costs], ends, [queue, lent, *outputs], kinds, answer, path, [(value(2), taken(12)) for _ in range(value())]
    assert place == len(data)


class Stored(unittest.TestCase):
    """The bare call, over memory of just the lengths that each case names, with rubbish in it."""

    def test_stored_answers(self):
        told = 0
        for place, case in enumerate(stored()):
            with self.subTest(place=place):
                told += self.check(*case)
        self.assertGreater(told, 100)

    def check(self, sides, config, ends, lengths, kinds, answer, path, reached):
        function = library()["dustroute_why"]
        queue, lent, marks, moves = lengths
        sizes = {"queue": 2 * queue, "values": 4, "reached": marks, "walls": moves}
        buffers = {one.name: (one.type * sizes.get(one.name, lent))() for one in function.parameters if one.is_slice and one.name != "kinds"}
        for buffer in buffers.values():
            ctypes.memset(buffer, 0xA5, ctypes.sizeof(buffer))
        before = {name: bytes(buffer) for name, buffer in buffers.items()}
        numbers = dict(zip(("wide", "high", "deep", "limit", "horizontal", "stair", "support", "start", "goal"), [*sides, *config, *ends]))
        self.assertEqual(function(**numbers, kinds=kinds, **buffers), answer[0])
        number, detail, cost, expanded = answer
        if 1 <= number <= 6:
            self.assertEqual({name: bytes(buffer) for name, buffer in buffers.items()}, before)
            return False
        due = {name: [0] * len(buffer) for name, buffer in buffers.items()}
        due["path"][:len(path)] = path
        due["values"] = [detail, len(path), cost, expanded]
        for cell, reasons in reached:
            due["reached"][cell] = 1
            due["walls"][12 * cell:12 * cell + 12] = reasons
        self.assertEqual({name: list(buffer) for name, buffer in buffers.items()}, due)
        return number == 11

    def test_memory_is_kept(self):
        memory = Memory()
        one = why(Room(3, 2, 1), LEVERS, 1, 5, memory=memory)
        why(Room(3, 1, 1), [0] * 3, 0, 2, memory=memory)
        self.assertIsInstance(one, WalledIn)
        self.assertEqual((one.reached, len(one.moves)), ((1, 2, 3), 72))
