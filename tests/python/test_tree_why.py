"""Why a sink wasn't reached: each verdict, refusals, and the stored answers of the oracle, byte for byte."""
import ctypes
import os
import unittest

from common import ROOT, content
from dustroute import MOVES, Cause, Memory, Reason, Refusal, Tree, Unreached, Verdict, library, route, why_tree

RESERVED = "room 1 1 5\nreserved 0 0 2\nsource 0 0 0\nsink 0 0 4\n"
OVER = "room 1 2 3\nconductor 0 0 1\nsource 0 1 0\nsink 0 1 2\n"
TOWER = "room 2 3 2\nsource 0 0 0\nsink 0 2 0\n"
ROW = "room 1 1 3\nsource 0 0 0\nsink 0 0 2\n"


class Verdicts(unittest.TestCase):
    def test_shut_in(self):
        for strict in (False, True):
            told = why_tree(RESERVED, strict=strict)
            self.assertEqual((told.number, told.detail, told.sink, told.verdict), (14, 4, 1, Verdict.SHUT_IN))
            self.assertEqual(told.reached, (3, 4))
            self.assertEqual((told.reason(3, 7), told.reason(3, 10)), (Reason.ALLOWED, Reason.KEPT_FREE))
            self.assertEqual([(wall.cell, wall.to, wall.reason) for wall in told.walls() if wall.to is not None], [(3, 2, Reason.KEPT_FREE)])
            self.assertEqual([told.cause(cell) for cell in range(5)], [0, 0, Cause.RESERVED, 0, 0])

    def test_a_support_that_is_kept_free(self):
        told = why_tree(OVER, strict=True)
        self.assertEqual((told.reached, told.reason(5, 9), told.reason(5, 10)), ((5,), Reason.KEPT_FREE, Reason.SUPPORT_KEPT_FREE))
        self.assertEqual(told.cause(1), Cause.OTHER_CONDUCTOR)
        self.assertEqual(why_tree(OVER), route(OVER))

    def test_the_others(self):
        for text, due in ((ROW + "block lever 0 0 2\n", Verdict.APPROACH_TAKEN), (TOWER, Verdict.CONFLICTS), (ROW + "limit 0\n", Verdict.CUT_SHORT)):
            told = why_tree(text)
            self.assertEqual((told.number, told.sink, told.verdict, told.reached), (14, 1, due, ()))
            self.assertFalse(any(told.moves) or any(told.causes) or list(told.walls()))

    def test_which_sink(self):
        told = why_tree("room 1 1 6\nblock solid 0 0 4\nsource 0 0 2\nsink 0 0 5\nsink 0 0 1\n")
        self.assertEqual((told.sink, told.detail, told.reached), (1, 5, (5,)))

    def test_refusals(self):
        for text, due in (("room 301 1 1\nsource 0 0 0\n", 2), ("room 3 1 1\nsource 0 0 0\nsink 3 0 0\n", 4),
                          ("room 3 1 1\nsource 0 0 0\nsink block-power 2 0 0\n", 8)):
            with self.assertRaises(Refusal) as caught:
                why_tree(text)
            self.assertEqual(caught.exception.number, due)

    def test_the_examples(self):
        for name, due in (("closet", Verdict.SHUT_IN), ("hemmed-in", Verdict.SHUT_IN), ("shelf", Verdict.CONFLICTS), ("walled-in", Verdict.SHUT_IN)):
            told = why_tree(content(name + ".sheet"))
            self.assertEqual(("refused %d %d\n" % (told.number, told.detail), told.verdict), (content(name + ".out").decode(), due))
        self.assertIsInstance(why_tree(content("lane.txt")), Tree)

    def test_memory_is_kept(self):
        memory = Memory()
        one = why_tree(RESERVED, memory)
        why_tree(ROW, memory)
        self.assertIsInstance(one, Unreached)
        self.assertEqual((one.reached, len(one.moves), len(one.causes)), ((3, 4), 60, 5))


def stored():
    """The oracle's stored cases with their answers; their format is in oracle/STORED.md."""
    with open(os.path.join(ROOT, "tests", "bindings", "treewhys.bin"), "rb") as file:
        data = file.read()
    assert data[:4] == b"DRY1"
    place = 4

    def value(size=4):
        nonlocal place
        place += size
        return int.from_bytes(data[place - size:place], "big")

    def taken(size):
        nonlocal place
        place += size
        return data[place - size:place]

    def cells():
        return [value(2) for _ in range(value())]

    for _ in range(value()):
        strict, queue, branch, lent = value(1), value(), value(), value()
        sheet, outputs = taken(value()), [value(), value(), value()]
        number, detail = value(1), value()
        tree = ([cells() for _ in range(value(1))], value(), cells()) if number == 0 else None
        reason = None
        if number in (13, 14):
            reason = [value(1), value(1), [(value(2), taken(12)) for _ in range(value())], [(value(2), value(1)) for _ in range(value())]]
        yield strict, sheet, [queue, branch, lent, *outputs], number, detail, tree, reason
    assert place == len(data)


class Stored(unittest.TestCase):
    """The bare call, over memory of just the lengths that each case names, with rubbish in it."""

    def test_stored_answers(self):
        seen = [0] * 5
        for place, case in enumerate(stored()):
            with self.subTest(place=place):
                seen[self.check(*case)] += 1
        self.assertTrue(all(count > 10 for count in seen), seen)

    def check(self, strict, sheet, lengths, number, detail, tree, reason):
        function = library()["dustroute_tree_why"]
        queue, branch, lent, reached, walls, causes = lengths
        sizes = {"queue": 2 * queue, "branches": branch, "values": 22, "reached": reached, "walls": walls, "causes": causes}
        buffers = {one.name: (one.type * sizes.get(one.name, lent))() for one in function.parameters if one.is_slice and one.name != "sheet"}
        for buffer in buffers.values():
            ctypes.memset(buffer, 0xA5, ctypes.sizeof(buffer))
        before = {name: bytes(buffer) for name, buffer in buffers.items()}
        self.assertEqual(function(strict=strict, sheet=sheet, **buffers), number)
        if 1 <= number <= 6:
            self.assertEqual({name: bytes(buffer) for name, buffer in buffers.items()}, before)
            return 0
        due = {name: [0] * len(buffer) for name, buffer in buffers.items()}
        due["values"][0] = detail
        if tree is not None:
            self.put_tree(due, tree, buffers)
        if reason is not None:
            due["values"][20:22] = reason[:2]
            for cell, moves in reason[2]:
                due["reached"][cell] = 1
                due["walls"][len(MOVES) * cell:len(MOVES) * (cell + 1)] = moves
            for cell, bits in reason[3]:
                due["causes"][cell] = bits
        self.assertEqual({name: list(buffer) for name, buffer in buffers.items()}, due)
        return reason[1] if reason else 0

    def put_tree(self, due, tree, buffers):
        branches, occupied, repeaters = tree
        together = [cell for branch in branches for cell in branch]
        due["branches"][:len(together)] = together
        due["values"][1:4] = [len(branches), occupied, len(repeaters)]
        due["values"][4:4 + len(branches)] = map(len, branches)
        for cell in repeaters:
            due["repeaters"][cell] = 1
        # the source's cell is occupied too; a net without sinks has no other
        marked = [cell for cell, mark in enumerate(buffers["occupied"]) if mark]
        self.assertEqual((len(marked), set(together) - set(marked)), (occupied, set()))
        for cell in marked:
            due["occupied"][cell] = 1
