"""Function files from Python: out and back, refusals, what a repeater faces, and the stored answers of the oracle, byte for byte."""
import ctypes
import os
import unittest

from common import ROOT
from dustroute import Kind, LaidRoom, Refusal, Room, library, read_function, write_function

ROW = Room(3, 1, 1)
WIRES = b"setblock ~ ~ ~ minecraft:redstone_wire replace\nsetblock ~2 ~ ~ minecraft:redstone_wire replace\n"


class Functions(unittest.TestCase):
    def test_out_and_back(self):
        self.assertEqual(write_function(ROW, [Kind.REDSTONE_WIRE, 0, Kind.REDSTONE_WIRE], [0] * 3), WIRES)
        self.assertEqual(read_function(ROW, WIRES), LaidRoom(bytes((3, 0, 3)), bytes(3), 2))
        self.assertEqual(write_function((3, 1, 1), bytes(3), bytes(3)), b"")

    def test_a_repeater_faces_its_input(self):
        # the signal runs to the east, from cell 0 to cell 2
        text = write_function(ROW, [Kind.REDSTONE_WIRE, Kind.REPEATER, Kind.REDSTONE_WIRE], [0, 2, 0])
        self.assertEqual(text.splitlines()[1], b"setblock ~1 ~ ~ minecraft:repeater[facing=west] replace")

    def test_every_room_that_can_be(self):
        for kind, facings in ((4, range(5)), (5, range(1, 5)), (6, range(1, 5)), (7, range(5)), (8, range(5)), (12, range(1, 7)), (9, (0,))):
            for facing in range(8):
                with self.subTest(kind=kind, facing=facing):
                    if facing in facings:
                        text = write_function((1, 1, 1), [kind], [facing])
                        self.assertEqual(read_function((1, 1, 1), text), LaidRoom(bytes([kind]), bytes([facing]), 1))
                    else:
                        self.refused((5, 0), "a facing that its kind can't have", lambda: write_function((1, 1, 1), [kind], [facing]))

    def refused(self, due, words, run):
        with self.assertRaises(Refusal) as caught:
            run()
        self.assertEqual((caught.exception.number, caught.exception.detail), due)
        self.assertIn(words, caught.exception.words)

    def test_refusals(self):
        self.refused((2, 0), "a side is not 1 to 300", lambda: write_function((301, 1, 1), bytes(301), bytes(301)))
        self.refused((2, 0), "a side is not 1 to 300", lambda: read_function((0, 1, 1), b""))
        self.refused((5, 0), "an unknown kind", lambda: write_function(ROW, [13, 0, 0], [0] * 3))
        self.refused((6, 0), "as many kinds or facings", lambda: write_function(ROW, [0] * 3, [0] * 2))
        self.refused((19, 2), "line 2 is none", lambda: read_function(ROW, WIRES[:-1]))
        self.refused((19, 1), "line 1 is none", lambda: read_function(ROW, b"# wire\n"))


def stored():
    """The oracle's stored cases with their answers; their format is in oracle/STORED.md."""
    with open(os.path.join(ROOT, "tests", "bindings", "functions.bin"), "rb") as file:
        data = file.read()
    assert data[:4] == b"DRF1"
    place = 4

    def taken(size):
        nonlocal place
        place += size
        return data[place - size:place]

    def value(size=4):
        return int.from_bytes(taken(size), "big")

    for _ in range(value()):
        is_read, sides = value(1), tuple(taken(3))
        lengths = (value(), value()) if is_read else (value(),)
        given = [taken(value()) for _ in range(1 if is_read else 2)]
        number, detail, answer = value(1), value(), ()
        if number == 0:
            assert value(1) == is_read
            answer = (value(), taken(value()), taken(value())) if is_read else (taken(value()),)
        yield is_read, sides, lengths, given, number, detail, answer
    assert place == len(data)


def filled(answer, length):
    return answer + bytes(length - len(answer))


class Stored(unittest.TestCase):
    def test_each_byte(self):
        write, read = library()["dustroute_write_function"], library()["dustroute_read_function"]
        seen = 0
        for is_read, (wide, high, deep), lengths, given, number, detail, answer in stored():
            outputs = [(ctypes.c_uint8 * length)(*([0xA5] * length)) for length in lengths]
            values = (ctypes.c_uint64 * 3)(7, 7, 7)
            room = {"wide": wide, "high": high, "deep": deep}
            if is_read:
                found = read(**room, text=given[0], kinds=outputs[0], facings=outputs[1], values=values)
            else:
                found = write(**room, kinds=given[0], facings=given[1], text=outputs[0], values=values)
            self.assertEqual(found, number)
            if number in (2, 5, 6):
                self.assertTrue(all(bytes(one) == b"\xa5" * len(one) for one in outputs) and values[:] == [7, 7, 7])
            else:
                due = (answer[1:] if is_read else answer) or [b""] * len(outputs)
                self.assertEqual([bytes(one) for one in outputs], [filled(one, len(out)) for one, out in zip(due, outputs)])
                count = 0 if number else answer[0] if is_read else len(answer[0])
                self.assertEqual(values[:], [detail, count, 0])
            seen += 1
        self.assertGreater(seen, 300)


if __name__ == "__main__":
    unittest.main()
