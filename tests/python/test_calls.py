"""The module's calls: the sample rooms of docs/RULES.md, the stored answers of the oracle, refusals, and memory that is kept."""
import ctypes
import threading
import unittest

from common import HEX_ANSWER, HEX_SHEET, content, examples, stored
from dustroute import BadText, Config, Kind, Memory, PlainRoute, Refusal, Room, Route, plain, route, search, sheet_of
from dustsheet import text as texts
from dustsheet.job import from_bytes, is_sheet
from dustsheet.supports import of_route

ROW = Room(3, 1, 1)


def refusal(run):
    try:
        run()
    except Refusal as refused:
        return refused
    raise AssertionError("nothing was refused")


class Searches(unittest.TestCase):
    def test_samples(self):
        air = [Kind.AIR] * 3
        self.assertEqual(search(Room(1, 1, 1), [Kind.AIR], 0, 0), Route((0,), 0, 0, 0, 0, 0))
        self.assertEqual(search(ROW, air, 0, 2), Route((0, 1, 2), 20, 2, 20, 0, 0))
        self.assertEqual(search((3, 1, 1), b"\0\0\0", 0, 2, (30_000, 10, 25, 15)), Route((0, 1, 2), 20, 2, 20, 0, 0))
        self.assertEqual(search(Room(3, 2, 1), [0, 0, Kind.SOLID, 0, 0, 0], 0, 4).cost, 50)
        self.assertEqual(search(Room(3, 2, 1), [0] * 6, 1, 5, Config(support=40)), Route((1, 2, 5), 90, 5, 50, 40, 1))

    def test_supports_are_counted(self):
        upright, steep = Room(2, 2, 1), Room(4, 4, 1)
        self.assertEqual(search(upright, [0] * 4, 1, 3), Route((1, 3), 25, 1, steps=10, supports=15, laid=1))
        self.assertEqual(search(upright, [0] * 4, 1, 3, Config(support=0)), Route((1, 3), 10, 1, steps=10, supports=0, laid=1))
        kinds = [Kind.LEVER if cell in (2, 10) else Kind.AIR for cell in range(16)]
        route = search(steep, kinds, 3, 5)
        self.assertEqual((route.path, route.cost, route.steps, route.supports, route.laid), ((3, 6, 9, 5), 105, 60, 45, 3))
        for room, kinds, route in ((upright, [0] * 4, search(upright, [0] * 4, 1, 3)), (steep, kinds, route)):
            fetched = of_route(room, kinds, route.path)
            self.assertEqual(fetched.fetch - fetched.start + fetched.on_path, route.laid)

    def test_refusals(self):
        lever = [Kind.AIR, Kind.AIR, Kind.LEVER]
        for due, words, run in (
                ((2, 0), "a side is not 1 to 300", lambda: search(Room(301, 1, 1), [0] * 301, 0, 1)),
                ((3, 0), "the node limit over 800000", lambda: search(ROW, [0] * 3, 0, 2, Config(limit=800_001))),
                ((4, 0), "the start or the goal is outside the room", lambda: search(ROW, [0] * 3, 0, 3)),
                ((5, 0), "an unknown kind; kinds are 0 to 12", lambda: search(ROW, [0, 13, 0], 0, 2)),
                ((6, 0), "not as many kinds as the room has cells", lambda: search(ROW, [0] * 2, 0, 2)),
                ((10, 2), "cell (2, 0, 0), number 2, holds neither air nor redstone wire", lambda: search(ROW, lever, 0, 2)),
                ((11, 1), "there is no way", lambda: search(ROW, [0, 1, 0], 0, 2)),
                ((12, 2), "the node limit 1 was passed", lambda: search(ROW, [0] * 3, 0, 2, Config(limit=1)))):
            with self.subTest(due=due):
                refused = refusal(run)
                self.assertEqual((refused.number, refused.detail), due)
                self.assertIn(words, refused.words)
                self.assertEqual(str(refused), refused.words)
                self.assertEqual(refused.line(), "refused %d %d\n" % due)

    def test_low_costs_find_their_queue(self):
        room = Room(8, 8, 8)
        self.assertEqual(search(room, [0] * 512, 0, 511, Config(horizontal=0, stair=0, support=0)).cost, 0)

    def test_positions(self):
        room = Room(4, 3, 5)
        self.assertEqual([room.cell(*room.position(cell)) for cell in range(room.cells())], list(range(60)))
        self.assertEqual((room.position(17), Room(301, 1, 1).cells(), Room(64, 64, 17).cells()), ((1, 0, 2), 0, 0))


class PlainEngine(unittest.TestCase):
    def test_samples(self):
        self.assertEqual(plain(Room(1, 1, 1), [Kind.AIR], 0, 0), PlainRoute((0,), 0))
        self.assertEqual(plain(ROW, [Kind.AIR] * 3, 0, 2), PlainRoute((0, 1, 2), 20))
        self.assertEqual(plain(ROW, [Kind.AIR] * 3, 0, 2, Config(limit=200_001)), PlainRoute((0, 1, 2), 20))
        self.assertEqual(plain(Room(3, 2, 1), [0] * 6, 1, 5, Config(support=40)).cost, 90)

    def test_cheaper_than_the_search(self):
        room, costs = Room(2, 2, 1), Config(horizontal=0, stair=0, support=9)
        self.assertEqual(plain(room, [0] * 4, 2, 3, costs), PlainRoute((2, 0, 3), 9))
        self.assertEqual(search(room, [0] * 4, 2, 3, costs).cost, 18)

    def test_the_same_cost_as_the_search(self):
        room = Room(4, 3, 4)
        for number in range(300):
            kinds = [Kind.SOLID if (cell * 7919 + number * 104729) % 11 < 3 else Kind.AIR for cell in range(room.cells())]
            kinds[0] = kinds[-1] = Kind.AIR
            try:
                due = search(room, kinds, 0, room.cells() - 1).cost
            except Refusal as refused:
                self.assertEqual((refused.number, refusal(lambda: plain(room, kinds, 0, room.cells() - 1)).number), (11, 11))
            else:
                self.assertEqual(plain(room, kinds, 0, room.cells() - 1).cost, due)

    def test_refusals(self):
        for due, words, run in (
                ((2, 0), "a side is not 1 to 300", lambda: plain(Room(301, 1, 1), [0] * 301, 0, 1)),
                ((3, 0), "a cost is over 1000000", lambda: plain(ROW, [0] * 3, 0, 2, Config(stair=1_000_001))),
                ((4, 0), "the start or the goal is outside the room", lambda: plain(ROW, [0] * 3, 0, 3)),
                ((5, 0), "an unknown kind; kinds are 0 to 12", lambda: plain(ROW, [0, 13, 0], 0, 2)),
                ((6, 0), "not as many kinds as the room has cells", lambda: plain(ROW, [0] * 2, 0, 2)),
                ((10, 0), "cell (0, 0, 0), number 0, holds neither air nor redstone wire", lambda: plain(ROW, [7, 0, 0], 0, 2)),
                ((11, 2), "none of the 2 cells that can be reached leads on", lambda: plain(Room(4, 1, 1), [0, 0, 1, 0], 0, 3))):
            with self.subTest(due=due):
                refused = refusal(run)
                self.assertEqual((refused.number, refused.detail), due)
                self.assertIn(words, refused.words)


class Trees(unittest.TestCase):
    def test_examples_from_sheet_and_text(self):
        for name in examples():
            due = content(name + ".out").decode()
            for given in (content(name + ".sheet"), content(name + ".txt"), content(name + ".txt").decode(), from_bytes(content(name + ".sheet"))):
                try:
                    said = str(route(given))
                except Refusal as refused:
                    said = refused.line()
                self.assertEqual(said, due, name)

    def test_stored_answers(self):
        memory = Memory()
        seen = 0
        for place, case in enumerate(stored()):
            # numbers 6, 13 and 15 were stored for lent memory that is short; a damaged version may look like a text's first letter
            if case.number in (6, 13, 15) or not is_sheet(case.sheet):
                continue
            try:
                said = str(route(case.sheet, memory))
            except Refusal as refused:
                said = refused.line()
                self.assertTrue(refused.words)
            self.assertEqual(said, case.printed(), place)
            seen += 1
        self.assertGreater(seen, 900)

    def test_the_hex_sheet(self):
        tree = route(bytes.fromhex(HEX_SHEET))
        self.assertEqual((str(tree), tree.room, tree.branches, tree.repeaters), (HEX_ANSWER, Room(10, 1, 1), (tuple(range(10)),), (1,)))

    def test_every_room_that_the_library_takes(self):
        tree = route("room 25 25 25\nsource 0 1 0\nsink 24 1 24")
        self.assertEqual(len(tree.branches[0]), 49)
        self.assertEqual(len(route("room 64 4 64\nsource 0 1 0\nsink 63 1 63").branches[0]), 127)

    def test_refusals(self):
        for text, due, words in (
                ("room 301 1 1\nsource 0 0 0", (2, 0), "each side is 1 to 300"),
                ("room 5 2 5\nblock code-13 1 1 1\nsource 0 0 0", (5, 0), "block 1: unknown kind, code 13"),
                ("room 5 2 5\nsource 0 0 0\n" + "block solid 1 1 1\n" * 2, (7, 16), "two blocks stand in one cell: (1, 1, 1), number 16"),
                ("room 5 2 5\nsource 0 0 0\nsink block-power 1 1 1", (8, 1), "sink 1 is block-power and must face"),
                ("room 5 2 5\nsource 0 0 0\nsink 1 1 0 north", (9, 1), "the wire of sink 1 would lie outside the room"),
                ("room 3 1 1\nblock solid 1 0 0\nsource 0 0 0\nsink 2 0 0", (14, 2), "no way was found to sink 1 at (2, 0, 0)")):
            with self.subTest(text=text):
                refused = refusal(lambda: route(text))
                self.assertEqual((refused.number, refused.detail), due)
                self.assertIn(words, refused.words)
        for sheet, words in ((b"", "the sheet ends at byte 0"), (b"\2", "the sheet ends at byte 1"), (b"\3", "the sheet ends at byte 1"), (b"\4", "the version byte is 4"), (b"\xff", "the version byte is 255"), (b"\1\0\0\0\1", "1 bytes follow, but 0 do")):
            refused = refusal(lambda: route(sheet))
            self.assertEqual((refused.number, refused.detail), (1, 0))
            self.assertIn(words, refused.words)

    def test_texts_that_can_not_be_read(self):
        with self.assertRaises(BadText) as caught:
            route("room 3 1\nsource 0 0 0\nblok solid 1 1 1")
        self.assertEqual([problem.line for problem in caught.exception.problems], [1, 3])
        self.assertIn("line 3: unknown word 'blok'; did you mean 'block'?", str(caught.exception))
        with self.assertRaisesRegex(BadText, "^line 2: this is no text"):
            route(b"room 3 1 1\n\xff")

    def test_sheets_of_texts(self):
        self.assertEqual(sheet_of(content("lane.txt")), content("lane.sheet"))
        self.assertEqual(sheet_of(texts.write(from_bytes(content("lane.sheet")))), content("lane.sheet"))


class Lent(unittest.TestCase):
    def test_memory_is_kept_and_grows(self):
        memory = Memory()
        search(Room(8, 1, 1), [0] * 8, 0, 7, memory=memory)
        small = memory.size()
        search(Room(64, 1, 1), [0] * 64, 0, 63, memory=memory)
        large = memory.size()
        self.assertGreater(large, small)
        search(Room(8, 1, 1), [0] * 8, 0, 7, memory=memory)
        self.assertEqual(memory.size(), large)
        self.assertEqual(list(memory.lend("path", ctypes.c_uint32, 8)), list(range(8)))

    def test_answers_outlive_their_memory(self):
        memory = Memory()
        one = search(ROW, [0] * 3, 0, 2, memory=memory)
        search(ROW, [0] * 3, 2, 0, memory=memory)
        self.assertEqual(one.path, (0, 1, 2))

    def test_threads_have_their_own(self):
        wrong = []

        def work(length):
            for _ in range(50):
                found = search(Room(length, 1, 1), [0] * length, 0, length - 1)
                if found.path != tuple(range(length)):
                    wrong.append(length)

        threads = [threading.Thread(target=work, args=(length,)) for length in (5, 17, 40, 64)]
        for thread in threads:
            thread.start()
        for thread in threads:
            thread.join()
        self.assertEqual(wrong, [])
