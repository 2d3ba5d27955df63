"""A net laid into its room: sample l, repeaters that oppose their branch, supports, and what stays as it was."""
import io
import json
import unittest
import zipfile

from common import content, examples, stored
from dustsheet import answer as answers, datapack
from dustsheet.job import AIR, BLOCK_POWER, LEVER, REPEATER, SOLID, TRANSPARENT, WIRE, Block, End, Job, Sink, from_bytes
from dustsheet.laying import lay, opposite, structural
from dustsheet.rules import step, terminal
from dustsheet.supports import kinds_of


def job(sides, source, sinks, blocks=(), costs=(10, 25, 15)):
    return Job(sides, 30_000, costs, source, [Sink(*sink) for sink in sinks], list(blocks))


def wire(x, y, z, facing=0):
    return End((x, y, z), 0, facing)


def laid(of, printed):
    found = lay(of, answers.read(printed, of, False))
    return list(found.kinds), list(found.facings)


class Samples(unittest.TestCase):
    def test_a_block_power_sink_gets_a_repeater(self):
        sample = job((6, 1, 1), wire(0, 0, 0), [End((5, 0, 0), BLOCK_POWER, 4)], [Block(0, (5, 0, 0), SOLID, 0)])
        self.assertEqual(laid(sample, "net 1 5\nbranch 0 1 2 3 4\nrepeaters\n"), ([3, 3, 3, 3, 5, 1], [0, 0, 0, 0, 2, 0]))

    def test_whatever_stands_at_its_terminal(self):
        sample = job((3, 2, 1), wire(0, 1, 0), [End((2, 1, 0), BLOCK_POWER, 4)], [Block(0, (1, 1, 0), LEVER, 0)])
        kinds, facings = laid(sample, "net 1 2\nbranch 1 3\nrepeaters\n")
        self.assertEqual((kinds, facings), ([TRANSPARENT, WIRE, SOLID, REPEATER, AIR, AIR], [0, 0, 0, 2, 0, 0]))

    def test_supports(self):
        upper, lower = job((2, 2, 1), wire(0, 1, 0), [wire(1, 1, 0)]), job((2, 2, 1), wire(0, 0, 0), [wire(1, 0, 0)])
        self.assertEqual(laid(upper, "net 1 2\nbranch 1 3\nrepeaters\n")[0], [2, 3, 2, 3])
        self.assertEqual(laid(lower, "net 1 2\nbranch 0 2\nrepeaters\n")[0], [3, 0, 3, 0])
        # a stair's ends rest on solid; a block that stands there bears and stays
        stair = job((3, 2, 1), wire(0, 0, 0), [wire(2, 1, 0)], [Block(0, (2, 0, 0), LEVER, 0)])
        self.assertEqual(laid(stair, "net 1 3\nbranch 0 3 5\nrepeaters\n")[0], [3, 0, 1, 3, LEVER, 3])

    def test_a_repeater_faces_the_way_of_the_signal(self):
        # the branch brings its cells from 2 to 0, the signal comes from 14
        row = job((15, 1, 1), wire(14, 0, 0), [wire(0, 0, 0), wire(1, 0, 0)])
        back = " ".join(map(str, range(14, 0, -1)))
        kinds, facings = laid(row, "net 2 15\nbranch 2 1 0\nbranch %s\nrepeaters 2\n" % back)
        self.assertEqual((kinds[2], facings[2]), (REPEATER, 4))
        self.assertEqual(kinds, [3, 3, 5] + [3] * 12)

    def test_opposite(self):
        self.assertEqual([opposite(facing) for facing in (1, 2, 3, 4)], [3, 4, 1, 2])


class Every(unittest.TestCase):
    """Of each stored tree and each example."""

    def trees(self):
        for name in examples():
            yield content(name + ".sheet"), content(name + ".out").decode()
        for case in stored():
            yield case.sheet, case.printed()

    def test_only_what_is_named_changes(self):
        seen = 0
        for sheet, printed in self.trees():
            if printed.startswith("refused"):
                continue
            of = from_bytes(sheet)
            answer = answers.read(printed, of, False)
            found = lay(of, answer)
            before, faced = kinds_of(of), {block.at: block.facing for block in of.blocks}
            cells = answers.occupied(answer, of)
            own = {terminal(sink) for sink in of.sinks if sink.port == BLOCK_POWER} | set(answer.repeaters)
            solid = structural(of, answer)
            for number in range(of.cells()):
                at = of.place(number)
                kind, old = found.kinds[number], before[number]
                if at in own:
                    self.assertEqual(kind, REPEATER)
                    self.assertIn(found.facings[number], (1, 2, 3, 4))
                elif at in cells:
                    self.assertIn(kind, (WIRE, SOLID, TRANSPARENT) if old == AIR else (old,))
                elif step(at, (0, 1, 0)) in cells and old == AIR:
                    self.assertEqual(kind, SOLID if step(at, (0, 1, 0)) in solid else TRANSPARENT)
                else:
                    self.assertEqual((kind, found.facings[number]), (old, faced.get(at, 0)))
            seen += 1
        self.assertGreater(seen, 300)


class Packs(unittest.TestCase):
    def test_a_pack(self):
        made = datapack.zipped("room", b"setblock ~ ~ ~ minecraft:stone replace\n")
        self.assertEqual(made, datapack.zipped("room", b"setblock ~ ~ ~ minecraft:stone replace\n"))
        with zipfile.ZipFile(io.BytesIO(made)) as pack:
            self.assertEqual(pack.namelist(), ["pack.mcmeta", "data/dustroute/function/room.mcfunction"])
            told = json.loads(pack.read("pack.mcmeta"))["pack"]
            self.assertEqual((told["pack_format"], told["supported_formats"]), (48, {"min_inclusive": 48, "max_inclusive": 81}))
            self.assertEqual(pack.read("data/dustroute/function/room.mcfunction"), b"setblock ~ ~ ~ minecraft:stone replace\n")

    def test_names(self):
        self.assertEqual([datapack.function_name(path) for path in ("a/Room 1.mcfunction", "x.zip", "ä.txt", "")], ["room_1", "x", "_", "room"])


if __name__ == "__main__":
    unittest.main()
