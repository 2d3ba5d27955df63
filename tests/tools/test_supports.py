"""Supports as a builder fetches them: the examples of docs/DIFFERENCES.md, the examples' trees, and random paths counted plainly."""
import random
import unittest

from common import content, examples
from dustsheet import answer as answers
from dustsheet.job import AIR, LEVER, SOLID, Block, End, Job, Sink, from_bytes, place_of
from dustsheet.page import fetch_words
from dustsheet.supports import Supports, beneath, count, kinds_of, of_answer, of_route, of_tree


def job(sides, source, sinks, blocks=()):
    return Job(sides, 30_000, (10, 25, 15), source, [Sink(*sink) for sink in sinks], list(blocks))


def wire(x, y, z, facing=0):
    return End((x, y, z), 0, facing)


class Routes(unittest.TestCase):
    def test_the_start_wants_a_support_too(self):
        self.assertEqual(of_route((2, 2, 1), bytes(4), (1, 3)), Supports(fetch=2, start=1, on_path=0))

    def test_a_support_falls_on_the_path_itself(self):
        kinds = bytearray(16)
        kinds[2] = kinds[10] = LEVER
        # the search counts three: at 5, which is wire, at 8 and at 4
        self.assertEqual(of_route((4, 4, 1), kinds, (3, 6, 9, 5)), Supports(fetch=2, start=0, on_path=1))

    def test_what_bears_already(self):
        self.assertEqual(of_route((3, 1, 1), bytes(3), (0, 1, 2)), Supports(0, 0, 0))
        self.assertEqual(of_route((2, 2, 1), bytes((SOLID, AIR, SOLID, AIR)), (1, 3)), Supports(0, 0, 0))
        self.assertEqual(of_route((1, 1, 1), bytes(1), (0,)), Supports(0, 0, 0))

    def test_random_paths_against_a_plain_count(self):
        rng = random.Random(4)
        on_path = 0
        for _ in range(3000):
            sides = tuple(rng.randint(1, 4) for _ in range(3))
            cells = list(range(sides[0] * sides[1] * sides[2]))
            kinds = bytes(rng.choice((AIR, AIR, SOLID)) for _ in cells)
            path = rng.sample(cells, rng.randint(1, len(cells)))
            found = of_route(sides, kinds, path)
            laid = sum(1 for cell in path[1:] if place_of(cell, sides)[1] and kinds[cell - sides[2]] == AIR)
            self.assertEqual(found.fetch - found.start + found.on_path, laid)
            below = {beneath(cell, sides) for cell in path} - {None} - set(path)
            self.assertEqual(found.fetch, sum(1 for cell in below if kinds[cell] == AIR))
            on_path += found.on_path
        self.assertGreater(on_path, 1000)


class Trees(unittest.TestCase):
    def test_two_branches_share_a_support(self):
        sinks = [wire(2, 1, 0), wire(2, 1, 0)]
        # cells 1, 3 and 5 lie over Air; the sinks stand on 5, where no search looked
        self.assertEqual(of_tree(job((3, 2, 1), wire(0, 1, 0), sinks), [[1, 3, 5], [3, 5]]), Supports(fetch=3, start=1, on_path=0))

    def test_no_sinks(self):
        self.assertEqual(of_tree(job((1, 2, 1), wire(0, 1, 0), []), []), Supports(fetch=1, start=1, on_path=0))

    def test_an_approach_and_a_terminal_are_starts(self):
        # the sink at 3 faces east: its approach is 5, and its terminal, 3, ends the branch
        asked = job((3, 2, 1), wire(0, 1, 0), [wire(1, 1, 0, facing=2)], [Block(0, (1, 0, 0), SOLID, 0)])
        self.assertEqual(of_tree(asked, [[1, 3, 5, 3]]), Supports(fetch=2, start=1, on_path=0))

    def test_examples(self):
        for name in examples():
            with self.subTest(name=name):
                asked = from_bytes(content(name + ".sheet"))
                answer = answers.read(content(name + ".out").decode(), asked)
                branches = [[asked.number(at) for at in branch] for branch in answer.branches]
                if answer.refused:
                    continue
                kinds = kinds_of(asked)
                wires = {asked.number(at) for at in answers.occupied(answer, asked)}
                below = {beneath(cell, asked.sides) for cell in wires} - {None} - wires
                self.assertEqual(of_tree(asked, branches).fetch, sum(1 for cell in below if kinds[cell] == AIR))

    def test_starts_that_are_no_wire_count_nothing(self):
        self.assertEqual(count((2, 2, 1), bytes(4), [(3,)], (1,)), Supports(fetch=1, start=0, on_path=0))


class Words(unittest.TestCase):
    def test_what_the_page_says(self):
        self.assertEqual(fetch_words(Supports(5, 0, 0)), "5 supports to fetch")
        self.assertEqual(fetch_words(Supports(1, 1, 0)), "1 support to fetch, 1 of them beneath a sink's own wire, where no search counts one")
        self.assertTrue(fetch_words(Supports(3, 0, 2)).endswith("; 2 that a search counts fall on the net's own wire"))

    def test_an_answer(self):
        asked = from_bytes(content("lane.sheet"))
        self.assertEqual(of_answer(asked, answers.read(content("lane.out").decode(), asked)), Supports(fetch=5, start=0, on_path=0))
