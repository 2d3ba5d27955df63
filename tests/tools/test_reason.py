"""Why no wire gets there: the sentence and the drawing, over reasons that a flood of this test's own tells."""
import random
import re
import unittest
import xml.etree.ElementTree as ElementTree

from common import content, random_job
from dustsheet import text as texts
from dustsheet.job import AIR, from_bytes
from dustsheet.reason import BAD_SUPPORT, LINES, OUTSIDE, TAKEN, Question, ReasonDrawing, Surroundings, no_way, page, sentence
from dustsheet.supports import kinds_of
from dustsheet.rules import approach, late_faults, step, terminal

SVG = "{http://www.w3.org/2000/svg}"
MOVES = [(x, up, z) for x, z in ((1, 0), (-1, 0), (0, 1), (0, -1)) for up in (-1, 0, 1)]
BEARS = (0, 1, 2, 11)


def told(job, start, goal):
    """What the library tells; None where there is a way."""
    kinds = kinds_of(job)

    def kind(at):
        return kinds[job.number(at)] if job.holds(at) else 1

    def reason(at):
        if not job.holds(at):
            return OUTSIDE
        if kind(at) != AIR and not (kind(at) == 3 and at in (start, goal)):
            return TAKEN
        return 0 if kind(step(at, (0, -1, 0))) in BEARS else BAD_SUPPORT

    reached, waiting = {start}, [start]
    while waiting:
        at = waiting.pop()
        fresh = {step(at, by) for by in MOVES if not reason(step(at, by))} - reached
        reached |= fresh
        waiting += fresh
    walls = [(job.number(at), by, reason(step(at, by))) for at in sorted(reached) for by in MOVES if reason(step(at, by))]
    return None if goal in reached else Surroundings(Question(job, start, goal), map(job.number, reached), walls)


def of_text(text, start, goal):
    draft = texts.read("source %d %d %d\n" % start + text, "text")
    assert not draft.problems, draft.problems
    return told(texts.job_of(draft), start, goal)


def of_example(name):
    job = from_bytes(content(name + ".sheet"))
    return told(job, approach(job.sinks[0]), terminal(job.source))


class Words(unittest.TestCase):
    def test_examples(self):
        self.assertEqual(sentence(of_example("walled-in")),
                         "From (7, 1, 4) wire gets to 16 cells and no further. Round them stand 45 Solid, 1 RedstoneLamp and the room's edge; "
                         "1 cell has nothing beneath that bears.")
        self.assertEqual(no_way(of_example("walled-in").asked), "No wire can get from (7, 1, 4) to (1, 1, 4), at any costs.")
        self.assertEqual(sentence(of_example("lever-door")),
                         "From (6, 1, 0) wire gets to 16 cells and no further. Round them stand 25 Solid, 1 Lever, 1 RedstoneLamp and the "
                         "room's edge; 2 cells have nothing beneath that bears.")

    def test_one_and_many(self):
        row, two = "room 3 1 1\nblock solid 1 0 0", "room 3 2 1\nblock lever 0 0 0\nblock lever 2 0 0"
        self.assertEqual(sentence(of_text(row, (0, 0, 0), (2, 0, 0))),
                         "From (0, 0, 0) wire gets to no other cell. Round it stand 1 Solid and the room's edge.")
        self.assertEqual(sentence(of_text("room 1 2 1", (0, 0, 0), (0, 1, 0))),
                         "From (0, 0, 0) wire gets to no other cell. Round it stands the room's edge.")
        # the start lies over a lever: no wire gets back to it, and it is no wall
        self.assertEqual(sentence(of_text(two, (0, 1, 0), (2, 1, 0))),
                         "From (0, 1, 0) wire gets to 3 cells and no further. Round them stand 2 Lever and the room's edge; "
                         "1 cell has nothing beneath that bears.")


class Pages(unittest.TestCase):
    def check(self, found):
        """The page is well-formed; on each floor that is drawn every cell reached has its dot, and every wall of the floor its edge."""
        job = found.asked.job
        tree = ElementTree.fromstring(page("reason", found))
        drawing = ReasonDrawing(found)
        drawn = [level for level in range(job.sides[1]) if drawing.plain_floor(level) is None]
        figures = [figure for figure in tree.iter("{http://www.w3.org/1999/xhtml}figure")]
        self.assertEqual([figure.get("id") for figure in figures], ["floor-%d" % level for level in drawn])
        self.assertLessEqual({at[1] for at in found.reached}, set(drawn))
        for level, figure in zip(drawn, figures):
            dots = "".join(path.get("d") for path in figure.iter(SVG + "path") if path.get("class") == "dots")
            self.assertEqual(dots.count("M"), sum(at[1] == level for at in found.reached))
            for reason in LINES:
                paths = [path.get("d") for path in figure.iter(SVG + "path") if path.get("data-reason") == str(reason)]
                due = {(beside in found.reached, frozenset((beside, to)))
                       for (beside, to), why in found.edges.items() if why == reason and to[1] == level}
                self.assertEqual("".join(paths).count("M"), len(due))

    def test_examples(self):
        for name in ("walled-in", "lever-door"):
            self.check(of_example(name))

    def test_random_rooms(self):
        rng = random.Random(8)
        seen = 0
        while seen < 30:
            job = random_job(rng)
            air = [cell for cell, kind in enumerate(kinds_of(job)) if kind == AIR]
            if next(late_faults(job), None) is None and len(air) > 1 and job.cells() < 500:
                found = told(job, *map(job.place, rng.sample(air, 2)))
                if found is not None:
                    self.check(found)
                    seen += 1

    def test_thick_edges_part_cells_reached_from_others(self):
        found = of_example("lever-door")
        for (beside, to), reason in found.edges.items():
            self.assertNotIn(to, found.reached)
            self.assertEqual(reason == OUTSIDE, not found.asked.job.holds(to))
            if beside in found.reached:
                self.assertIn(reason, LINES)
        flat = {(at, step(at, by)) for at in found.reached for by in MOVES if not by[1]}
        self.assertEqual({edge for edge in found.edges if edge[0] in found.reached} & flat, {edge for edge in flat if edge[1] not in found.reached})

    def test_black_and_white(self):
        """The lines differ in their dashes."""
        dashes = [re.findall(r'stroke-dasharray="([^"]*)"', line) for line in LINES.values()]
        self.assertEqual(len({str(dash) for dash in dashes}), len(LINES))

    def test_floors_of_one_kind_are_told(self):
        self.assertIn("Floor y = 0 is Solid in every cell; 15 of them stand round the cells that wire gets to.", page("a", of_example("lever-door")))

    def test_large_rooms_stay_small_pages(self):
        found = of_text("room 30 4 30\nblock solid 0 0 0 to 29 0 29\nblock solid 20 1 0 to 20 3 29", (0, 1, 0), (29, 1, 29))
        self.assertEqual(len(found.reached), 20 * 3 * 30)
        self.assertLess(len(page("large", found)), 100_000)
