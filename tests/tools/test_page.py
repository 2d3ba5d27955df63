"""What the page shows besides the floors: the whole room, cropped, with its stairs; the branches in numbers; screens for the projector."""
import os
import re
import subprocess
import tempfile
import unittest
import xml.etree.ElementTree as ElementTree

from common import EXAMPLES, ROOT, TOOLS, content, examples
from dustsheet import answer as answers, browser, text as texts
from dustsheet.job import from_bytes
from dustsheet.page import page
from dustsheet.solid import Picture
from dustsheet.symbols import COLOURS
from dustsheet.window import window

SVG = "{http://www.w3.org/2000/svg}"
HTML = "{http://www.w3.org/1999/xhtml}"


def job_of(text):
    draft = texts.read(text, "text")
    assert not draft.problems, draft.problems
    return texts.job_of(draft)


def example(name):
    job = from_bytes(content(name + ".sheet"))
    return job, answers.read(content(name + ".out").decode(), job)


def drawn(name):
    return ElementTree.fromstring(page(name, *example(name)))


def points(line):
    return [tuple(map(float, point.split(","))) for point in line.get("points").split()]


class TheRoom(unittest.TestCase):
    def test_it_stands_above_the_floors(self):
        for name in examples():
            figures = [figure.get("id") for figure in drawn(name).iter(HTML + "figure")]
            self.assertEqual(figures[0], "room", name)
            self.assertGreater(len(figures), 1)

    def test_wires_have_their_colours(self):
        wires = [line for line in drawn("three-lamps").iter(SVG + "polyline") if line.get("data-wire")]
        self.assertEqual([line.get("stroke") for line in wires], COLOURS[:3])
        self.assertEqual(len({line.get("stroke-dasharray") for line in wires}), 3)

    def test_stairs_are_seen_as_stairs(self):
        """Between the two cells of a stair the line goes straight up or down by a cell's height; on the flat it never does."""
        for name, stairs in (("lane", 4), ("three-lamps", 0)):
            wires = [points(line) for line in drawn(name).iter(SVG + "polyline") if line.get("data-wire")]
            upright = [1 for line in wires for one, other in zip(line, line[1:]) if one[0] == other[0]]
            self.assertEqual(len(upright), stairs, name)

    def test_supports_and_repeaters(self):
        job, answer = example("lane")
        body = Picture(job, answer).body()
        self.assertEqual(body.count('stroke-dasharray="3 2"'), 5 * 3)
        self.assertEqual(body.count('class="iso-set"'), 1)

    def test_what_is_nearer_is_drawn_later_and_walls_before_a_wire_are_glass(self):
        text = "room 7 3 7\nblock solid 0 0 0 to 6 0 6\n%ssource 1 1 1\nsink 3 1 1\n"
        answer = "net 1 3\nbranch 29 50 71\nrepeaters\n"
        for wall, glass in (("block solid 0 1 2 to 6 2 2\n", True), ("block solid 0 1 0 to 6 2 0\n", False), ("block solid 4 1 2 to 4 2 6\n", True)):
            job = job_of(text % wall)
            body = Picture(job, answers.read(answer, job)).body()
            self.assertEqual('fill-opacity=".1"' in body, glass, wall)
        job = job_of(text % "")
        self.assertNotIn("fill-opacity", Picture(job, answers.read(answer, job)).body())


class Cropped(unittest.TestCase):
    FAR = ("room 64 4 64\nblock solid 0 0 0 to 63 0 63\nblock solid 40 1 0 to 40 1 63\nblock lever 9 1 9\nsource 10 1 9\nsink 13 1 9\n")

    def net(self):
        job = job_of(self.FAR)
        cells = " ".join(str(job.number((x, 1, 9))) for x in range(10, 14))
        return job, answers.read("net 1 4\nbranch %s\nrepeaters\n" % cells, job)

    def test_to_what_the_net_uses(self):
        job, answer = self.net()
        self.assertEqual(window(job, answer), ((7, 0, 7), (15, 1, 11)))
        content = page("far", job, answer)
        self.assertIn("what is drawn, here and below: x = 7 to 15, y = 0 to 1, z = 7 to 11", content)
        floor = content.split('id="floor-1"')[1]
        labels = re.findall(r'text-anchor="middle">(\d+)<', floor.split("</svg>")[0].split('class="axis"')[1].split("</g>")[0])
        self.assertEqual(labels, [str(x) for x in range(7, 16)])
        self.assertLess(len(content), 40_000)

    def test_not_without_a_net(self):
        job, _ = self.net()
        self.assertTrue(window(job, None).low == (0, 0, 0) and window(job, None).high == (63, 1, 63))

    def test_every_wire_is_inside(self):
        for name in examples():
            job, answer = example(name)
            shown = window(job, answer)
            self.assertTrue(all(shown.holds(at) for branch in answer.branches for at in branch), name)
            self.assertTrue(all(shown.holds(end.at) for end in [job.source, *job.sinks]), name)


class Statistics(unittest.TestCase):
    def rows(self, name):
        table = drawn(name).find(".//" + HTML + "table")
        return [["".join(cell.itertext()) for cell in row] for row in table.iter(HTML + "tr")]

    def test_a_row_for_each_branch(self):
        head, *rows = self.rows("lane")
        self.assertEqual(head[4:], ["Steps", "Stairs", "Supports to fetch", "Repeaters", "Signal"])
        self.assertEqual(rows, [["1", "", "wire at (12, 1, 2)", "(0, 1, 2)", "12", "4", "5", "1", "10"]])
        self.assertEqual([row[4:] for row in self.rows("three-lamps")[1:]], [["14", "0", "0", "1", "15"], ["17", "0", "0", "2", "15"], ["5", "0", "0", "0", "8"]])

    def test_signals_on_the_floors(self):
        signs = [sign.text for sign in drawn("lane").iter(SVG + "text") if sign.get("class") == "signal"]
        self.assertEqual(sorted(map(int, signs)), sorted([15, 14, 13, 12, 11, 10, 15, 15, 14, 13, 12, 11, 10]))


class Projector(unittest.TestCase):
    def test_a_screen_for_each_floor_by_a_link_and_without_a_script(self):
        for name in examples():
            content = page(name, *example(name))
            self.assertNotIn("<script", content)
            self.assertIn('<a href="#projector">', content)
            tree = ElementTree.fromstring(content)
            main = tree.find(".//" + HTML + "main")
            self.assertEqual(main.get("id"), "projector")
            slides = [part for part in main if "slide" in part.get("class", "")]
            self.assertLessEqual({figure for figure in main.iter(HTML + "figure")}, set(slides))
            self.assertTrue(all("large" in svg.get("class").split() for part in slides if part.tag == HTML + "figure" for svg in part.iter(SVG + "svg")))
            self.assertIn("main:target > .slide { display: block; box-sizing: border-box; min-height: 100vh;", content)

    def test_it_prints_on_a4(self):
        content = page("lane", *example("lane"))
        self.assertIn("@page { size: A4;", content)
        self.assertIn("main:target { position: static;", content.split("@media print")[1])


class Kept(unittest.TestCase):
    def test_the_pictures_of_the_documents_are_there(self):
        for document, link, picture in (("tools/README.md", "(../docs/%s)", "lane-page.png"), ("README.md", "(docs/%s)", "router-page.png")):
            with open(os.path.join(ROOT, "docs", picture), "rb") as file:
                self.assertEqual(file.read(8), b"\x89PNG\r\n\x1a\n")
            with open(os.path.join(ROOT, document), encoding="utf-8") as file:
                self.assertIn(link % picture, file.read())

    @unittest.skipUnless(browser.find(), "no Chromium on this machine")
    def test_its_script_makes_it(self):
        with tempfile.TemporaryDirectory() as folder:
            made = os.path.join(folder, "page.png")
            subprocess.run([os.path.join(TOOLS, "page-picture"), "-o", made], check=True)
            self.assertGreater(os.path.getsize(made), 20_000)
