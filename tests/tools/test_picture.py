"""Pictures: the one in the documents is what the tool draws, each example can be drawn, and bad answers are refused."""
import os
import unittest
import xml.etree.ElementTree as ElementTree

from common import EXAMPLES, ROOT, content, examples, run
from dustsheet import answer as answers
from dustsheet.job import from_bytes
from dustsheet.solid import Picture

SVG = "{http://www.w3.org/2000/svg}"


def drawn(name):
    job = from_bytes(content(name + ".sheet"))
    answer = answers.read(content(name + ".out").decode(), job)
    return job, answer, ElementTree.fromstring(Picture(job, answer).svg())


class Pictures(unittest.TestCase):
    def test_the_pictures_of_the_documents(self):
        for name in ("lane", "dust-inside"):
            with open(os.path.join(ROOT, "docs", name + ".svg"), "rb") as file:
                kept = file.read()
            status, made, said = run("picture", os.path.join(EXAMPLES, name + ".sheet"), os.path.join(EXAMPLES, name + ".out"))
            self.assertEqual((status, said), (0, ""))
            self.assertEqual(made, kept)

    def test_examples_show_their_ends_and_steps(self):
        for name in examples():
            with self.subTest(name=name):
                job, answer, tree = drawn(name)
                self.assertEqual(len(list(tree.iter(SVG + "circle"))), 1 + len(job.sinks))
                wires = [line for line in tree.iter(SVG + "polyline") if line.get("data-wire")]
                self.assertEqual([line.get("data-wire") for line in wires], [str(place + 1) for place in range(len(answer.branches))])
                for line, branch in zip(wires, answer.branches):
                    stairs = sum(one[1] != other[1] for one, other in zip(branch, branch[1:]))
                    self.assertEqual(len(line.get("points").split()), len(branch) + 2 * stairs)

    def test_what_can_not_be_drawn(self):
        lane, lamp = os.path.join(EXAMPLES, "lane.sheet"), os.path.join(EXAMPLES, "lamp.out")
        status, made, said = run("picture", lane, lamp)
        self.assertEqual((status, made), (2, b""))
        self.assertIn("lamp.out", said)
