"""The examples are what their texts make, and their answers are drawn."""
import json
import os
import re
import subprocess
import unittest
import xml.etree.ElementTree as ElementTree

from common import EXAMPLES, HEX_ANSWER, HEX_SHEET, ROOT, TOOLS, content, examples, list_examples, remade, small_examples
from dustsheet import answer as answers, text as texts
from dustsheet.job import from_bytes, to_bytes
from dustsheet.net import branches
from dustsheet.page import page
from dustsheet.report import of_net
from test_view import branches_of

ORACLE = os.path.join(ROOT, "oracle", "target", "release", "oracle")


class Examples(unittest.TestCase):
    def test_there_are_some(self):
        self.assertGreaterEqual(len(examples()), 6)

    def test_every_example_has_its_answer(self):
        self.assertEqual(sorted([*examples(), *list_examples()]), sorted(file[:-4] for file in os.listdir(EXAMPLES) if file.endswith(".txt")))
        for file in os.listdir(EXAMPLES):
            if file.endswith(".txt"):
                made = "./dustroute route examples/%s > examples/%s" % (file, file.replace(".txt", ".out"))
                self.assertTrue(os.path.exists(os.path.join(EXAMPLES, file.replace(".txt", ".out"))), made)

    def test_sheets_are_made_from_their_texts(self):
        for name in examples():
            with self.subTest(name=name):
                draft = texts.read(content(name + ".txt").decode(), name)
                self.assertEqual(draft.problems, [])
                job = texts.job_of(draft)
                self.assertEqual(texts.problems_of(draft, job), [])
                self.assertEqual(to_bytes(job), content(name + ".sheet"))
                self.assertEqual(remade(from_bytes(content(name + ".sheet"))), content(name + ".sheet"))

    def test_answers_are_drawn(self):
        for name in examples():
            with self.subTest(name=name):
                job = from_bytes(content(name + ".sheet"))
                answer = answers.read(content(name + ".out").decode(), job)
                tree = ElementTree.fromstring(page(name, job, answer))
                self.assertEqual(branches_of(tree), set(range(1, len(answer.branches) + 1)))

    def test_the_example_of_both_modes(self):
        job = from_bytes(content("gap.sheet"))
        for strict, file, line in ((False, "gap.out", "Published mode:"), (True, "gap-strict.out", "Strict mode:")):
            drawn = ElementTree.fromstring(page("gap", job, answers.read(content(file).decode(), job, strict), strict=strict))
            self.assertIn(line, "".join(drawn.itertext()))
        with self.assertRaisesRegex(answers.BadAnswer, r"no answer of strict mode: the wire at \(4, 2, 0\) rests on the cell \(4, 1, 0\)"):
            answers.read(content("gap.out").decode(), job, strict=True)

    def test_the_example_of_a_hall(self):
        """A sheet of version 3; its page is cropped and its long floors drawn in pieces."""
        job = from_bytes(content("hall.sheet"))
        self.assertEqual((job.sides, job.cells(), job.version().number, len(job.sinks)), ((300, 8, 27), 64_800, 3, 16))
        self.assertFalse([block for block in job.blocks if block.at[1] == 0 and block.kind == 1 and block.at[0] not in (75, 150, 225)])
        tree = ElementTree.fromstring(page("hall", job, answers.read(content("hall.out").decode(), job)))
        captions = ["".join(caption.itertext()) for caption in tree.iter("{http://www.w3.org/1999/xhtml}figcaption")]
        self.assertIn("Floor y = 0 (bottom): x = 0 to 71, z = 0 to 26", captions)
        self.assertFalse([caption for caption in captions if "y = 7" in caption])

    def test_the_example_of_limits(self):
        """Each lamp's signal comes through its machine, just so; at the limits of version 1 the second lamp's would not."""
        job = from_bytes(content("dust-inside.sheet"))
        answer = answers.read(content("dust-inside.out").decode(), job)
        for branch, dust in zip(branches(answer, job), (3, 10)):
            self.assertEqual(branch.sink.tail, 14 - dust)
            self.assertGreater(branch.signal - dust, 0)
        drawn = "".join(ElementTree.fromstring(page("dust-inside", job, answer)).itertext())
        self.assertIn("A repeater is due after 12 steps; behind the last one at most 11 steps to sink 1, 4 steps to sink 2.", drawn)
        told = json.loads(of_net(job, answer, [], False))
        self.assertEqual((told["run"], [branch["tail"] for branch in told["branches"]]), (12, [11, 4]))
        lane = from_bytes(content("lane.sheet"))
        self.assertNotIn("due after", page("lane", lane, answers.read(content("lane.out").decode(), lane)))

    @unittest.skipUnless(os.path.exists(ORACLE), "the oracle is not built")
    def test_answers_are_the_oracles(self):
        for name in small_examples():
            done = subprocess.run([ORACLE, "sheet", os.path.join(EXAMPLES, name + ".sheet")], stdout=subprocess.PIPE, check=True)
            self.assertEqual(done.stdout, content(name + ".out"), name)

    def test_the_example_of_the_text(self):
        with open(os.path.join(TOOLS, "TEXT.md"), encoding="utf-8") as file:
            example = re.search(r"```text\n(.*?)```", file.read(), re.DOTALL).group(1)
        draft = texts.read(example, "TEXT.md")
        self.assertEqual(draft.problems, [])
        self.assertEqual(texts.problems_of(draft, texts.job_of(draft)), [])

    def test_the_smallest_is_the_hex_sheet(self):
        self.assertEqual(content("smallest.sheet"), bytes.fromhex(HEX_SHEET))
        self.assertEqual(content("smallest.out").decode(), HEX_ANSWER)
