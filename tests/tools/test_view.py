"""The viewer: pages are well-formed, show every branch, and bad answers are refused."""
import ast
import os
import random
import tempfile
import unittest
import xml.etree.ElementTree as ElementTree
from pathlib import Path

from common import HEX_ANSWER, HEX_SHEET, ROOT, TOOLS, random_job, run, stored
from dustsheet import answer as answers, text as texts
from dustsheet.drawing import Drawing
from dustsheet.job import first_fault, from_bytes
from dustsheet.page import page
from dustsheet.rules import blocked

SVG = "{http://www.w3.org/2000/svg}"
HTML = "{http://www.w3.org/1999/xhtml}"


def parsed(content):
    return ElementTree.fromstring(content)


def job_of(text):
    draft = texts.read(text, "text")
    assert not draft.problems, draft.problems
    return texts.job_of(draft)


def branches_of(tree):
    return {int(path.get("data-sink")) for path in tree.iter(SVG + "path") if path.get("data-sink")}


class StoredAnswers(unittest.TestCase):
    """Each stored answer that program route could print is taken by the viewer; those of small rooms are drawn."""

    def test_answers(self):
        drawn = 0
        for place, case in enumerate(stored()):
            if 1 <= case.number <= 6:
                continue
            with self.subTest(place=place):
                job = from_bytes(case.sheet)
                answer = answers.read(case.printed(), job)
                wires = {at for branch in answer.branches for at in branch}
                self.assertEqual(wires & blocked(job) if wires else set(), set())
                if job.cells() <= 300:
                    self.check_page(job, answer)
                    drawn += 1
        self.assertGreater(drawn, 200)

    def test_answers_in_strict_mode(self):
        """Each is taken as one of strict mode; of those of the published mode some are refused as such."""
        trees = 0
        for place, case in enumerate(stored("tests/bindings/strict.bin", b"DRM1")):
            if case.number == 0:
                with self.subTest(place=place):
                    answers.read(case.printed(), from_bytes(case.sheet), strict=True)
                    trees += 1
        self.assertGreater(trees, 200)
        refused = 0
        for case in stored():
            try:
                if case.number == 0:
                    answers.read(case.printed(), from_bytes(case.sheet), strict=True)
            except answers.BadAnswer as bad:
                self.assertIn("no answer of strict mode", str(bad))
                refused += 1
        self.assertGreater(refused, 20)

    def check_page(self, job, answer):
        tree = parsed(page("stored", job, answer))
        self.assertEqual(branches_of(tree), {place for place, branch in enumerate(answer.branches, 1) if len(branch) > 1})
        repeaters = [group for group in tree.iter(SVG + "g") if group.get("class") == "repeater"]
        self.assertEqual(len(repeaters), len(answer.repeaters))


class Pages(unittest.TestCase):
    def test_rooms_without_an_answer(self):
        rng = random.Random(5)
        for _ in range(60):
            job = random_job(rng)
            tree = parsed(page("random", job, None))
            drawing = Drawing(job, None)
            room, *floors = [figure.get("id") for figure in tree.iter(HTML + "figure")]
            self.assertEqual(room, "room")
            self.assertEqual(floors, ["floor-%d" % level for level in range(job.sides[1]) if drawing.plain_floor(level) is None])

    def test_cell_titles_and_repeater(self):
        tree = parsed(page("hex", job_of("room 10 1 1\nsource 0 0 0\nsink 9 0 0"), answers.read(HEX_ANSWER, from_bytes(bytes.fromhex(HEX_SHEET)))))
        titles = [title.text for title in tree.iter(SVG + "title")]
        self.assertEqual(len(titles), 10)
        self.assertEqual(titles[1], "cell 1 (1, 0, 0): branch to sink 1; signal 15; repeater pointing east")
        self.assertEqual(titles[9], "cell 9 (9, 0, 0): branch to sink 1; signal 8; sink 1, wire; warning 2")

    def test_stairs_point_up_below_and_down_above(self):
        job = job_of("room 3 2 1\nblock solid 1 0 0\nsource 0 0 0\nsink 1 1 0")
        content = page("stair", job, answers.read("net 1 2\nbranch 0 3\nrepeaters\n", job))
        lower, upper = content.split('id="floor-1"')
        self.assertEqual((lower.split('id="floor-0"')[1].count("#stair-up"), lower.count("#stair-down")), (1, 0))
        self.assertEqual(upper.split("<h2>Legend")[0].count("#stair-down"), 1)

    def test_what_is_blocked(self):
        live = {(1, y, 2) for y in (0, 1, 2)} | {(3, y, 2) for y in (0, 1, 2)} | {(2, y, z) for y in (0, 1, 2) for z in (1, 3)}
        room = "room 9 3 5\nsource 8 0 0\n"
        for text, due in (("block redstone-torch 2 1 2", live), ("conductor 2 1 2", live | {(2, 1, 2)}), ("clearance 2 1 2", {(2, 1, 2)}),
                          ("block lever 2 1 2\nsink 1 1 2", live - {(1, 1, 2), (1, 0, 2)}), ("block solid 2 1 2", set()),
                          ("block repeater 1 1 2 east\nblock solid 2 1 2", live), ("block repeater 1 1 2 east node 1\nblock solid 2 1 2", set()),
                          ("block repeater 1 1 2 east", set()), ("block repeater 2 0 2 up\nblock solid 2 1 2", set())):
            with self.subTest(text=text):
                self.assertEqual(blocked(job_of(room + text)), due)

    def test_refusals_mark_their_cell(self):
        room = "room 5 2 5\nsource 0 0 0\n"
        for text, answer, words in ((room + "block solid 1 1 1\n" * 2, "refused 7 16", "Two blocks stand in one cell: (1, 1, 1), number 16."),
                                    (room + "sink block-power 1 1 1", "refused 8 1", "Sink 1 is block-power and must face"),
                                    (room + "sink 1 1 0 north", "refused 9 1", "The wire of sink 1 would lie outside the room: its approach (1, 1, -1)"),
                                    (room + "sink 1 1 1", "refused 14 16", "No way was found to sink 1 at (1, 1, 1)."),
                                    (room + "sink 1 1 1", "refused 15 1", "The branches up to sink 1 have more cells than")):
            with self.subTest(answer=answer):
                job = job_of(text)
                content = page("refused", job, answers.read(answer, job))
                parsed(content)
                self.assertIn(words, content)
                self.assertEqual(content.split("<h2>Legend")[0].count('href="#marked"'), 1)
                self.assertIn("the refusal speaks of this cell</title>", content)

    def test_full_queue_has_no_cell(self):
        job = job_of("room 5 2 5\nsource 0 0 0\nsink 1 1 1")
        self.assertIn("queue was full after 7 cells", page("full", job, answers.read("refused 13 7", job)))

    def test_large_rooms_stay_small_pages(self):
        job = job_of("room 64 4 64\nblock solid 0 0 0 to 63 0 63\nconductor 9 1 0 to 9 1 63\nsource 0 1 0\nsink 63 1 63")
        content = page("large", job, None)
        parsed(content)
        self.assertLess(len(content), 200_000)
        self.assertIn("Floor y = 0 is Solid in every cell.", content)

    def test_signals_come_by_the_shortest_way_and_the_least_cell(self):
        job = job_of("room 2 1 2\nsource 0 0 0\nsink 1 0 1\nsink 1 0 1")
        ring = answers.read("net 2 4\nbranch 0 2 3\nbranch 0 1 3\nrepeaters\n", job)
        self.assertEqual(answers.directions(ring, job), {(0, 0, 0): 0, (0, 0, 1): 3, (1, 0, 0): 2, (1, 0, 1): 2})

    def test_names_are_escaped(self):
        with tempfile.TemporaryDirectory() as folder:
            name = os.path.join(folder, "<b>&\"'\1.sheet")
            with open(name, "wb") as file:
                file.write(bytes.fromhex(HEX_SHEET))
            status, content, _ = run("view", name)
        self.assertEqual(status, 0)
        self.assertEqual(parsed(content).find(".//" + HTML + "h1").text, "<b>&\"'?.sheet")


BAD_ANSWERS = [
    ("", "the answer is empty"),
    ("nte 1 10", "line 1 begins with 'nte'; expected 'net' or 'refused'"),
    ("net 1", "not 1 numbers"),
    ("net 1 10\nrepeaters", "is to be followed by 1 lines 'branch' and one line 'repeaters'"),
    ("net 2 10\nbranch 0\nbranch 0\nrepeaters", "the answer has 2 branches, the sheet 1 sinks"),
    ("net 1 10\nbranch 0 1 2 3 4 5 6 7 8 10\nrepeaters", "cell 10 is outside the room, whose last cell is 9"),
    ("net 1 10\nbranch 0 1 2 3 4 5 6 7 8 9\nrepeaters 99", "cell 99 is outside the room"),
    ("net 1 10\nbranch 0 x\nrepeaters", "'x' in the line 'branch' is no number"),
    ("net 1 9\nbranch 0 1 2 3 4 5 6 7 8 9\nrepeaters", "says 9 occupied cells, the branches and the source have 10"),
    ("net 1 9\nbranch 0 1 2 3 4 5 6 7 8\nrepeaters", "branch 1 doesn't end at its sink's terminal (9, 0, 0), cell 9"),
    ("net 1 9\nbranch 0 1 2 3 4 5 6 7 9\nrepeaters", "branch 1 jumps from cell 7 to cell 9"),
    ("net 1 3\nbranch 8 9\nrepeaters", "the branch that begins at cell 8 doesn't hang together with the source"),
    ("net 1 10\nbranch 0 1 2 3 4 5 6 7 8 9\nrepeaters 0", "the repeater in cell 0 doesn't stand on a flat piece"),
    ("net 1 10\nbranch\nrepeaters", "branch 1 doesn't end at its sink's terminal"),
    ("refused 14", "not 1 numbers"),
    ("refused 14 5", "number 14 names cell 5, which is no sink's approach"),
    ("refused 15 2", "number 15 names sink 2; the sheet has 1"),
    ("refused 4 0", "this sheet has no such fault: it answers another sheet"),
    ("refused 2 0", "this sheet has no such fault"),
    ("refused 7 3", "this sheet has no such fault"),
    ("refused 11 5", "a net is never refused with number 11"),
    ("refused 14 9\nnet", "lines follow behind 'refused'"),
]


class Answers(unittest.TestCase):
    def test_bad_answers(self):
        job = from_bytes(bytes.fromhex(HEX_SHEET))
        for text, words in BAD_ANSWERS:
            with self.subTest(text=text):
                with self.assertRaises(answers.BadAnswer) as caught:
                    answers.read(text, job)
                self.assertIn(words, str(caught.exception))

    def test_details_of_late_refusals(self):
        job = job_of("room 5 2 5\nsource 0 0 0\nsink block-power 1 1 1")
        for text in ("refused 8 0", "refused 9 1", "net 1 2\nbranch 0 1\nrepeaters", "refused 14 16"):
            with self.assertRaises(answers.BadAnswer):
                answers.read(text, job)

    def test_program(self):
        with tempfile.TemporaryDirectory() as folder:
            sheet, out = os.path.join(folder, "a.sheet"), os.path.join(folder, "a.html")
            with open(sheet, "wb") as file:
                file.write(bytes.fromhex(HEX_SHEET))
            status, written, message = run("view", sheet, "-", "-o", out, given=b"net 1 10\n")
            self.assertEqual((status, written, os.path.exists(out)), (2, b"", False))
            self.assertIn("standard input: 'net 1' is to be followed", message)
            self.assertEqual(run("view", sheet, "-", "-o", out, given=HEX_ANSWER.encode())[0], 0)
            with open(out, "rb") as file:
                self.assertEqual(branches_of(parsed(file.read())), {1})
            status, content, _ = run("view", "--hex", "-", given=HEX_SHEET.encode())
            self.assertEqual((status, branches_of(parsed(content))), (0, set()))

    def test_sheets_that_are_refused_as_they_are_read(self):
        with tempfile.TemporaryDirectory() as folder:
            sheet = os.path.join(folder, "a.sheet")
            for damage, number in ((b"\2", 1), (bytes.fromhex(HEX_SHEET.replace("0A0101", "0A0001")), 2),
                                   (bytes.fromhex(HEX_SHEET.replace("0900000000", "0900010000")), 4)):
                with open(sheet, "wb") as file:
                    file.write(damage)
                status, _, message = run("view", sheet)
                self.assertEqual(status, 2)
                self.assertIn("(number %d)" % number, message)
                status, content, _ = run("view", sheet, "-", given=b"refused %d 0\n" % number)
                self.assertEqual(status, 0)
                self.assertIn("Refused.", "".join(parsed(content).itertext()))
                self.assertEqual(run("view", sheet, "-", given=HEX_ANSWER.encode())[0], 2)

    def test_the_mode_is_told_and_checked(self):
        with tempfile.TemporaryDirectory() as folder:
            sheet = os.path.join(folder, "a.txt")
            with open(sheet, "w", encoding="utf-8") as file:
                file.write("room 1 2 3\nconductor 0 0 1\nsource 0 1 0\nsink 0 1 2\n")
            for words, given, status, says in (
                    ([], b"net 1 3\nbranch 3 4 5\nrepeaters\n", 0, "Published mode:"), (["--strict"], b"refused 14 5\n", 0, "Strict mode:"),
                    (["--strict"], b"net 1 3\nbranch 3 4 5\nrepeaters\n", 2, "no answer of strict mode")):
                found, content, message = run("view", sheet, "-", *words, given=given)
                self.assertEqual(found, status)
                self.assertIn(says, message if status else "".join(parsed(content).itertext()))
            self.assertNotIn("mode:", "".join(parsed(run("view", sheet)[1]).itertext()))
            self.assertEqual(run("view", "--strict", sheet)[0], 2)

    def test_rooms_above_the_programs_size(self):
        job = job_of("room 64 2 64\nsource 0 0 0\nsink 1 0 1")
        self.assertIsNone(first_fault(job))
        self.assertIn("program route takes at most 4096", page("large", job, answers.read("refused 2 0", job)))


class Language(unittest.TestCase):
    def test_python_3_9_reads_the_tools(self):
        root = Path(ROOT)
        files = [root / "dustroute", *(Path(TOOLS) / name for name in ("sheet", "view", "picture", "why"))]
        files += [*Path(TOOLS).glob("dustsheet/**/*.py"), *root.glob("bindings/python/**/*.py")]
        self.assertGreater(len(files), 20)
        for file in files:
            ast.parse(file.read_text(encoding="utf-8"), str(file), feature_version=(3, 9))
