"""The check of an answer: signals, dark lamps, neighbours of other nets, ends with nothing beside them, wires without ground."""
import unittest

from common import stored
from dustsheet import answer as answers, net, text as texts
from dustsheet.check import NOT_KNOWN, remarks
from dustsheet.job import from_bytes
from dustsheet.page import page
from dustsheet.rules import terminal

NO_DRIVER = "nothing beside the source"
NO_LOAD = "has nothing to drive"


def job_of(text):
    draft = texts.read(text, "text")
    assert not draft.problems, draft.problems
    return texts.job_of(draft)


def row(length, repeaters="", blocks=""):
    """A straight wire along x from end to end: the job and its answer."""
    job = job_of("room %d 2 3\n%ssource 0 1 1\nsink %d 1 1\n" % (length, blocks, length - 1))
    cells = " ".join(str(job.number((x, 1, 1))) for x in range(length))
    marks = " ".join(str(job.number((x, 1, 1))) for x in map(int, repeaters.split()))
    return job, answers.read("net 1 %d\nbranch %s\nrepeaters %s\n" % (length, cells, marks), job)


def said(job, answer):
    return [remark.words for remark in remarks(job, answer)]


def about(words, job, answer=None):
    return [remark for remark in remarks(job, answer) if words in remark.words]


class Signals(unittest.TestCase):
    def along(self, job, answer):
        found = net.signals(answer, job)
        return [found[at] for at in answer.branches[0]]

    def test_one_less_a_step_and_full_behind_a_repeater(self):
        self.assertEqual(self.along(*row(16)), [15, 14, 13, 12, 11, 10, 9, 8, 7, 6, 5, 4, 3, 2, 1, 0])
        self.assertEqual(self.along(*row(8, "3")), [15, 14, 13, 15, 15, 14, 13, 12])

    def test_a_repeater_that_nothing_reaches_gives_nothing(self):
        self.assertEqual(self.along(*row(20, "17"))[14:], [1, 0, 0, 0, 0, 0])
        self.assertEqual(self.along(*row(20, "15"))[14:], [1, 15, 15, 14, 13, 12])

    def test_branches_share_their_stem(self):
        job = job_of("room 5 1 3\nsource 0 0 0\nsink 4 0 0\nsink 2 0 2\n")
        answer = answers.read("net 2 7\nbranch 0 3 6 9 12\nbranch 6 7 8\nrepeaters\n", job)
        self.assertEqual([branch.signal for branch in net.branches(answer, job)], [11, 11])

    def test_stored_answers(self):
        """Every answer of the oracle has a signal at each cell, 15 at the source, and statistics that add up."""
        seen = 0
        for case in stored():
            if case.number == 0:
                job = from_bytes(case.sheet)
                answer = answers.read(case.printed(), job)
                found = net.signals(answer, job)
                self.assertEqual(found[terminal(job.source)], 15)
                self.assertEqual(set(found), answers.occupied(answer, job))
                listed = net.branches(answer, job)
                self.assertEqual(sum(len(branch.supports) for branch in listed), len(set().union(*net.supports(answer, job))))
                self.assertTrue(all(0 <= branch.signal <= 15 for branch in listed))
                seen += 1
        self.assertGreater(seen, 300)


class Dark(unittest.TestCase):
    def dark(self, job, answer):
        return [words for words in said(job, answer) if "stays dark" in words]

    def test_the_last_step_that_is_lit(self):
        self.assertEqual(self.dark(*row(15)), [])
        self.assertEqual(self.dark(*row(16)), ["sink 1 at (15, 1, 1) stays dark: 15 steps behind the source, and no repeater fits"])
        self.assertEqual(self.dark(*row(19, "3")), [])
        self.assertEqual(self.dark(*row(20, "3")), ["sink 1 at (19, 1, 1) stays dark: 16 steps behind the repeater at (3, 1, 1), and no repeater fits"])

    def test_a_run_before_a_repeater(self):
        self.assertEqual(self.dark(*row(20, "15")), [])
        self.assertEqual(self.dark(*row(20, "16")),
                         ["sink 1 at (19, 1, 1) stays dark: 16 steps behind the source up to the repeater at (16, 1, 1), and no repeater fits"])

    def test_its_cell(self):
        found = about("stays dark", *row(16))
        self.assertEqual([remark.at for remark in found], [(15, 1, 1)])


class Neighbours(unittest.TestCase):
    def test_a_wire_beside_another_net(self):
        job, answer = row(5, blocks="conductor 4 1 2\n")
        self.assertEqual([remark.at for remark in about("the two would join", job, answer)], [(4, 1, 1)])
        self.assertIn("the wire at (4, 1, 1) lies beside another net's conductor at (4, 1, 2): the two would join", said(job, answer))
        job, answer = row(5, blocks="conductor 4 0 2\n")
        self.assertEqual(len(about("the two would join", job, answer)), 1)
        job, answer = row(5, blocks="conductor 3 1 1\n")
        self.assertIn("the wire at (3, 1, 1) lies in another net's conductor", said(job, answer))
        job, answer = row(5, blocks="clearance 4 1 2\n")
        self.assertEqual(about("the two would join", job, answer), [])


class Sources(unittest.TestCase):
    def driven(self, lines, source="source 2 1 2"):
        return not about(NO_DRIVER, job_of("room 5 4 5\n%s\n%s\n" % (lines, source)))

    def test_what_could_drive_a_wire(self):
        for lines in ("block lever 2 1 3", "block button 1 1 2", "block pressure-plate 3 1 2", "block redstone-torch 2 1 1", "block redstone-block 2 0 2",
                      "block redstone-wire 3 1 2", "block redstone-wire 3 2 2", "block redstone-wire 2 0 3", "block repeater 1 1 2 east",
                      "block comparator 2 1 3 north", "block repeater 1 1 2", "block solid 2 0 2\nblock lever 1 0 2",
                      "block solid 1 1 2\nblock repeater 0 1 2 east", "block lever 2 1 2"):
            self.assertTrue(self.driven(lines), lines)

    def test_what_could_not(self):
        for lines in ("", "block solid 2 0 2", "block redstone-lamp 2 1 3", "block piston 1 1 2", "block lever 3 1 3", "block lever 4 1 2",
                      "block repeater 1 1 2 west", "block repeater 1 1 2 north", "block transparent 2 0 2\nblock lever 1 0 2", "conductor 2 1 4"):
            self.assertFalse(self.driven(lines), lines)

    def test_a_block_that_gives_power(self):
        source = "source block-power 2 1 2 east"
        for lines, due in (("", False), ("block solid 2 1 2", False), ("block solid 2 1 2\nblock lever 2 2 2", True), ("block redstone-torch 2 1 2", True),
                           ("block redstone-lamp 2 1 2", False)):
            self.assertEqual(self.driven(lines, source), due, lines)


class Sinks(unittest.TestCase):
    def drives(self, lines, sink="sink 2 1 2"):
        return not about(NO_LOAD, job_of("room 5 4 5\n%s\nsource 0 3 0\n%s\n" % (lines, sink)))

    def test_what_a_wire_drives(self):
        for lines in ("block redstone-lamp 2 1 3", "block redstone-lamp 2 0 2", "block piston 1 1 2 up", "block redstone-wire 3 1 2",
                      "block repeater 3 1 2 east", "block comparator 3 1 2 north", "block solid 3 1 2\nblock redstone-lamp 4 1 2",
                      "block solid 2 0 2\nblock redstone-torch 1 0 2", "block redstone-wire 2 1 2\nblock redstone-lamp 2 1 1"):
            self.assertTrue(self.drives(lines), lines)
        for lines in ("", "block solid 3 1 2", "block lever 3 1 2", "block repeater 3 1 2 west", "block redstone-lamp 2 2 2", "block redstone-lamp 3 1 3"):
            self.assertFalse(self.drives(lines), lines)

    def test_a_block_that_is_powered(self):
        sink = "sink block-power 2 1 2 west"
        for lines, due in (("", False), ("block solid 2 1 2", False), ("block solid 2 1 2\nblock redstone-lamp 3 1 2", True), ("block redstone-lamp 2 1 2", True),
                           ("block transparent 2 1 2\nblock redstone-lamp 3 1 2", False)):
            self.assertEqual(self.drives(lines, sink), due, lines)


class Ground(unittest.TestCase):
    def test_supports_that_can_not_be(self):
        for lines, words in (("reserved 2 0 1\n", "the wire at (2, 1, 1) needs a support at (2, 0, 1), which is reserved"),
                             ("conductor 2 0 1\n", "needs a support at (2, 0, 1), which is another net's conductor"),
                             ("clearance 2 0 1\n", "which another net keeps clear"), ("terminal 2 0 1\n", "which is another net's terminal"),
                             ("block lever 2 0 1\n", "the wire at (2, 1, 1) has no ground: a lever stands beneath"),
                             ("block redstone-lamp 2 1 1\n", "no wire can be laid at (2, 1, 1): a redstone-lamp stands there")):
            with self.subTest(lines=lines):
                self.assertEqual([remark.at for remark in about(words, *row(5, blocks=lines))], [(2, 1, 1)])
        for lines in ("", "block solid 0 0 1 to 4 0 1\n", "block transparent 2 0 1\n", "block redstone-block 2 0 1\n", "reserved 2 0 0\n"):
            found = said(*row(5, blocks=lines))
            self.assertFalse([words for words in found if "ground" in words or "support" in words], lines)

    def test_the_nets_own_wire_beneath(self):
        job = job_of("room 3 2 1\nsource 0 0 0\nsink 1 1 0\nsink 1 0 0\n")
        answer = answers.read("net 2 3\nbranch 0 3\nbranch 0 2\nrepeaters\n", job)
        self.assertIn("the wire at (1, 1, 0) has no ground: the net's own wire lies right beneath", said(job, answer))


class Told(unittest.TestCase):
    def test_on_the_page_in_words_and_drawn(self):
        job, answer = row(16)
        content = page("dark", job, answer)
        self.assertIn("<li>Sink 1 at (15, 1, 1) stays dark: 15 steps behind the source, and no repeater fits.</li>", content)
        self.assertIn("doesn&#x27;t know the shape", content)
        self.assertIn("warning 3</title>", content)
        self.assertEqual(content.split("<h2>Legend")[0].count('href="#warned"'), 2)
        self.assertEqual(content.split('id="room"')[1].split("</figure>")[0].count('class="warned"'), 2)
        self.assertEqual(content.count('class="dark"'), 1)

    def test_what_is_not_known_is_said_where_nothing_is_found(self):
        job, answer = row(5, blocks="block lever 0 1 0\nblock redstone-lamp 4 1 0\nblock solid 0 0 0 to 4 0 2\n")
        self.assertEqual(said(job, answer), [])
        content = page("fine", job, answer)
        self.assertIn("The check found nothing to warn of.", content)
        self.assertIn("It follows the signal along the branches", content)
        self.assertIn("doesn't know", NOT_KNOWN)

    def test_refused_jobs_are_checked_at_their_ends(self):
        job = job_of("room 3 1 1\nblock solid 1 0 0\nsource 0 0 0\nsink 2 0 0\n")
        self.assertEqual(len(said(job, answers.read("refused 14 2", job))), 2)
        job = job_of("room 3 1 1\nsource 0 0 0\nsink block-power 2 0 0\n")
        self.assertEqual(said(job, answers.read("refused 8 1", job)), [])
