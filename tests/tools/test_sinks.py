"""Why a sink wasn't reached: the words, what is tried and the page, over the oracle's stored reasons and without the library."""
import os
import re
import unittest
import xml.etree.ElementTree as ElementTree

from common import ROOT
from dustsheet import sinks, text as texts, tries
from dustsheet.job import from_bytes
from dustsheet.reason import KEPT_FREE, SUPPORT_KEPT_FREE, Question, Surroundings
from dustsheet.rules import ample_limit, approach, late_faults, step, terminal
from dustsheet.sink_page import SinkDrawing, page
from dustsheet.sinks import APPROACH_TAKEN, CAUSES, CONFLICTS, CUT_SHORT, OWN, SHUT_IN, Unreached, details, headline, turns_of, words

SVG, XHTML = "{http://www.w3.org/2000/svg}", "{http://www.w3.org/1999/xhtml}"
MOVES = [(x, up, z) for x, z in ((1, 0), (-1, 0), (0, 1), (0, -1)) for up in (-1, 0, 1)]


def job_of(text):
    draft = texts.read(text, "text")
    assert not draft.problems, draft.problems
    return texts.job_of(draft)


def unreached(job, place, verdict, reached=(), walls=(), causes=None, net=None, strict=False, number=14, detail=None):
    at = approach(job.sinks[place - 1])
    told = Surroundings(Question(job, at, terminal(job.source)), reached, walls)
    return Unreached(job, strict, number, job.number(at) if detail is None else detail, place, verdict, told, causes or {},
                     net or [[] for _ in job.sinks], True)


def stored():
    """Each stored case that stops at a sink, as the library tells it; the format is in oracle/STORED.md."""
    with open(os.path.join(ROOT, "tests", "bindings", "treewhys.bin"), "rb") as file:
        data = file.read()
    place = 4

    def value(size=4):
        nonlocal place
        place += size
        return int.from_bytes(data[place - size:place], "big")

    def taken(size):
        nonlocal place
        place += size
        return data[place - size:place]

    for _ in range(value()):
        strict = value(1) == 1
        taken(12)
        sheet = taken(value())
        taken(12)
        number, detail = value(1), value()
        if number == 0:
            for _ in range(value(1)):
                taken(2 * value())
            taken(4)
            taken(2 * value())
        if number in (13, 14):
            sink, verdict = value(1), value(1)
            told = [(value(2), taken(12)) for _ in range(value())]
            causes = [(value(2), value(1)) for _ in range(value())]
            job = from_bytes(sheet)
            walls = [(cell, by, reason) for cell, moves in told for by, reason in zip(MOVES, moves) if reason]
            yield unreached(job, sink, verdict, [cell for cell, _ in told], walls, {job.place(cell): bits for cell, bits in causes},
                            strict=strict, number=number, detail=detail)


STORED = list(stored())


class Words(unittest.TestCase):
    def test_all_verdicts_are_stored(self):
        for verdict in (APPROACH_TAKEN, SHUT_IN, CONFLICTS, CUT_SHORT):
            self.assertGreater(sum(one.verdict == verdict for one in STORED), 10)

    def test_only_what_is_proved_is_said(self):
        for one in STORED:
            said = " ".join(words(one))
            self.assertEqual("can't be reached" in said, one.verdict in (APPROACH_TAKEN, SHUT_IN), said)
            self.assertNotIn("no way to", said)
            if one.verdict == CONFLICTS:
                self.assertIn("There may be another way.", said)
            self.assertTrue(all(line.endswith(".") and line[0].isupper() for line in words(one)), said)

    def test_counts_are_those_of_the_cells(self):
        """The causes add up to the cells that are kept free, each counted once."""
        seen = 0
        for one in (one for one in STORED if one.verdict == SHUT_IN):
            said = details(one)[0]
            free = sum(reason == KEPT_FREE for reason in one.told.round.values())
            found = re.search(r"(\d+) cells? (?:is|are) kept free: ([^;.]*)", said)
            self.assertEqual(found is not None, free > 0, said)
            if found:
                self.assertEqual((int(found[1]), sum(map(int, re.findall(r"\d+", found[2])))), (free, free), said)
                seen += 1
            over = sum(reason == SUPPORT_KEPT_FREE for reason in one.told.round.values())
            self.assertEqual("on which no wire may rest" in said, over > 0, said)
        self.assertGreater(seen, 50)

    def test_every_cause_has_its_letter(self):
        self.assertEqual(sorted(CAUSES), [1, 2, 4, 8, 16, 32, 64])
        self.assertEqual(len({cause.letter for cause in CAUSES.values()}), 7)

    def test_turns(self):
        job = job_of("room 1 1 9\nsource 0 0 1\nsink 0 0 8\nsink 0 0 0\nsink 0 0 4\nsink 0 0 2\n")
        self.assertEqual(turns_of(job), [2, 4, 3, 1])
        one = unreached(job, 3, CONFLICTS)
        self.assertEqual((one.before(), one.behind()), ([2, 4], [1]))
        self.assertEqual(sinks.turn_words(one), ["Sinks 2 and 4 were reached before it; sink 1 had no turn yet."])

    def test_cut_short(self):
        job = job_of("room 3 1 3\nsource 0 0 0\nsink 1 0 1\nlimit 3\n")
        self.assertEqual(ample_limit(job), 41)
        self.assertEqual(words(unreached(job, 1, CUT_SHORT)), ["Sink 1 at (1, 0, 1) was not reached: its search was cut short.",
                                                              "The node limit is 3; a limit of 41 always suffices in this room. There may be a way."])
        full = words(unreached(job, 1, CUT_SHORT, number=13, detail=2))
        self.assertEqual(full[1], "The queue was full after 2 cells. A queue of 45 places is never full.")
        cheap = job_of("room 3 1 3\nsource 0 0 0\nsink 1 0 1\ncosts 9 25 15\n")
        self.assertIsNone(ample_limit(cheap))
        self.assertIn("it isn't known which node limit suffices", words(unreached(cheap, 1, CUT_SHORT))[1])
        self.assertEqual(words(unreached(cheap, 1, CUT_SHORT, number=13, detail=1))[1], "The queue was full after 1 cell.")

    def test_an_approach(self):
        own, other = "room 5 1 1\nblock lever 4 0 0\nsource 0 0 0\nsink 4 0 0\n", "room 5 1 1\nblock lever 3 0 0\nsource 0 0 0\nsink 4 0 0 west\n"
        self.assertEqual(details(unreached(job_of(own), 1, APPROACH_TAKEN)), ["The cell where its wire is to lie, (4, 0, 0), holds a Lever."])
        self.assertEqual(details(unreached(job_of(other), 1, APPROACH_TAKEN)), ["The cell from which it is approached, (3, 0, 0), holds a Lever."])
        self.assertEqual(headline(unreached(job_of(other), 1, APPROACH_TAKEN)), "Sink 1 at (4, 0, 0) can't be reached, at any costs.")
        two = job_of(own + "sink 2 0 0\n")
        self.assertEqual([headline(unreached(two, 1, verdict)) for verdict in (APPROACH_TAKEN, SHUT_IN)],
                         ["Sink 1 at (4, 0, 0) can't be reached, at any costs.", "Sink 1 at (4, 0, 0) can't be reached from the net so far, at any costs."])


class Tries(unittest.TestCase):
    def test_changes_are_lawful_and_differ(self):
        """Each change is of one sort and in words of its own, and makes a job that no number up to 9 refuses."""
        seen = set()
        for one in STORED:
            found = list(tries.changes(one))
            self.assertEqual(len({(change.words, change.strict) for change in found}), len(found))
            for change in found:
                self.assertIsNone(next(late_faults(change.job), None))
                self.assertNotEqual((change.job, change.strict), (one.job, one.strict))
                self.assertEqual(len(change.job.sinks), len(one.job.sinks))
                seen.add(change.words.split()[0])
        self.assertLessEqual({"take", "move", "free", "let", "make", "route", "raise"}, seen)

    def test_what_helps_is_told_once_a_sort(self):
        one = next(one for one in STORED if one.verdict == CONFLICTS and not one.strict)
        asked = []

        def ask(job, strict, place):
            asked.append((job, strict))
            return True

        tried = tries.tries(one, ask)
        self.assertEqual(len(tried.found), tries.MOST_TOLD)
        self.assertEqual(len({change.sort for change in tried.found}), len(tried.found))
        self.assertEqual(tries.lines(one, tried)[0], "Try this: route with --strict; then sink %d is reached." % one.place)

    def test_where_nothing_helps(self):
        for one in STORED:
            tried = tries.tries(one, lambda job, strict, place: False)
            said = tries.lines(one, tried)
            self.assertFalse(tried.found or any("then sink" in line for line in said))
            self.assertLessEqual(tried.tried, tries.MOST_TRIED)
            if one.verdict == SHUT_IN:
                self.assertEqual("more than one is in the way" in said[0], tried.is_all)

    def test_the_nearest_to_the_net_comes_first(self):
        job = job_of("room 7 1 3\nblock solid 2 0 0 to 2 0 2\nblock solid 5 0 0 to 5 0 2\nsource 0 0 1\nsink 4 0 1\n")
        reached = [job.number((x, 0, z)) for x in (3, 4) for z in range(3)]
        walls = [(job.number((x, 0, z)), (by, 0, 0), 2) for x, by in ((3, -1), (4, 1)) for z in range(3)]
        found = [change.at for change in tries.changes(unreached(job, 1, SHUT_IN, reached, walls))]
        self.assertEqual(found[:4], [(2, 0, 1), (2, 0, 0), (2, 0, 2), (5, 0, 1)])

    def test_a_sink_reached_before_another(self):
        job = job_of("room 1 1 9\nsource 0 0 1\nsink 0 0 8\nsink 0 0 4\n")
        self.assertEqual([tries.is_reached(job, 2, stopped) for stopped in (None, 1, 2)], [True, True, False])
        self.assertFalse(tries.is_reached(job, 1, 2))

    def test_own_headroom_is_no_change(self):
        for one in (one for one in STORED if one.verdict == SHUT_IN):
            own = {at for at, bits in one.causes.items() if bits & OWN}
            self.assertFalse(own & {change.at for change in tries.changes(one) if not change.words.startswith("take")})


class Pages(unittest.TestCase):
    def check(self, one):
        """The page is well-formed; every cell reached has its dot, every cell that is kept free and in the way its letter."""
        tree = ElementTree.fromstring(page("sink", one, ["Try."]))
        said = "".join(tree.itertext())
        for line in (*words(one), "Try."):
            self.assertIn(line, said)
        drawing = SinkDrawing(one)
        drawn = [level for level in range(one.job.sides[1]) if drawing.plain_floor(level) is None]
        figures = {figure.get("id"): figure for figure in tree.iter(XHTML + "figure")}
        self.assertEqual([name for name in figures if name != "room"], ["floor-%d" % level for level in drawn])
        for level in drawn:
            figure = figures["floor-%d" % level]
            dots = "".join(path.get("d") for path in figure.iter(SVG + "path") if path.get("class") == "dots")
            self.assertEqual(dots.count("M"), sum(at[1] == level for at in one.told.reached))
            letters = [text.text for text in figure.iter(SVG + "text") if text.get("class") == "kept-letter"]
            kept = {at if reason == KEPT_FREE else step(at, (0, -1, 0)) for at, reason in one.told.round.items()
                    if reason in (KEPT_FREE, SUPPORT_KEPT_FREE)}
            due = [sinks.first_cause(one.causes[at]).letter for at in kept if at[1] == level]
            self.assertEqual(sorted(letters), sorted(due))
        return letters_of(tree)

    def test_stored_reasons(self):
        letters = set()
        for one in STORED:
            if one.job.cells() <= 700:
                letters |= self.check(one)
        self.assertEqual(letters, {cause.letter for cause in CAUSES.values()})

    def test_the_legend_explains_what_is_drawn(self):
        for one in STORED:
            if one.verdict == SHUT_IN and one.job.cells() <= 200:
                tree = ElementTree.fromstring(page("sink", one, []))
                said = "".join(tree.itertext())
                for cause in SinkDrawing(one).causes_drawn():
                    self.assertIn("kept free: " + cause.words, said)

    def test_the_net_so_far(self):
        job = job_of("room 5 2 3\nsource 0 0 0\nsink 4 0 2\nsink 2 0 0\n")
        tree = ElementTree.fromstring(page("net", unreached(job, 1, CONFLICTS, net=[[], [(0, 0, 0), (1, 0, 0), (2, 0, 0)]]), []))
        drawn = {path.get("data-sink") for path in tree.iter(SVG + "path") if path.get("class") == "branch"}
        self.assertEqual(drawn - {None}, {"2"})
        self.assertFalse([group for group in tree.iter(SVG + "text") if group.get("class") == "signal"])
        self.assertIn("Sink 2 was reached before it.", "".join(tree.itertext()))
        other = unreached(job, 1, CONFLICTS)._replace(is_exact=False)
        self.assertIn("it may have lain otherwise", page("net", other, []))

    def test_the_approach_is_framed(self):
        job = job_of("room 5 1 1\nblock lever 3 0 0\nsource 0 0 0\nsink 4 0 0 west\n")
        drawing = SinkDrawing(unreached(job, 1, APPROACH_TAKEN))
        self.assertEqual(drawing.marked, [(3, 0, 0)])
        self.assertIn("approach of sink 1; the refusal speaks of this cell", page("a", unreached(job, 1, APPROACH_TAKEN), []))


def letters_of(tree):
    return {text.text for text in tree.iter(SVG + "text") if text.get("class") == "kept-letter"}
