"""The cross-check of a tree beside the plain engine: it passes what the router answers, and sees an answer or an engine that is wrong."""
import argparse
import contextlib
import io
import os
import random
import tempfile
import unittest
from pathlib import Path
from unittest import mock

import dustroute
from common import EXAMPLES, content, small_examples, stored
from dustsheet import crosscheck, text as texts
from dustsheet.commands import route as routes
from dustsheet.job import from_bytes
from test_random import routable_job
from test_route import run

FIELD = "room 6 1 6\nsource 0 0 0\nsink 5 0 5\nsink 5 0 0\n"
DIAGONAL = "room 6 1 6\nsource 0 0 0\nsink 5 0 5\n"
CHEAP = "costs 5 5 5\n" + FIELD


def job_of(text):
    draft = texts.read(text, "text")
    assert not draft.problems, draft.problems
    return texts.job_of(draft)


def differences(job, branches, strict=False):
    return crosscheck.check(job, branches, strict).differences


class Passes(unittest.TestCase):
    def test_every_example_by_the_command(self):
        for name in small_examples():
            status, printed, said = run("route", "--check", os.path.join(EXAMPLES, name + ".txt"))
            self.assertEqual(printed, content(name + ".out").decode())
            is_tree = printed.startswith("net")
            self.assertEqual(status, 0 if is_tree else 3, said)
            self.assertIn("each as cheap as the plain engine's" if is_tree else "dustroute: checked: nothing, there is no tree", said)

    def test_stored_trees(self):
        """Trees at any costs, with conflicts on the way: more searches than branches."""
        dearer = again = trees = 0
        for case in stored():
            if case.number == 0:
                checked = crosscheck.check(from_bytes(case.sheet), case.branches)
                self.assertEqual(checked.differences, [])
                trees += 1
                dearer += checked.dearer
                again += checked.searches > checked.branches
        self.assertGreater(min(trees // 50, dearer // 5, again // 5), 0, (trees, dearer, again))

    def test_random_jobs(self):
        rng = random.Random(9)
        trees = 0
        for _ in range(100):
            job = routable_job(rng)
            for strict in (False, True):
                with contextlib.suppress(dustroute.Refusal):
                    self.assertEqual(differences(job, dustroute.route(job, strict=strict).branches, strict), [])
                    trees += 1
        self.assertGreater(trees, 40)

    def test_the_mode_counts(self):
        job = from_bytes(content("gap.sheet"))
        for strict in (False, True):
            branches = dustroute.route(job, strict=strict).branches
            self.assertEqual(differences(job, branches, strict), [])
            self.assertNotEqual(differences(job, branches, not strict), [])

    def test_what_is_said(self):
        job = job_of(FIELD)
        self.assertEqual(crosscheck.check(job, dustroute.route(job).branches).words(),
                         "checked: 2 searches of 2 branches, each as cheap as the plain engine's")
        one = crosscheck.Checked(1, 1, 0, [])
        self.assertEqual(one.words(), "checked: 1 search of 1 branch, each as cheap as the plain engine's")
        self.assertEqual(one._replace(dearer=1).words(), "checked: 1 search of 1 branch, 1 of them dearer than the plain engine's, "
                         "as a search may be at these costs")


class WrongAnswers(unittest.TestCase):
    """An answer whose branch is changed is seen."""

    def setUp(self):
        self.job = job_of(FIELD)
        self.tree = dustroute.route(self.job)
        self.assertEqual(differences(self.job, self.tree.branches), [])

    def mirrored(self):
        """A tree with x and z exchanged: as lawful, as cheap, and another way."""
        job = job_of(DIAGONAL)
        tree = dustroute.route(job)
        branch = tuple(job.number((z, y, x)) for x, y, z in map(job.place, tree.branches[0]))
        self.assertNotEqual(branch, tree.branches[0])
        return tree._replace(branches=(branch,), occupied=tuple(sorted(branch)), repeaters=())

    def test_another_way_of_the_same_cost(self):
        found = differences(job_of(DIAGONAL), self.mirrored().branches)
        self.assertRegex(found[0], r"^sink 1: its branch is another way than the search's, which goes by \(\d, 0, \d\), cell \d+ and not by ")

    def test_each_branch_of_the_examples_cut_short(self):
        for name in small_examples():
            with contextlib.suppress(dustroute.Refusal):
                job = from_bytes(content(name + ".sheet"))
                branches = dustroute.route(job).branches
                for place, branch in enumerate(branches):
                    cut = [*branches[:place], branch[1:], *branches[place + 1:]]
                    self.assertTrue(any(line.startswith("sink %d: " % (place + 1)) for line in differences(job, cut)), name)

    def test_a_branch_that_hangs_nowhere_or_ends_elsewhere(self):
        first, second = self.tree.branches
        self.assertIn("no cell of the tree so far", differences(self.job, [first, second[2:]])[0])
        for wrong in (second[:-1], (), second[::-1]):
            self.assertIn("sink 2: its branch doesn't end at (5, 0, 0), cell 30", differences(self.job, [first, wrong]))

    def test_a_branch_where_no_way_is(self):
        job = job_of("room 5 1 1\nblock solid 2 0 0\nsource 0 0 0\nsink 4 0 0\n")
        self.assertIn("the search from (4, 0, 0), cell 4 to (0, 0, 0), cell 0 says: there is no way", differences(job, [[0, 1, 2, 3, 4]])[0])

    def test_a_branch_where_each_way_has_a_conflict(self):
        # the sink is right above the source
        job = job_of("room 2 2 1\nsource 0 0 0\nsink 0 1 0\n")
        with self.assertRaises(dustroute.Refusal):
            dustroute.route(job)
        self.assertIn("each way from (0, 1, 0), cell 1 to (0, 0, 0), cell 0 has a conflict at (0, 1, 0), cell 1", differences(job, [[0, 2, 1]])[0])

    def test_the_command_ends_with_status_1(self):
        said = io.StringIO()
        with tempfile.TemporaryDirectory() as folder, mock.patch.object(routes, "attempt", return_value=self.mirrored()), \
                contextlib.redirect_stderr(said), contextlib.redirect_stdout(io.StringIO()):
            file = Path(folder, "diagonal.txt")
            file.write_text(DIAGONAL)
            status = [routes.route(argparse.Namespace(file=str(file), view=None, json=False, quiet=True, strict=False, check=check)) for check in (True, False)]
        self.assertEqual(status, [1, 0], said.getvalue())
        self.assertIn("dustroute: checked: 1 search of 1 branch, 1 not as ", said.getvalue())
        self.assertIn("dustroute: sink 1: its branch is another way", said.getvalue())


class WrongEngines(unittest.TestCase):
    """A search and a plain engine that don't agree are seen."""

    def found(self, text, number=0, more=0):
        """What is found where the plain engine gives another number, or asks for so much more."""
        job = job_of(text)
        plain = dustroute.plain

        def wrong(*asked):
            answer = plain(*asked)
            if number:
                raise dustroute.Refusal(number, 0, "refused")
            return answer._replace(cost=answer.cost + more)

        with mock.patch.object(dustroute, "plain", wrong):
            return crosscheck.check(job, dustroute.route(job).branches)

    def test_costs(self):
        self.assertEqual(self.found(FIELD).differences, [])
        for more in (-10, 1):
            self.assertRegex(self.found(FIELD, more=more).differences[0], r"^sink 2: from \(5, 0, 0\), cell 30 to .* the search pays \d+, the plain engine \d+$")

    def test_numbers(self):
        self.assertIn("the search gives number 0, the plain engine 11", self.found(FIELD, number=11).differences[0])

    def test_below_10_and_20_a_search_may_be_dearer(self):
        self.assertEqual(self.found(CHEAP, more=-1)[2:], (2, []))
        self.assertIn("the search pays", self.found(CHEAP, more=100).differences[0])


if __name__ == "__main__":
    unittest.main()
