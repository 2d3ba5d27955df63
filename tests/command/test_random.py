"""Whatever the library answers to a random job is read, checked and drawn: no answer surprises the tools."""
import random
import unittest
import xml.etree.ElementTree as ElementTree

import dustroute
from common import random_job
from dustsheet import answer as answers
from dustsheet.check import remarks
from dustsheet.job import Block, End, Job, Sink
from dustsheet.page import page
from dustsheet.words import of_job


def routable_job(rng):
    """A job whose ends lie in the room, with some walls and some other nets: often one with a net."""
    sides = (rng.randrange(3, 12), rng.randrange(2, 7), rng.randrange(3, 12))

    def cell():
        return tuple(rng.randrange(side) for side in sides)

    def end():
        return End(cell(), 0, rng.choice([0, 0, 0, 1, 2, 3, 4]))

    job = Job(sides, rng.choice([30_000, 30_000, 40]), (10, 25, 15), End(cell(), 0, 0),
              [Sink(*end(), rng.choice([8, 8, 3, 12])) for _ in range(rng.randrange(1, 5))], run=rng.choice([12, 12, 12, 5]))
    taken = {job.source.at, *(sink.at for sink in job.sinks)}
    for at in {cell() for _ in range(rng.randrange(1, 60))} - taken:
        job.blocks.append(Block(0, at, rng.choice([1, 1, 1, 2, 5, 7, 10, 11]), rng.randrange(7)))
    job.conductors = [cell() for _ in range(rng.choice([0, 0, 2]))]
    job.reserved = [cell() for _ in range(rng.choice([0, 3]))]
    return job


class Random(unittest.TestCase):
    def drawn(self, job):
        try:
            said = str(dustroute.route(job))
        except dustroute.Refusal as refused:
            said = refused.line()
            self.assertEqual(refused.words, of_job(refused.number, refused.detail, job))
        answer = answers.read(said, job)
        for remark in remarks(job, answer):
            self.assertTrue(job.holds(remark.at), remark)
        ElementTree.fromstring(page("random", job, answer))
        return answer

    def test_jobs_that_are_often_routed(self):
        rng = random.Random(7)
        nets = 0
        for _ in range(250):
            nets += self.drawn(routable_job(rng)).refused is None
        self.assertGreater(nets, 40)

    def test_any_jobs(self):
        rng = random.Random(8)
        for _ in range(60):
            self.drawn(random_job(rng))
