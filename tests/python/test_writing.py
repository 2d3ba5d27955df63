"""Sheets written from Python: every example by both writers, refusals, the tools' own way, and the stored parts of the oracle, byte for
byte."""
import ctypes
import dataclasses
import os
import random
import subprocess
import sys
import tempfile
import unittest
from array import array
from unittest import mock

from common import ROOT, TOOLS, content, examples, random_job, stored
from dustroute import Memory, Refusal, calls, library, route, sheet_made, sheet_of, write_sheet
from dustsheet import text as texts
from dustsheet.job import MAX_BYTES, Block, End, Job, Refused, Sink, first_fault, from_bytes, size, to_bytes

ROW = Job((3, 1, 1), 30000, (10, 25, 15), End((0, 0, 0), 0, 0), [Sink((2, 0, 0), 0, 0)])


def changed(**parts):
    return dataclasses.replace(ROW, **parts)


class BothWriters(unittest.TestCase):
    def test_every_example(self):
        for name in examples():
            with self.subTest(name=name):
                job = texts.job_of(texts.read(content(name + ".txt").decode(), name))
                self.assertEqual(write_sheet(job), to_bytes(job))
                self.assertEqual(write_sheet(job), content(name + ".sheet"))

    def test_every_stored_sheet_gives_its_own_bytes(self):
        accepted = 0
        for case in [*stored(), *stored("tests/bindings/limits.bin")]:
            try:
                job = from_bytes(case.sheet)
            except Refused:
                continue
            # judged by itself, not in the ranges of the sheet that it came in
            fault = first_fault(dataclasses.replace(job, read_as=None))
            if fault is None:
                # a sheet of its job's version gives its own bytes back, any other the same job
                self.assertEqual(write_sheet(job) == case.sheet, case.sheet[0] == job.version().number)
                self.assertEqual(from_bytes(write_sheet(job)), job)
                accepted += 1
            else:
                with self.assertRaises(Refusal) as caught:
                    write_sheet(job)
                self.assertEqual((caught.exception.number, caught.exception.detail), (fault.number, 0))
        self.assertGreater(accepted, 1100)

    def test_random_jobs(self):
        draw = random.Random(1)
        for _ in range(300):
            job = random_job(draw)
            self.assertEqual(write_sheet(job), to_bytes(job))

    def test_the_lowest_version_that_holds_the_job(self):
        for parts, number in (({}, 1), ({"run": 11}, 2), ({"run": 11, "sinks": []}, 2), ({"sinks": []}, 1),
                              ({"sinks": [ROW.sinks[0], Sink((1, 0, 0), 1, 2, 9)]}, 2),
                              ({"sides": (64, 4, 64)}, 1), ({"sides": (65, 1, 1)}, 3), ({"sides": (64, 5, 64), "run": 11}, 3),
                              ({"limit": 200_000}, 1), ({"limit": 200_001}, 3), ({"costs": (100_001, 25, 15)}, 3)):
            job = changed(**parts)
            self.assertEqual((write_sheet(job)[0], write_sheet(job)), (number, to_bytes(job)))
            self.assertEqual(from_bytes(write_sheet(job)), job)

    def test_order_and_repeats(self):
        job = changed(reserved=[(2, 0, 0), (1, 0, 0), (2, 0, 0)], blocks=[Block(65535, (1, 0, 0), 5, 2), Block(256, (1, 0, 0), 12, 6)])
        self.assertEqual(from_bytes(write_sheet(job)), job)


class Refusals(unittest.TestCase):
    def refused(self, number, words, job):
        with self.assertRaises(Refusal) as caught:
            write_sheet(job)
        self.assertEqual((caught.exception.number, caught.exception.detail), (number, 0))
        self.assertIn(words, caught.exception.words)

    def test_each_number(self):
        self.refused(1, "17 sinks", changed(sinks=ROW.sinks * 17))
        self.refused(1, "257 sinks", changed(sinks=ROW.sinks * 257))
        self.refused(1, "at most 60000", changed(reserved=[(0, 0, 0)] * 20_000))
        self.refused(1, "at most 60000", changed(terminals=[(0, 0, 0)] * 65_536))
        self.refused(2, "each side is 1 to 300", changed(sides=(3, 301, 1)))
        self.refused(2, "each side is 1 to 300", changed(sides=(256 + 300, 1, 1)))
        self.refused(3, "a node limit of 800001", changed(limit=800_001))
        self.refused(3, "a cost of 1000001", changed(costs=(10, 1_000_001, 15)))
        self.refused(3, "the run: a run limit of 0; it is 1 to 15", changed(run=0))
        self.refused(3, "a run limit of 268", changed(run=256 + 12))
        self.refused(3, "sink 1: a tail limit of 16; it is 1 to 15", changed(sinks=[Sink((2, 0, 0), 0, 0, 16)]))
        self.refused(3, "sink 1: a tail limit of 264", changed(sinks=[Sink((2, 0, 0), 1, 4, 256 + 8), Sink((3, 0, 0), 0, 0)]))
        self.refused(4, "position (3, 0, 0) is outside the room", changed(conductors=[(3, 0, 0)]))
        self.refused(4, "position (300, 0, 0) is outside the room", changed(blocks=[Block(0, (300, 0, 0), 1, 0)]))
        self.refused(5, "unknown kind, code 300", changed(blocks=[Block(0, (1, 0, 0), 300, 0)]))
        self.refused(5, "a block of air", changed(blocks=[Block(0, (1, 0, 0), 0, 0)]))
        self.refused(5, "unknown port kind, code 256", changed(source=End((0, 0, 0), 256, 0)))

    def test_the_router_says_the_same(self):
        job = changed(clearances=[(1, 1, 0)], sinks=[Sink((2, 0, 0), 2, 0)])
        with self.assertRaises(Refusal) as routed:
            route(to_bytes(job))
        self.assertIn("clearance 1: position (1, 1, 0)", routed.exception.words)
        self.refused(routed.exception.number, routed.exception.words, job)

    def test_numbers_that_do_not_fit(self):
        for job in (changed(blocks=[Block(65_536, (1, 0, 0), 1, 0)]), changed(reserved=[(-1, 0, 0)]), changed(limit=2 ** 32),
                    changed(run=-1), changed(sinks=[Sink((2, 0, 0), 0, 0, 65_536)])):
            with self.assertRaises(OverflowError):
                write_sheet(job)

    def test_the_longest(self):
        job = changed(reserved=[(1, 0, 0)] * ((MAX_BYTES - size(ROW)) // 3))
        self.assertEqual(len(write_sheet(job)), MAX_BYTES)
        self.assertEqual(write_sheet(job, Memory()), to_bytes(job))


class Tools(unittest.TestCase):
    """The tools write through the proved writer where the library is built, and say nothing of it."""

    def test_made_by_the_proved_writer(self):
        with mock.patch.object(calls.jobs, "to_bytes", side_effect=AssertionError("written by hand")):
            self.assertEqual(sheet_made(ROW), write_sheet(ROW))
            self.assertEqual(sheet_of(content("lane.txt")), content("lane.sheet"))

    def test_made_by_hand_without_the_library(self):
        with mock.patch.object(calls, "library_if_built", return_value=None), \
                mock.patch.object(calls, "library", side_effect=AssertionError("the library is asked for")):
            for name in examples():
                self.assertEqual(sheet_of(content(name + ".txt")), content(name + ".sheet"))

    def test_what_the_writer_refuses_is_made(self):
        job = changed(blocks=[Block(0, (1, 0, 0), 99, 0)])
        self.assertEqual(sheet_made(job), to_bytes(job))
        with self.assertRaises(Refusal) as caught:
            route(job)
        self.assertEqual(caught.exception.number, 5)

    def test_the_tool_gives_the_same_either_way(self):
        with tempfile.TemporaryDirectory() as empty:
            for archive in (os.path.dirname(os.path.realpath(library().path)), empty):
                for name in examples():
                    text = os.path.join(ROOT, "examples", name + ".txt")
                    done = subprocess.run([sys.executable, os.path.join(TOOLS, "sheet"), "make", text], stdout=subprocess.PIPE, check=True,
                                          env={**os.environ, "DUSTROUTE_ARCHIVE": archive})
                    self.assertEqual(done.stdout, content(name + ".sheet"))


LISTS = ("blocks", "conductors", "clearances", "terminals", "reserved", "source", "sinks")


def stored_parts():
    """The oracle's stored parts with their answers; their format is in oracle/STORED.md."""
    with open(os.path.join(ROOT, "tests", "bindings", "writes.bin"), "rb") as file:
        data = file.read()
    assert data[:4] == b"DRP1"
    place = 4

    def taken(count):
        nonlocal place
        place += count
        return data[place - count:place]

    def value(count=4):
        return int.from_bytes(taken(count), "big")

    for _ in range(value()):
        numbers = dict(zip(("wide", "high", "deep", "limit", "horizontal", "stair", "support", "run"), [value() for _ in range(8)]))
        lists = {name: array("H", [value(2) for _ in range(value())]) for name in LISTS}
        lent, number = value(), value(1)
        yield numbers, lists, lent, number, taken(value()) if number == 0 else b""
    assert place == len(data)


class Stored(unittest.TestCase):
    def test_each_byte(self):
        write = library()["dustroute_write_sheet"]
        seen = 0
        for numbers, lists, lent, number, due in stored_parts():
            sheet, values = (ctypes.c_uint8 * lent)(*[0xA5] * lent), (ctypes.c_uint64 * 3)(7, 7, 7)
            self.assertEqual(write(**numbers, **lists, sheet=sheet, values=values), number)
            if number:
                self.assertTrue(bytes(sheet) == b"\xa5" * lent and values[:] == [7, 7, 7])
            else:
                self.assertEqual((bytes(sheet), values[:]), (due + bytes(lent - len(due)), [0, len(due), 0]))
            seen += 1
        self.assertGreater(seen, 400)


if __name__ == "__main__":
    unittest.main()
