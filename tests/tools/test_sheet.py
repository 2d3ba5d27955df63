"""The maker: round trips, its judgement beside the stored answers, its messages."""
import os
import random
import signal
import subprocess
import sys
import tempfile
import time
import unittest

from common import HEX_SHEET, TAIL_SHEET, TOOLS, random_job, remade, run, stored, wild_job
from dustsheet import text as texts
from dustsheet.job import Refused, first_fault, from_bytes, size, to_bytes


def verdict(sheet):
    """The number 1 to 5 by which the tool refuses a sheet, 0 if it takes it."""
    try:
        fault = first_fault(from_bytes(sheet))
    except Refused:
        return 1
    return fault.number if fault else 0


class StoredSheets(unittest.TestCase):
    def test_verdicts_and_round_trips(self):
        seen = set()
        for place, case in enumerate(stored()):
            due = case.number if case.number <= 5 else 0
            self.assertEqual(verdict(case.sheet), due, "stored sheet %d" % place)
            if not due:
                self.assertEqual(remade(from_bytes(case.sheet)), case.sheet, "stored sheet %d" % place)
            seen.add(due)
        self.assertEqual(seen, {0, 1, 2, 3, 4, 5})

    def test_sheets_of_both_versions(self):
        """One of its job's version is made again, byte for byte; any other gives the same job."""
        given = {1: 0, 2: 0, "the same job": 0}
        for place, case in enumerate(stored("tests/bindings/limits.bin")):
            due = case.number if case.number <= 5 else 0
            self.assertEqual(verdict(case.sheet), due, "stored sheet %d" % place)
            if not due:
                job = from_bytes(case.sheet)
                own = case.sheet[0] == job.version().number
                self.assertEqual(remade(job) == case.sheet, own, "stored sheet %d" % place)
                self.assertEqual(from_bytes(remade(job)), job, "stored sheet %d" % place)
                given[case.sheet[0] if own else "the same job"] += 1
        self.assertTrue(min(given.values()) > 20, given)


class RoundTrips(unittest.TestCase):
    def test_random_jobs(self):
        rng = random.Random(1)
        for _ in range(500):
            job = random_job(rng)
            self.assertIsNone(first_fault(job))
            self.assertEqual(from_bytes(to_bytes(job)), job)
            self.assertEqual(remade(job), to_bytes(job))
            self.assertEqual(size(job), len(to_bytes(job)))

    def test_jobs_that_only_any_makes(self):
        rng = random.Random(2)
        for _ in range(500):
            job = wild_job(rng)
            self.assertEqual(from_bytes(to_bytes(job)), job)
            self.assertEqual(remade(job), to_bytes(job))

    def test_shown_text_is_canonical(self):
        rng = random.Random(3)
        for _ in range(200):
            shown = texts.write(random_job(rng))
            self.assertEqual(texts.write(texts.job_of(texts.read(shown, "text"))), shown)

    def test_damaged_bytes_give_a_number_and_no_crash(self):
        rng = random.Random(4)
        for _ in range(2_000):
            sheet = bytearray(to_bytes(random_job(rng)))
            for _ in range(rng.randrange(1, 4)):
                sheet[rng.randrange(len(sheet))] = rng.randrange(256)
            cut = bytes(sheet[:rng.randrange(len(sheet) + 1)]) if rng.random() < 0.3 else bytes(sheet)
            if verdict(cut) == 0:
                self.assertEqual(remade(from_bytes(cut)), cut)


class Grammar(unittest.TestCase):
    def same(self, one, other):
        drafts = [texts.read(text, "text") for text in (one, other)]
        self.assertEqual([draft.problems for draft in drafts], [[], []])
        self.assertEqual(texts.job_of(drafts[0]), texts.job_of(drafts[1]))

    def test_forgiving_forms(self):
        self.same("room 9 9 9\nsource 1 2 3\nblock redstone-wire 1 1 1 north node 2",
                  "\ufeffBLOCK RedstoneWire at (1, 1, 1) facing North NODE 2 # a comment\r\n\r\n  source Wire at 1,2,3\r\nRoom 9 9 9")
        self.same("room 9 9 9\nsource 1 2 3\nblock pressure-plate 1 1 1",
                  "room 9 9 9\nsource wire 1 2 3 none\nblock pressure_plate 1 1 1 none node 0")

    def test_defaults(self):
        self.same("room 2 2 2\nsource 0 0 0", "room 2 2 2\ncosts 10 25 15\nlimit 30000\nsource wire 0 0 0")

    def test_limits(self):
        self.same("room 9 2 9\nsource 0 0 0\nsink 1 1 1\nrun 12", "room 9 2 9\nsource 0 0 0\nsink 1 1 1 tail 8")
        self.same("room 9 2 9\nsource 0 0 0\nrun 4\nsink 1 1 1 north tail 3", "run 4\nroom 9 2 9\nsource 0 0 0\nsink wire at (1, 1, 1) facing north Tail 3")
        shown = texts.write(texts.job_of(texts.read("room 9 2 9\nsource 0 0 0\nrun 4\nsink 1 1 1\nsink 2 1 1 west tail 15", "text")))
        self.assertIn("\nrun 4  # so many steps need no repeater\n", shown)
        self.assertTrue(shown.endswith("sink wire 1 1 1\nsink wire 2 1 1 west tail 15\n"), shown)

    def test_the_row_of_the_rules(self):
        row = "room 10 1 1\nsource 0 0 0\nsink 9 0 0 tail 3\n"
        self.assertEqual(run("sheet", "make", "--hex", "-", given=row.encode())[1].decode(), TAIL_SHEET)
        status, shown, _ = run("sheet", "show", "--hex", "-", given=TAIL_SHEET.encode())
        self.assertEqual(status, 0)
        self.assertIn(b"sink wire 9 0 0 tail 3\n", shown)
        usual = TAIL_SHEET.replace("03\n", "08\n").encode()
        shown = run("sheet", "show", "--hex", "-", given=usual)[1]
        self.assertEqual(run("sheet", "make", "--hex", "-", given=shown)[1].decode(), HEX_SHEET)

    def test_boxes_go_in_number_order_from_any_corner(self):
        self.same("room 9 9 9\nsource 0 0 0\nconductor 2 1 4 to 1 1 3",
                  "room 9 9 9\nsource 0 0 0\nconductor 1 1 3\nconductor 1 1 4\nconductor 2 1 3\nconductor 2 1 4")

    def test_clear_takes_out_what_stands_above_it(self):
        self.same("room 9 9 9\nsource 0 0 0\nblock solid 1 1 1 to 1 1 3\nclear 1 1 2\nblock lever 1 1 2",
                  "room 9 9 9\nsource 0 0 0\nblock solid 1 1 1\nblock solid 1 1 3\nblock lever 1 1 2")


GOOD = "room 9 2 9\nsource 0 0 0\n"
# a text, the line that is wrong, and what the message says
BAD_TEXTS = [
    ("", 1, "no 'room' line; expected somewhere: room X Y Z"),
    ("room 9 2 9\n", 1, "no 'source' line"),
    ("room 9 2\nsource 0 0 0\n", 1, "side Z is missing; expected: room X Y Z"),
    (GOOD + "room 9 2 9\n", 3, "a second 'room' line; the first is line 1"),
    (GOOD + "source 1 1 1\n", 3, "a second 'source' line; the first is line 2"),
    (GOOD + "blok solid 1 1 1\n", 3, "unknown word 'blok'; did you mean 'block'?"),
    (GOOD + "xyz\n", 3, "a line begins with one of: room, costs,"),
    (GOOD + "block soild 1 1 1\n", 3, "unknown kind 'soild'; did you mean 'solid'?"),
    (GOOD + "block solid 1 1\n", 3, "z is missing; expected: block KIND X Y Z"),
    (GOOD + "block solid 1 one 1\n", 3, "'one' is no number; y was expected"),
    (GOOD + "block solid 1 -1 1\n", 3, "'-1' is no number; y was expected"),
    (GOOD + "block solid 1 1 1 nrth\n", 3, "unknown facing 'nrth'; did you mean 'north'?"),
    (GOOD + "block solid 1 1 1 facing\n", 3, "the facing is missing"),
    (GOOD + "block solid 1 1 1 node\n", 3, "the node is missing"),
    (GOOD + "block solid 1 1 1 node 65536\n", 3, "a sheet has room for 0 to 65535 there"),
    (GOOD + "block solid 1 1 1 north node 1 2\n", 3, "'2' is too much"),
    (GOOD + "block solid 0 0 0 to 255 255 0\nblock solid 0 0 0\n", 3, "has more than 65535 cells"),
    (GOOD + "clear 1 1 1\n", 3, "nothing to clear"),
    (GOOD + "sink block-powr 1 1 1\n", 3, "unknown port 'block-powr'; did you mean 'block-power'?"),
    (GOOD + "costs 10 25\n", 3, "the new support is missing"),
    (GOOD + "limit 4294967296\n", 3, "a sheet has room for 0 to 4294967295 there"),
    (GOOD + "block solid 300 1 1\n", 3, "position (300, 1, 1) is outside the room; the last cell is (8, 1, 8) (the router refuses this with number 4)"),
    (GOOD + "block solid 65536 1 1\n", 3, "x is 65536; a sheet has room for 0 to 65535 there"),
    ("room 13 127 1\ncosts 1000000 0 1000000\nsource 0 0 0\n", 2, "1651 cells times 2000000, the dearer step and a new support, are 3302000000; at most "
     "3300000000 are allowed (the router refuses this with number 3)"),
    ("room 301 1 1\nsource 0 0 0\n", 1, "a room of 301x1x1; each side is 1 to 300 (the router refuses this with number 2)"),
    (GOOD + "sink 1 1 1\n" * 256, 258, "more than 255 sinks"),
    (GOOD + "run\n", 3, "the run limit is missing; expected: run STEPS"),
    (GOOD + "run 256\n", 3, "the run limit is 256; a sheet has room for 0 to 255 there"),
    (GOOD + "run 4\nrun 4\n", 4, "a second 'run' line; the first is line 3"),
    (GOOD + "sink 1 1 1 tail\n", 3, "the tail limit is missing; expected: sink [PORT] X Y Z [FACING] [tail STEPS]"),
    (GOOD + "sink 1 1 1 tail 3 north\n", 3, "'north' is too much; expected: sink [PORT] X Y Z [FACING] [tail STEPS]"),
    ("room 9 2 9\nsource 0 0 0 tail 3\n", 2, "'tail 3' is too much; expected: source [PORT] X Y Z [FACING]"),
    # what the router would refuse
    (GOOD + "run 0\n", 3, "a run limit of 0; it is 1 to 15 (the router refuses this with number 3)"),
    (GOOD + "sink 1 1 1\nsink block-power 1 1 1 tail 16\n", 4, "a tail limit of 16; it is 1 to 15 (the router refuses this with number 3)"),
    (GOOD + "sink 1 2 1 tail 0\n", 3, "position (1, 2, 1) is outside the room"),
    (GOOD + "sink 1 1 1\n" * 17, 19, "17 sinks; a net has at most 16 (the router refuses this with number 1)"),
    ("room 64 4 64\nsource 0 0 0\nblock solid 0 0 0 to 63 3 33\nblock solid 0 0 0\n", 4,
     "at most 60000 are allowed (the router refuses this with number 1)"),
    ("room 9 0 9\nsource 0 0 0\n", 1, "a room of 9x0x9; each side is 1 to 300 (the router refuses this with number 2)"),
    ("room 64 64 64\nsource 0 0 0\n", 1, "a room of 262144 cells; at most 65536 are allowed (the router refuses this with number 2)"),
    (GOOD + "limit 800001\n", 3, "a node limit of 800001; at most 800000 is allowed (the router refuses this with number 3)"),
    (GOOD + "costs 10 1000001 15\n", 3, "a cost of 1000001; at most 1000000 is allowed (the router refuses this with number 3)"),
    (GOOD + "sink 1 2 1\n", 3, "position (1, 2, 1) is outside the room; the last cell is (8, 1, 8) (the router refuses this with number 4)"),
    (GOOD + "conductor 1 1 1 to 1 1 9\n", 3, "position (1, 1, 9) is outside the room"),
    (GOOD + "block air 1 1 1\n", 3, "a block of air; leave the cell out, it is air then (the router refuses this with number 5)"),
    (GOOD + "block code-13 1 1 1\n", 3, "unknown kind, code 13; kinds are 1 to 12 (the router refuses this with number 5)"),
    (GOOD + "sink code-2 1 1 1\n", 3, "unknown port kind, code 2; it is 0 (wire) or 1 (block-power) (the router refuses this with number 5)"),
    (GOOD + "sink 1 1 1 code-7\n", 3, "unknown facing, code 7; facings are 0 to 6 (the router refuses this with number 5)"),
    (GOOD + "block solid 1 1 1\nblock lever 1 1 1\n", 4,
     "a second block in cell (1, 1, 1), number 28; a cell holds one block; blocks are put there by the lines 3 and 4 "
     "(the router refuses this with number 7)"),
    (GOOD + "sink block-power 1 1 1 up\n", 3,
     "sink 1: block-power needs a facing: north, east, south or west (the router refuses this with number 8)"),
    ("room 9 2 9\nsource block-power 0 0 0 west\n", 2,
     "its terminal (-1, 0, 0), the cell it faces, is outside the room (the router refuses this with number 9)"),
    (GOOD + "sink block-power 1 1 1 west\n", 3, "sink 1: its approach (-1, 1, 1)"),
]


class Messages(unittest.TestCase):
    def test_bad_texts(self):
        for text, line, words in BAD_TEXTS:
            with self.subTest(text=text[:80]):
                draft = texts.read(text, "f")
                problems = draft.problems or texts.problems_of(draft, texts.job_of(draft))
                self.assertIn(line, [problem.line for problem in problems])
                self.assertIn(words, [problem.words for problem in problems if problem.line == line][0])

    def test_make_refuses_and_writes_nothing(self):
        with tempfile.TemporaryDirectory() as folder:
            out = os.path.join(folder, "out.sheet")
            for text in ("room 9\n", GOOD + "sink 9 9 9\n", GOOD + "block solid 1 1 1\n" * 2):
                status, written, message = run("sheet", "make", "-", "-o", out, given=text.encode())
                self.assertEqual((status, written, os.path.exists(out)), (2, b"", False))
                self.assertRegex(message, r"^standard input:\d+: ")

    def test_any_makes_what_the_router_refuses(self):
        text = GOOD + "block solid 1 1 1\n" * 2 + "sink 1 1 1\n"
        status, sheet, message = run("sheet", "make", "--any", "-", given=text.encode())
        self.assertEqual((status, verdict(sheet)), (0, 0))
        self.assertIn("number 7", message)
        status, sheet, message = run("sheet", "make", "--any", "-", given=(GOOD + "block code-99 1 1 1\n").encode())
        self.assertEqual((status, verdict(sheet)), (0, 5))
        status, shown, message = run("sheet", "show", "-", given=sheet)
        self.assertEqual((status, shown), (2, b""))
        self.assertIn("block 1: unknown kind, code 99; kinds are 1 to 12 (number 5)", message)
        status, shown, _ = run("sheet", "show", "--any", "-", given=sheet)
        self.assertEqual(status, 0)
        self.assertIn(b"block code-99 1 1 1\n", shown)

    def test_show_tells_what_is_damaged(self):
        sheet = bytes.fromhex(HEX_SHEET)
        for damaged, words in ((b"", "ends at byte 0"), (b"\4" + sheet[1:], "version byte is 4; a sheet begins with 1, 2 or 3"),
                               (b"\2" + sheet[1:], "in the middle of the sinks"),
                               (sheet + b"\0", "says that 40 bytes follow, but 41"),
                               (sheet[:4] + b"\x29" + sheet[5:] + b"\0", "left over behind the last sink: 1"),
                               (sheet[:4] + b"\x27" + sheet[5:-1], "in the middle of the sinks")):
            status, shown, message = run("sheet", "show", "-", given=damaged)
            self.assertEqual((status, shown), (2, b""))
            self.assertIn(words, message)
            self.assertIn("(number 1)", message)

    def test_hex_both_ways(self):
        status, shown, _ = run("sheet", "show", "--hex", "-", given=HEX_SHEET.encode())
        self.assertEqual(status, 0)
        self.assertEqual(run("sheet", "make", "--hex", "-", given=shown)[1].decode(), HEX_SHEET)
        self.assertEqual(run("sheet", "make", "-", given=shown)[1], bytes.fromhex(HEX_SHEET))
        status, _, message = run("sheet", "show", "--hex", "-", given=b"0Z")
        self.assertEqual(status, 2)
        self.assertIn("no hex digits", message)

    def test_files_that_are_no_text_or_not_there(self):
        status, _, message = run("sheet", "make", "-", given=b"room 1 1 1\n\xff\n")
        self.assertEqual((status, message), (2, "standard input:2: this is no text (UTF-8 was expected)\n"))
        status, _, message = run("sheet", "make", "no-such-file")
        self.assertEqual((status, message), (2, "sheet: no-such-file: No such file or directory\n"))

    def test_rooms_above_the_programs_size_are_made_with_a_warning(self):
        status, sheet, message = run("sheet", "make", "-", given=b"room 64 2 64\nsource 0 0 0\n")
        self.assertEqual((status, verdict(sheet)), (0, 0))
        self.assertIn("program route refuses more than 4096", message)


class Hurts(unittest.TestCase):
    """What hurt people who tried it."""

    def test_long_words_are_quoted_short(self):
        began = time.monotonic()
        for given in (bytes(30_000_000), b"x" * 30_000_000, b"room 3 1 1\nsource 0 0 0\nblock " + b"y" * 3_000_000 + b" 1 0 0",
                      b"room 3 1 1\nsource 0 0 0\nblock solid " + b"7" * 3_000_000 + b" 0 0", b"room 3 1 1\nsource 0 0 0 none " + b"z" * 3_000_000):
            status, made, message = run("sheet", "make", "-", given=given)
            self.assertEqual((status, made), (2, b""))
            self.assertLess(len(message), 1_000)
            self.assertIn(".. (", message)
        self.assertLess(time.monotonic() - began, 60)
        self.assertLess(len(run("view", "--hex", "-", "-", given=b"x" * 1_000_000)[2]), 1_000)

    def test_control_characters_are_not_printed(self):
        message = run("sheet", "make", "-", given=b"\x1b[2Jroom 3 1 1")[2]
        self.assertIn("unknown word '?[2Jroom'", message)

    def test_ctrl_c_leaves_no_traceback(self):
        process = subprocess.Popen([sys.executable, os.path.join(TOOLS, "sheet"), "make", "-"], stdin=subprocess.PIPE, stdout=subprocess.PIPE,
                                   stderr=subprocess.PIPE)
        process.stdin.write(b"room 3 1 1\n")
        process.stdin.flush()
        for _ in range(100):  # until it waits for more: its start is over
            time.sleep(0.1)
            with open("/proc/%d/wchan" % process.pid, encoding="utf-8") as file:
                if "pipe" in file.read():
                    break
        process.send_signal(signal.SIGINT)
        made, message = process.communicate(timeout=20)
        self.assertEqual((process.returncode, made, message), (130, b"", b""))

    def test_names_that_people_type(self):
        for typed, kind in (("lamp", "redstone-lamp"), ("Stone", "solid"), ("wall", "solid"), ("glass", "transparent"), ("torch", "redstone-torch"),
                            ("dust", "redstone-wire"), ("plate", "pressure-plate")):
            made = [texts.job_of(texts.read("room 3 1 1\nsource 0 0 0\nblock %s 1 0 0" % name, "t")).blocks for name in (typed, kind)]
            self.assertEqual(made[0], made[1])
        for line, words in (("lamp 1 0 0", "unknown word 'lamp'; did you mean 'block redstone-lamp'?"), ("wall 0 0 0 to 1 0 0", "did you mean 'block solid'?"),
                            ("block lmap 1 0 0", "unknown kind 'lmap'; did you mean 'redstone-lamp'?"), ("block stoen 1 0 0", "did you mean 'solid'?")):
            self.assertIn(words, texts.read("room 3 1 1\nsource 0 0 0\n" + line, "t").problems[0].words)

    def test_native_archive_tells_how_it_is_used(self):
        for words, status, said in ((["--help"], 0, "usage: native-archive NAME"), ([], 2, "no crate was named"), (["--unknown"], 2, "no option --unknown")):
            done = subprocess.run([os.path.join(TOOLS, "native-archive"), *words], stdout=subprocess.PIPE, stderr=subprocess.STDOUT, text=True, check=False)
            self.assertEqual(done.returncode, status)
            self.assertIn(said, done.stdout)
