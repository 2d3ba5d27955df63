"""Work that takes over a second tells that it goes on; what is short, or to be quiet, doesn't."""
import io
import sys
import time
import unittest
from unittest import mock

from dustsheet.progress import Progress


class Terminal(io.StringIO):
    def isatty(self):
        return True


def watched(out, seconds, quiet=False):
    with mock.patch.object(sys, "stderr", out):
        answer = Progress("tool", quiet).watch("working", lambda: time.sleep(seconds) or 7)
    return answer, out.getvalue()


class Watching(unittest.TestCase):
    def test_short_work_says_nothing(self):
        self.assertEqual(watched(io.StringIO(), 0), (7, ""))

    def test_long_work_says_how_long(self):
        self.assertEqual(watched(io.StringIO(), 1.3), (7, "tool: working, 1 s\n"))

    def test_quiet(self):
        self.assertEqual(watched(io.StringIO(), 1.3, quiet=True), (7, ""))

    def test_on_a_terminal_one_line_is_written_over_and_taken_away(self):
        answer, said = watched(Terminal(), 2.3)
        self.assertEqual(answer, 7)
        self.assertEqual(said, "\r\033[Ktool: working, 1 s\r\033[Ktool: working, 2 s\r\033[K")

    def test_what_goes_wrong_is_handed_on(self):
        with self.assertRaises(ZeroDivisionError):
            Progress("tool", True).watch("working", lambda: 1 // 0)
