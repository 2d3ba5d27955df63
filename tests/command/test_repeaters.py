"""./dustroute repeaters: the repeaters of wire that is laid, at the job's limits and at others."""
import os
import subprocess
import sys
import tempfile
import unittest
from pathlib import Path

from common import EXAMPLES, HEX_ANSWER, small_examples

COMMAND = str(Path(__file__).resolve().parents[2] / "dustroute")
ROW = "room 10 1 1\nsource wire 0 0 0\nsink wire 9 0 0\n"


def run(*words, given=""):
    done = subprocess.run([sys.executable, COMMAND, *words], input=given.encode(), stdout=subprocess.PIPE, stderr=subprocess.PIPE, check=False)
    return done.returncode, done.stdout.decode(), done.stderr.decode()


class Repeaters(unittest.TestCase):
    def setUp(self):
        self.folder = tempfile.TemporaryDirectory()
        self.addCleanup(self.folder.cleanup)
        self.row = os.path.join(self.folder.name, "row.txt")
        Path(self.row).write_text(ROW, encoding="utf-8")

    def test_a_row_at_some_limits(self):
        for words, due in (((), "repeaters 1"), (("--tail", "15"), "repeaters"), (("--run", "4", "--tail", "15"), "repeaters 5"),
                           (("--run", "4", "--tail", "3"), "repeaters 5 7")):
            status, said, told = run("repeaters", self.row, "-", "-q", *words, given=HEX_ANSWER)
            self.assertEqual((status, said), (0, due + "\n"))
        self.assertIn("repeaters: 2 repeaters: (5, 0, 0), (7, 0, 0)", told)

    def test_what_route_prints_has_them(self):
        for name in small_examples():
            file = os.path.join(EXAMPLES, name + ".txt")
            status, said, _ = run("route", file, "-q")
            if status == 0:
                self.assertEqual(run("repeaters", file, "-", "-q", given=said)[1], said.splitlines()[-1] + "\n", name)

    def test_refused(self):
        for given, status, words in (("branch 0 2\n", 3, "repeaters: branch 1 jumps from cell 0 to cell 2"),
                                     ("branch 0 10\n", 3, "repeaters: branch 1 has cell 10; the room's last cell is 9"),
                                     ("branch 0\n" * 17, 3, "repeaters: over 16 branches or sinks"), ("branch x\n", 2, "'x' is no cell")):
            ended, said, told = run("repeaters", self.row, "-", "-q", given=given)
            self.assertEqual((ended, said), (status, ""))
            self.assertIn(words, told)
        self.assertEqual(run("repeaters", self.row, "-", "--run", "16")[0], 2)


if __name__ == "__main__":
    unittest.main()
