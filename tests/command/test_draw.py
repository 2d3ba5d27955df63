"""./dustroute draw: what is laid, what is drawn, how it ends."""
import os
import subprocess
import sys
import tempfile
import unittest
from pathlib import Path

from common import EXAMPLES

COMMAND = str(Path(__file__).resolve().parents[2] / "dustroute")
ROW = "room 5 2 1\nsource wire 0 1 0\nsink wire 4 1 0\n"


def run(*words, given="", word="draw"):
    done = subprocess.run([sys.executable, COMMAND, word, *words], input=given.encode(), stdout=subprocess.PIPE, stderr=subprocess.PIPE, check=False)
    return done.returncode, done.stdout.decode(), done.stderr.decode()


class Draw(unittest.TestCase):
    def test_a_row(self):
        """The route comes down to the floor and up again: two supports, and behind two wires a repeater that faces away from the source."""
        status, said, told = run("-", "--run", "2", given=ROW)
        self.assertEqual(status, 0)
        self.assertEqual(said.splitlines(), [
            "block solid 0 0 0", "block redstone-wire 0 1 0", "block redstone-wire 1 0 0", "block repeater 2 0 0 east",
            "block redstone-wire 3 0 0", "block solid 4 0 0", "block redstone-wire 4 1 0"])
        self.assertIn("draw: 2 supports, 4 wires, 1 repeater from (0, 1, 0) to (4, 1, 0)", told)

    def test_what_is_laid_is_a_text(self):
        """The lines can stand in the job's text: the page of that room is the one that is drawn."""
        with tempfile.TemporaryDirectory() as folder:
            page, other = Path(folder, "row.html"), Path(folder, "row.txt")
            job = Path(folder, "job", "row.txt")
            job.parent.mkdir()
            job.write_text(ROW, encoding="utf-8")
            _, said, _ = run(str(job), "-o", str(page))
            other.write_text(ROW + said, encoding="utf-8")
            status, viewed, _ = run(str(other), word="view")
            self.assertEqual((status, viewed), (0, page.read_text(encoding="utf-8")))

    def test_refused(self):
        for words, status, said in ((("--from", "9,9,9"), 2, "draw: (9, 9, 9) is outside the room"), (("--run", "x"), 2, "'x' is no run limit")):
            ended, _, told = run("-", *words, given=ROW)
            self.assertEqual(ended, status)
            self.assertIn(said, told)
        ended, _, told = run("-", given=ROW + "block solid 2 0 0\nblock solid 2 1 0\n")
        self.assertEqual((ended, "there is no way" in told), (3, True))

    def test_examples(self):
        self.assertEqual(run(os.path.join(EXAMPLES, "lane.txt"))[0], 0)
