"""The first use of ./dustroute proves and builds, tells how far it is, and is ended with all its processes. A copy of the repository, with
a tools/native-archive that stands in for the true one (tests/python/test_built.py)."""
import shutil
import signal
import subprocess
import sys
import time
from pathlib import Path

sys.path.append(str(Path(__file__).resolve().parents[1] / "python"))
import test_built  # noqa: E402
from dustroute import built  # noqa: E402
from dustroute.repository import ROOT  # noqa: E402

JOB = "room 3 1 1\nblock lever 0 0 0\nsource 1 0 0\nsink 2 0 0\n"
ANSWER = "net 1 2\nbranch 1 2\nrepeaters\n"


class FirstUse(test_built.Copy):
    def setUp(self):
        super().setUp()
        shutil.copy(ROOT / "dustroute", self.root / "dustroute")
        (self.folder / "job.txt").write_text(JOB)

    def command(self, *words):
        return [sys.executable, str(self.root / "dustroute"), "route", *words, str(self.folder / "job.txt")]

    def run_it(self, *words, **more):
        return subprocess.run(self.command(*words), env={**self.environment, **more}, stdout=subprocess.PIPE, stderr=subprocess.PIPE, text=True, check=False)

    def test_a_line_of_progress(self):
        done = self.run_it()
        count = len(built.crates_of("dustroute"))
        self.assertEqual((done.returncode, done.stdout), (0, ANSWER), done.stderr)
        self.assertIn("dustroute: 13 of %d crates\n" % count, done.stderr)
        again = self.run_it()
        self.assertEqual(again.stdout, ANSWER)
        self.assertNotIn("crates", again.stderr)
        self.assertEqual(self.calls(), ["archive"])

    def test_quiet(self):
        done = self.run_it("-q")
        self.assertEqual(done.stdout, ANSWER)
        self.assertNotIn("crates", done.stderr)

    def test_the_toolchain_is_needed_only_then(self):
        bare = {"PATH": "/usr/bin:/bin"}
        if shutil.which("rt", path=bare["PATH"]):
            self.skipTest("rt stands where every program does")
        done = self.run_it(**bare)
        self.assertEqual((done.returncode, done.stdout), (1, ""))
        self.assertIn("dustroute: no rt on the PATH", done.stderr)
        self.run_it()
        self.assertEqual(self.run_it(**bare).stdout, ANSWER)

    def test_what_is_not_proved_is_not_used(self):
        self.status(1)
        done = self.run_it()
        self.assertEqual((done.returncode, done.stdout), (1, ""))
        self.assertIn("the router is not proved, so it is not used", done.stderr)

    def test_signals_end_it_with_all_its_processes(self):
        self.script(self.root / "tools" / "native-archive", test_built.LONG)
        for how, status in ((signal.SIGINT, 130), (signal.SIGTERM, 143)):
            with self.subTest(how=how):
                self.places["pids"].unlink(missing_ok=True)
                process = subprocess.Popen(self.command(), env=self.environment, stdout=subprocess.PIPE, stderr=subprocess.PIPE)
                self.addCleanup(process.stdout.close)
                self.addCleanup(process.stderr.close)
                self.addCleanup(process.wait)
                self.addCleanup(process.kill)
                pids = []
                for _ in range(200):
                    pids = self.places["pids"].read_text().split() if self.places["pids"].exists() else []
                    if len(pids) == 3:
                        break
                    time.sleep(0.05)
                self.assertEqual(len(pids), 3)
                process.send_signal(how)
                self.assertEqual(process.wait(20), status)
                self.assertEqual(test_built.left_alive(list(map(int, pids))), [])
                self.assertNotIn(b"Traceback", process.stderr.read())

