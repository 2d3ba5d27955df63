"""The library is proved and built once, by the content of its sources, and a build that is ended leaves no process behind.

In a copy of the repository a tools/native-archive that counts its calls stands in for the true one, and an `rt` that does nothing."""
import os
import shutil
import signal
import subprocess
import sys
import tempfile
import time
import unittest
from pathlib import Path

from dustroute import built, library
from dustroute.repository import ROOT

ROUTED = "import sys; sys.dont_write_bytecode = True; import dustroute; print(dustroute.route('room 3 1 1\\nsource 0 0 0\\nsink 2 0 0'))"
ANSWER = "net 1 3\nbranch 0 1 2\nrepeaters\n\n"
RT = """#!/bin/sh
exit 1
"""
# what it says of each crate is what `rt` prints behind one that it has checked
ARCHIVE = """#!/bin/sh
echo archive >>"%(calls)s"
for name in $(sed -n 's/^\\([a-z0-9_]*\\).*:.*/\\1/p' crates.txt); do echo "some words"; echo "crate $name: modules loaded=1 checked=2"; done
[ "$(cat "%(status)s")" = 0 ] || exit 1
cp "%(library)s" "$3"
"""
# a build that goes on for long, with processes below it, each of which is noted
LONG = """#!/bin/sh
trap '' INT
sh -c 'echo $$ >>"%(pids)s"; sleep 300 & echo $! >>"%(pids)s"; wait' &
echo $$ >>"%(pids)s"
echo "crate basics: modules loaded=1 checked=2"
wait
"""


class Copy(unittest.TestCase):
    """A copy of what the module needs of the repository."""

    def setUp(self):
        holder = tempfile.TemporaryDirectory()
        self.addCleanup(holder.cleanup)
        self.folder = Path(holder.name)
        self.root = self.folder / "copy"
        for part in ("bindings/python", "tools/dustsheet", "crates"):
            shutil.copytree(ROOT / part, self.root / part, ignore=shutil.ignore_patterns("__pycache__", "proofs", "data", "out"))
        for part in ("crates.txt", "bindings/c/dustroute.h"):
            (self.root / part).parent.mkdir(exist_ok=True)
            shutil.copy(ROOT / part, self.root / part)
        self.places = {"calls": self.folder / "calls", "status": self.folder / "status", "pids": self.folder / "pids", "library": library().path}
        (self.folder / "bin").mkdir()
        (self.folder / "KIT-ID").write_text("one kit\n")
        self.status(0)
        self.script(self.folder / "bin" / "rt", RT)
        self.script(self.root / "tools" / "native-archive", ARCHIVE)
        self.environment = {name: value for name, value in os.environ.items() if name != "DUSTROUTE_ARCHIVE"}
        self.environment["PATH"] = "%s:%s" % (self.folder / "bin", os.environ["PATH"])
        self.environment["PYTHONPATH"] = str(self.root / "bindings" / "python")

    def script(self, file, content):
        file.write_text(content % self.places)
        file.chmod(0o755)

    def status(self, number):
        self.places["status"].write_text("%d\n" % number)

    def words(self, code):
        return [sys.executable, "-c", code]

    def route(self, code=ROUTED, **other):
        return subprocess.run(self.words(code), env={**self.environment, **other}, stdout=subprocess.PIPE, stderr=subprocess.PIPE, text=True, check=False)

    def calls(self):
        return self.places["calls"].read_text().split() if self.places["calls"].exists() else []

    def edit(self, name):
        """Other content with the time of before."""
        file = self.root / name
        before = file.stat()
        file.write_text(file.read_text() + "\n")
        os.utime(file, ns=(before.st_atime_ns, before.st_mtime_ns))


class Once(Copy):
    def builds(self, what, times):
        done = self.route()
        self.assertEqual((done.stdout, done.returncode), (ANSWER, 0), (what, done.stderr))
        self.assertEqual(self.calls(), ["archive"] * times, what)

    def test_by_content(self):
        self.builds("the first run", 1)
        self.builds("the second run", 1)
        self.edit("crates/dustroute/src/lib.rt")
        self.builds("an edit that keeps the time", 2)
        self.edit("crates/basics/specs/Lib.antt")
        self.builds("the same in a crate below", 3)
        for file in self.root.glob("crates/**/*"):
            os.utime(file)
        self.builds("new times", 3)
        self.edit("crates/route/src/main.rt")
        self.builds("an edit of another program", 3)
        self.edit("tools/native-archive")
        self.builds("an edit of what makes it", 4)
        (self.root / "target" / "native" / "libdustroute.so").unlink()
        self.builds("a library that was removed", 5)
        (self.folder / "KIT-ID").write_text("another kit\n")
        self.builds("another toolchain", 6)
        with open(self.root / "target" / "native" / "libdustroute.so", "ab") as file:
            file.write(b"\0")
        self.builds("a library that is not as it was built", 7)

    def test_what_is_built_needs_no_toolchain(self):
        bare = {"PATH": "/usr/bin:/bin"}
        if shutil.which("rt", path=bare["PATH"]):
            self.skipTest("rt stands where every program does")
        done = self.route(**bare)
        self.assertNotEqual(done.returncode, 0)
        self.assertIn("NotBuilt: no rt on the PATH", done.stderr)
        self.builds("the first run", 1)
        self.assertEqual(self.route(**bare).stdout, ANSWER)

    def test_what_is_not_proved_is_not_used(self):
        self.status(1)
        for times in (1, 2):
            done = self.route()
            self.assertNotEqual(done.returncode, 0)
            self.assertIn("the router is not proved, so it is not used", done.stderr)
            self.assertEqual(self.calls(), ["archive"] * times)

    def test_progress(self):
        done = self.route("import dustroute; dustroute.library(print)")
        count = len(built.crates_of("dustroute"))
        lines = done.stdout.splitlines()
        self.assertEqual(lines[:2], ["proving and building the router; the first time takes minutes", "1 of %d crates" % count])
        self.assertEqual(lines[-2:], ["%d of %d crates" % (count - 1, count), "%d of %d crates; built" % (count, count)])

    def test_a_folder_that_is_named(self):
        named = str(Path(library().path).parent)
        self.assertEqual(self.route(DUSTROUTE_ARCHIVE=named).stdout, ANSWER)
        self.assertEqual(self.calls(), [])
        self.assertIn("there is no libdustroute.so in it", self.route(DUSTROUTE_ARCHIVE=str(self.folder)).stderr)

    def test_crates_come_before_those_that_need_them(self):
        crates = built.crates_of("dustroute")
        self.assertEqual(crates[-1], "dustroute")
        self.assertNotIn("route", crates)
        self.assertLess(crates.index("basics"), crates.index("room"))


def is_alive(pid):
    try:
        with open("/proc/%d/stat" % pid, encoding="utf-8") as file:
            return file.read().rsplit(")", 1)[1].split()[0] != "Z"
    except OSError:
        return False


def left_alive(pids, seconds=10):
    """Those of the processes that have not ended within so many seconds: an ended one may take a while to be gone."""
    end = time.monotonic() + seconds
    while time.monotonic() < end and any(map(is_alive, pids)):
        time.sleep(0.05)
    return [pid for pid in pids if is_alive(pid)]


class Ended(Copy):
    """Ctrl-C, TERM and HUP end a build with all its processes."""

    def started(self):
        self.script(self.root / "tools" / "native-archive", LONG)
        process = subprocess.Popen(self.words("import dustroute; dustroute.library()"), env=self.environment, stderr=subprocess.DEVNULL)
        self.addCleanup(process.wait)
        self.addCleanup(process.kill)
        for _ in range(200):
            pids = self.places["pids"].read_text().split() if self.places["pids"].exists() else []
            if len(pids) == 3:
                return process, [int(pid) for pid in pids]
            time.sleep(0.05)
        raise AssertionError("the build did not begin")

    def test_signals(self):
        for how, status in ((signal.SIGINT, -signal.SIGINT), (signal.SIGTERM, 143), (signal.SIGHUP, 129)):
            with self.subTest(how=how):
                self.places["pids"].unlink(missing_ok=True)
                process, pids = self.started()
                self.assertTrue(all(map(is_alive, pids)))
                process.send_signal(how)
                self.assertEqual(process.wait(20), status)
                self.assertEqual(left_alive(pids), [])
                self.assertFalse(list(self.root.glob("target/native/*.so*.proved")))
