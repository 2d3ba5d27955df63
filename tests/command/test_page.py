"""./dustroute page: one file, or why there is none. tests/page uses what it makes."""
import os
import subprocess
import sys
import tempfile
import unittest
from pathlib import Path

ROOT = Path(__file__).resolve().parents[2]
# a module that gives nothing but the name of a function
MODULE = b"\0asm\1\0\0\0" + b"\x07\x12\x01" + b"\x0edustroute_tree\x00\x00"


def run(folder, *words):
    done = subprocess.run([sys.executable, str(ROOT / "dustroute"), "page", *words], env={**os.environ, "DUSTROUTE_ARCHIVE": folder},
                          stdout=subprocess.PIPE, stderr=subprocess.PIPE, check=False)
    return done.returncode, done.stdout.decode(), done.stderr.decode()


class Made(unittest.TestCase):
    def test_no_module(self):
        with tempfile.TemporaryDirectory() as folder:
            status, printed, message = run(folder)
        self.assertEqual((status, printed), (1, ""))
        self.assertIn("there is no dustroute.wasm in it; tools/native-archive --wasm makes it", message)

    def test_one_file(self):
        with tempfile.TemporaryDirectory() as folder:
            (Path(folder) / "dustroute.wasm").write_bytes(MODULE)
            status, printed, message = run(folder)
            self.assertEqual((status, message), (0, ""))
            page = Path(folder) / "router.html"
            self.assertEqual(run(folder, "-o", str(page)), (0, "", ""))
            self.assertEqual(page.read_text(encoding="utf-8"), printed)
        self.assertTrue(printed.startswith("<!DOCTYPE html>"))
        self.assertNotIn("{{", printed)

    def test_what_a_module_lacks_is_left_out(self):
        with tempfile.TemporaryDirectory() as folder:
            (Path(folder) / "dustroute.wasm").write_bytes(MODULE)
            _, printed, _ = run(folder)
        self.assertNotIn("// needs:", printed)
        self.assertNotIn("dustroute_search\"", printed)

    def test_what_is_no_module(self):
        with tempfile.TemporaryDirectory() as folder:
            (Path(folder) / "dustroute.wasm").write_bytes(b"text")
            status, printed, message = run(folder)
        self.assertEqual((status, printed), (2, ""))
        self.assertIn("page: this is no WebAssembly module", message)
