"""Runs the tests test_*.py of a folder; the last line is the summary, the status is 1 if anything fails. Needs Python 3 alone."""
import sys
import unittest
from pathlib import Path

sys.dont_write_bytecode = True
ROOT = Path(__file__).resolve().parents[1]


def main(folder: Path) -> int:
    sys.path[:0] = [str(path) for path in (folder, ROOT / "tests" / "tools", ROOT / "tools", ROOT / "bindings" / "python")]
    tests = unittest.defaultTestLoader.discover(str(folder), "test_*.py")
    result = unittest.TextTestRunner(stream=sys.stdout, verbosity=0).run(tests)
    broken = len(result.failures) + len(result.errors)
    for test, why in result.skipped:
        print("%s: left out: %s (%s)" % (folder.name, test.id(), why))
    print("%s: %d tests, %d failed, %d left out" % (folder.name, result.testsRun, broken, len(result.skipped)))
    return 0 if result.wasSuccessful() and result.testsRun else 1
