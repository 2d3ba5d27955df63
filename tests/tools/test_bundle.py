"""The page that routes is put together from scripts: what the bundle holds them to."""
import os
import re
import tempfile
import unittest
from pathlib import Path

from common import ROOT
from dustsheet import bundle, router_page
from dustsheet.files import Stop

TABLES = "export const TABLES = {};\n"
MOST_LINES, MOST_COLUMNS = 250, 150


class Scripts(unittest.TestCase):
    """Scripts of a folder of their own."""

    def setUp(self):
        made = tempfile.TemporaryDirectory()
        self.addCleanup(made.cleanup)
        self.folder = Path(made.name).resolve()
        self.kept = bundle.SCRIPTS, bundle.TABLES
        bundle.SCRIPTS, bundle.TABLES = self.folder, self.folder / "tables.mjs"
        self.addCleanup(self.put_back)

    def put_back(self):
        bundle.SCRIPTS, bundle.TABLES = self.kept

    def write(self, name, content):
        (self.folder / name).parent.mkdir(exist_ok=True)
        (self.folder / name).write_text(content, encoding="utf-8")
        return self.folder / name

    def refused(self, entry, words):
        with self.assertRaises(Stop) as told:
            bundle.bundle([entry], TABLES)
        self.assertIn(words, str(told.exception))

    def test_each_stands_behind_those_it_needs(self):
        self.write("low.mjs", "export const low = 1;\n")
        self.write("middle.mjs", 'import { low } from "./low.mjs";\nexport function middle() { return low; }\n')
        entry = self.write("top.mjs", 'import { middle } from "./middle.mjs";\nimport { low } from "./low.mjs";\nmiddle(low);\n')
        made = bundle.bundle([entry], TABLES)
        self.assertEqual(re.findall(r"^// ---- (.*)", made, re.M), ["low.mjs", "middle.mjs", "top.mjs"])
        self.assertNotRegex(made, r"(?m)^(import|export)")

    def test_a_name_is_declared_once(self):
        self.write("one.mjs", "export const same = 1;\n")
        self.refused(self.write("other.mjs", 'import { same } from "./one.mjs";\nfunction same() {}\n'), "same is declared in one.mjs and in other.mjs")
        self.refused(self.write("third.mjs", 'import { same } from "./one.mjs";\nconst [other, same] = [1, 2];\n'), "same is declared in one.mjs and in third.mjs")

    def test_what_is_taken_is_given(self):
        self.write("one.mjs", "const kept = 1;\nexport const given = kept;\n")
        self.refused(self.write("other.mjs", 'import { kept } from "./one.mjs";\n'), "takes kept from one.mjs, which doesn't give it")

    def test_words_are_those_of_the_tools(self):
        self.assertIn("said", bundle.bundle([self.write("good.mjs", 'said("the bytes are no job sheet");\n')], TABLES))
        self.refused(self.write("bad.mjs", 'said("the bytes are no good");\n'), "no module of tools/dustsheet does")

    def test_a_part_is_left_out_where_its_function_is_missing(self):
        part = self.write("parts/one.mjs", "// needs: dustroute_one dustroute_two\n")
        self.assertEqual(bundle.parts(["dustroute_one", "dustroute_two", "dustroute_three"]), [part])
        self.assertEqual(bundle.parts(["dustroute_one"]), [])
        self.write("parts/other.mjs", "// what it does\n")
        with self.assertRaises(Stop):
            bundle.parts([])


class Kept(unittest.TestCase):
    def test_scripts_are_short(self):
        for file in bundle.SCRIPTS.rglob("*.mjs"):
            lines = file.read_text(encoding="utf-8").split("\n")
            self.assertLess(len(lines), MOST_LINES, file)
            self.assertLess(max(map(len, lines)), MOST_COLUMNS + 1, file)

    def test_every_part_names_what_it_needs(self):
        for file in (bundle.SCRIPTS / "parts").glob("*.mjs"):
            self.assertTrue(bundle.needs(file))

    def test_nothing_comes_from_elsewhere(self):
        for file in [*bundle.SCRIPTS.rglob("*.mjs"), bundle.SCRIPTS / "page.html", bundle.SCRIPTS / "style.css"]:
            found = re.findall(r"""https?://[^"' )]*|\bsrc=|@import|\bfetch\(|XMLHttpRequest""", file.read_text(encoding="utf-8"))
            self.assertEqual([one for one in found if one != "http://www.w3.org/2000/svg"], [], file)

    def test_the_examples_are_all_offered(self):
        texts = {name[:-4] for name in os.listdir(os.path.join(ROOT, "examples")) if name.endswith(".txt")}
        self.assertEqual(set(router_page.EXAMPLES), texts)


class Modules(unittest.TestCase):
    def test_the_functions_of_a_module(self):
        entries = b"\x03" + b"\x06memory\x02\x00" + b"\x0ddustroute_one\x00\x01" + b"\x0ddustroute_two\x00\xac\x02"
        module = b"\0asm\1\0\0\0" + b"\x01\x04\x01\x60\x00\x00" + b"\x07" + bytes([len(entries)]) + entries
        self.assertEqual(router_page.exported(module), ("dustroute_one", "dustroute_two"))
        self.assertEqual(router_page.exported(module[:14]), ())
        with self.assertRaises(Stop):
            router_page.exported(b"text")
