"""The header as Python reads it, and what the bare calls refuse to hand on."""
import ast
import ctypes
import sys
import tempfile
import unittest
from pathlib import Path

import dustroute
from dustroute import header, library
from dustroute.repository import HEADER, ROOT


def read(text):
    with tempfile.TemporaryDirectory() as folder:
        file = Path(folder) / "some.h"
        file.write_text(text)
        return header.read(file)


class Standing(unittest.TestCase):
    @unittest.skipUnless(hasattr(sys, "stdlib_module_names"), "this Python has no list of its own modules")
    def test_the_standard_library_is_enough(self):
        names = set()
        for file in [*(ROOT / "bindings" / "python").glob("**/*.py"), *(ROOT / "tools" / "dustsheet").glob("**/*.py"), ROOT / "dustroute"]:
            for node in ast.walk(ast.parse(file.read_text(encoding="utf-8"))):
                if isinstance(node, ast.Import):
                    names.update(alias.name.split(".")[0] for alias in node.names)
                elif isinstance(node, ast.ImportFrom) and not node.level:
                    names.add(node.module.split(".")[0])
        self.assertEqual(names - set(sys.stdlib_module_names), {"dustroute", "dustsheet"})

    def test_every_public_name_says_what_it_is(self):
        for name in dustroute.__all__:
            self.assertTrue(getattr(dustroute, name).__doc__, name)


class Reading(unittest.TestCase):
    def test_the_functions_of_the_header(self):
        functions = header.read(HEADER).functions
        self.assertIn("dustroute_search", functions)
        tree = functions["dustroute_tree"]
        self.assertEqual(tree[0], header.Parameter("sheet", ctypes.c_uint8, True, True))
        self.assertEqual(tree[1], header.Parameter("branches", ctypes.c_uint32, True, False))
        self.assertEqual([one.name for one in tree][-2:], ["queue", "values"])
        self.assertEqual(functions["dustroute_search"][3], header.Parameter("limit", ctypes.c_uint32, False, False))

    def test_the_constants(self):
        constants = header.read(HEADER).constants
        self.assertEqual((constants["DUSTROUTE_MAX_CELLS"], constants["DUSTROUTE_TREE_VALUES"]), (65536, 20))

    def test_comments_and_inline_helpers_are_no_functions(self):
        text = ("/* uint32_t dustroute_no(size_t wide); */\nstatic inline uint32_t dustroute_help(size_t wide) { return 0; }\n"
                "uint32_t dustroute_yes(\n    size_t wide,\n    const uint16_t *blocks, size_t blocks_length);\n")
        self.assertEqual(read(text).functions, {"dustroute_yes": (header.Parameter("wide", ctypes.c_size_t, False, False),
                                                                  header.Parameter("blocks", ctypes.c_uint16, True, True))})

    def test_what_can_not_be_passed(self):
        for listed in ("double cost", "uint8_t *bytes", "uint8_t *bytes, size_t other_length"):
            with self.assertRaises(ValueError):
                read("uint32_t dustroute_some(%s);\n" % listed)

    def test_the_library_has_every_function(self):
        self.assertEqual(set(library().functions), set(header.read(HEADER).functions))


ROW = {"wide": 3, "high": 1, "deep": 1, "limit": 30000, "horizontal": 10, "stair": 25, "support": 15, "start": 0, "goal": 2}


def buffers(**other):
    sizes = {"path": (ctypes.c_uint32, 3), "known": (ctypes.c_uint32, 3), "previous": (ctypes.c_uint32, 3), "classes": (ctypes.c_uint8, 3),
             "queue": (ctypes.c_uint64, 30), "values": (ctypes.c_uint64, 4)}
    return {**{name: (kind * length)() for name, (kind, length) in sizes.items()}, **other}


class BareCalls(unittest.TestCase):
    def setUp(self):
        self.search = library()["dustroute_search"]

    def test_a_search(self):
        lent = buffers()
        self.assertEqual(self.search(**ROW, kinds=b"\0\0\0", **lent), 0)
        self.assertEqual((list(lent["path"]), list(lent["values"])), ([0, 1, 2], [0, 3, 20, 2]))

    def test_any_length_is_lawful(self):
        for name in buffers():
            lent = buffers(**{name: bytearray() if name == "classes" else (type(buffers()[name])._type_ * 0)()})
            self.assertEqual(self.search(**ROW, kinds=bytearray(3), **lent), 6, name)

    def test_names(self):
        with self.assertRaisesRegex(TypeError, "missing or unknown: colour, kinds$"):
            self.search(**ROW, colour=b"", **buffers())

    def test_numbers_that_do_not_fit(self):
        for number in (-1, 2 ** 32):
            with self.assertRaisesRegex(OverflowError, "^limit is -?[0-9]+; it is 0 to 4294967295$"):
                self.search(**{**ROW, "limit": number}, kinds=b"\0\0\0", **buffers())
        with self.assertRaisesRegex(TypeError, "a number was expected"):
            self.search(**{**ROW, "limit": 1.5}, kinds=b"\0\0\0", **buffers())

    def test_buffers_that_do_not_fit(self):
        with self.assertRaisesRegex(TypeError, "path needs elements of 4 bytes"):
            self.search(**ROW, kinds=b"\0\0\0", **buffers(path=bytearray(12)))
        with self.assertRaisesRegex(TypeError, "classes is written to"):
            self.search(**ROW, kinds=b"\0\0\0", **buffers(classes=b"\0\0\0"))
        one = (ctypes.c_uint32 * 6)()
        with self.assertRaisesRegex(ValueError, "the buffers of path and known overlap|the buffers of known and path overlap"):
            self.search(**ROW, kinds=b"\0\0\0", **buffers(path=one, known=(ctypes.c_uint32 * 3).from_buffer(one, 8)))
