"""What is declared here is what the C header declares, which rust/tests/header.rs holds against the proved source."""

import ctypes
import os
import re
import unittest
from pathlib import Path
from unittest import mock

import kneukelboom
from kneukelboom import Word, library, stack

ROOT = Path(__file__).resolve().parents[2]
HEADER = re.sub(r"/\*.*?\*/", "", (ROOT / "include" / "kneukelboom.h").read_text(), flags=re.DOTALL)
TYPES = {
    "int32_t": ctypes.c_int32,
    "uint32_t": ctypes.c_uint32,
    "int64_t": ctypes.c_int64,
    "uint64_t": ctypes.c_uint64,
    "size_t": ctypes.c_size_t,
}


def declared(text):
    """`const int64_t *points` as ctypes has it, and its name."""
    of, pointer, name = re.fullmatch(r"(?:const )?(\w+) (\*?)(\w+)", " ".join(text.split())).groups()
    return ctypes.POINTER(TYPES[of]) if pointer else TYPES[of], name


def number(name):
    return int(re.search(rf"\bKNEUKELBOOM_{name}\b(?: =)? (\d+)", HEADER).group(1))


def limit(file, name):
    text = (ROOT / "crates" / "limits" / "src" / file).read_text()
    return int(re.search(rf"^\s*pub const {name}: \w+ = (\d+);", text, flags=re.MULTILINE).group(1))


class Header(unittest.TestCase):
    def test_calls(self):
        calls = re.findall(r"kneukelboom_reply kneukelboom_(\w+)\(([^)]*)\);", HEADER)
        in_c = {name: [declared(part)[0] for part in parameters.split(",")] for name, parameters in calls}
        self.assertEqual(in_c, library.PARAMETERS)

    def test_reply(self):
        fields = re.search(r"typedef struct kneukelboom_reply \{(.*?)\}", HEADER, flags=re.DOTALL).group(1)
        in_c = [declared(part) for part in fields.split(";") if part.strip()]
        self.assertEqual(in_c, [(of, name) for name, of in library.Reply._fields_])

    def test_numbers(self):
        self.assertEqual(number("VERSION"), library.VERSION)
        self.assertEqual(number("REFUSED"), library.REFUSED)
        self.assertEqual({number("NO_LINE"): None, number("LINE_A"): "A", number("LINE_B"): "B"}, library.LINES)
        for word in Word:
            self.assertEqual(number(word.name), word.value)

    def test_limits(self):
        for file, name, own in (
            ("lib.rt", "FEWEST", "FEWEST_POINTS"),
            ("lib.rt", "MOST", "MOST_POINTS"),
            ("lib.rt", "LIMIT", "SHEET"),
            ("lib.rt", "FARTHEST", "FARTHEST"),
        ):
            self.assertEqual(limit(file, name), getattr(kneukelboom, own))
            self.assertEqual(number(own), getattr(kneukelboom, own))
        self.assertEqual(limit("column.rt", "YMAX") + 1, kneukelboom.ROW_WIDTH)
        self.assertEqual(number("ROW_WIDTH"), kneukelboom.ROW_WIDTH)

    def test_stack(self):
        self.assertEqual(set(library.PARAMETERS), set(stack.A_LEVEL))
        levels = dict(stack.A_LEVEL)
        self.assertEqual(0, levels.pop("widen"))
        for name, own in levels.items():
            macro = {"build": "BUILD", "check": "BUILD", "meet": "MEET"}.get(name, "WALK")
            figures = re.search(rf"STACK_{macro}\(segments\) \((\d+) \+ (\d+) \* \(segments\)\)", HEADER)
            self.assertEqual((stack.ON_TOP, own), tuple(map(int, figures.groups())))


class SharedObject(unittest.TestCase):
    def test_one_that_is_named_is_taken_or_told_of(self):
        with mock.patch.dict(os.environ, KNEUKELBOOM_LIB="/nowhere/libkneukelboom.so.2"):
            with self.assertRaisesRegex(ImportError, "^/nowhere/libkneukelboom.so.2 cannot be loaded: "):
                library._load()
        with mock.patch.dict(os.environ, KNEUKELBOOM_LIB="libc.so.6"):
            with self.assertRaisesRegex(ImportError, "^libc.so.6 lacks a call of version 2: "):
                library._load()

    def test_one_that_is_missing_is_told_how_to_make(self):
        with mock.patch.dict(os.environ), mock.patch.object(library, "FILE", "none"):
            os.environ.pop("KNEUKELBOOM_LIB", None)
            with mock.patch("ctypes.util.find_library", return_value="the system's"):
                self.assertEqual("the system's", library._path())
            with mock.patch("ctypes.util.find_library", return_value=None):
                with self.assertRaisesRegex(ImportError, "Make it with `make`"):
                    library._path()
