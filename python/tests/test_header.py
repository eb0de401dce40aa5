"""Holds the module's structures and prototypes to the C header, so that the two cannot part."""

from __future__ import annotations

import ctypes
import re

from common import TOP, Case
from tigmavresh import _library

HEADER = re.sub(r"/\*.*?\*/", "", (TOP / "rust/include/scp.h").read_text(), flags=re.DOTALL)
NUMBERS = {f"uint{bits}_t": getattr(ctypes, f"c_uint{bits}") for bits in (8, 16, 32)}
NUMBERS["size_t"] = ctypes.c_size_t


def type_named(name: str):
    """The ctypes type of a number or structure of the header."""
    return NUMBERS.get(name) or getattr(_library, name)


def type_given(words: str):
    """The ctypes type of a parameter of the header: an address if it is a pointer or an array."""
    return ctypes.c_void_p if re.search(r"[*\[]", words) else type_named(words.split()[0])


class Header(Case):
    def test_structures(self):
        structures = re.findall(r"typedef struct \{(.*?)\} (\w+);", HEADER, re.DOTALL)
        for body, name in structures:
            fields = []
            for kind, names in re.findall(r"(\w+) ([\w, ]+);", body):
                fields += [(field.strip(), type_named(kind)) for field in names.split(",")]
            self.assertEqual(getattr(_library, name)._fields_, fields, name)
        self.assertEqual(len(structures), 9)

    def test_functions(self):
        functions = re.findall(r"^(\w+) (scp_\w+)\((.*?)\);", HEADER, re.DOTALL | re.MULTILINE)
        expected = {
            name: (type_named(answer), [type_given(one) for one in given.split(",")]) for answer, name, given in functions
        }
        self.assertEqual(_library.PROTOTYPES, expected)
        self.assertEqual(len(functions), 15)

    def test_bounds(self):
        bounds = re.findall(r"#define (SCP_\w+) (\d+)$", HEADER, re.MULTILINE)
        for name, value in bounds:
            self.assertEqual(getattr(_library, name), int(value), name)
        self.assertEqual(len(bounds), 7)
        self.assertIn("#define SCP_POINTERS_ROOM (3 * SCP_POINTERS_MAX)", HEADER)
        self.assertEqual(_library.SCP_POINTERS_ROOM, 3 * _library.SCP_POINTERS_MAX)
