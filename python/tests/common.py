"""Shared by the tests: the folders, the sample records, the tool, and records with their CRCs put right."""

from __future__ import annotations

import subprocess
import unittest
from pathlib import Path

import tigmavresh

TOP = Path(__file__).resolve().parents[2]
SAMPLES = TOP / "samples"
ACCEPTED = ["007", "7", "two-leads", "makers-sections", "limb-leads", "own-tables", "beat", "padded"]
WITH_LEADS = ["two-leads", "limb-leads", "own-tables", "beat", "padded"]
REFUSED = [1, 2, 3, 4, 5, 6, 7, 8, 9, 10, 12, 13, 14]


def sample(name: str) -> bytes:
    """The bytes of a sample record."""
    return (SAMPLES / f"{name}.scp").read_bytes()


def tool(*words: object) -> str:
    """The output of the tool for a call that succeeds."""
    call = [str(TOP / "tigmavresh"), *map(str, words)]
    return subprocess.run(call, check=True, stdout=subprocess.PIPE, text=True).stdout


def section_data(data: bytes, section: int) -> bytes:
    """The data of a section of an accepted record, without its header."""
    pointer = tigmavresh.open(data).pointers[section]
    return data[pointer.index + 15 : pointer.index + pointer.length - 1]


def checked(data: bytes) -> bytes:
    """A section or a record with its check made over what follows it."""
    return tigmavresh.crc(data[2:]).to_bytes(2, "little") + data[2:]


def changed(data: bytes, section: int, at: int, new: bytes) -> bytes:
    """An accepted record with some of a section's data changed, and its checks put right."""
    pointer = tigmavresh.open(data).pointers[section]
    start, end = pointer.index - 1, pointer.index - 1 + pointer.length
    at += start + 16
    part = data[start:at] + new + data[at + len(new) : end]
    return checked(data[:start] + checked(part) + data[end:])


def without(data: bytes, section: int) -> bytes:
    """An accepted record with the pointer to a section emptied."""
    return changed(data, 0, 10 * section + 2, bytes(8))


class Case(unittest.TestCase):
    """A test case that asks for refusals."""

    def refused(self, number: int, call, *given, **named) -> None:
        with self.assertRaises(tigmavresh.Refused) as caught:
            call(*given, **named)
        self.assertEqual(caught.exception.number, number)
