"""Arguments that can be given: bytes of every kind, never changed; numbers that fit; nothing else."""

from __future__ import annotations

import io
import mmap
import tempfile
import unittest
from array import array

import tigmavresh
from common import SAMPLES, Case, sample

try:
    import numpy
except ImportError:
    numpy = None


class Bytes(Case):
    def kinds(self, data: bytes):
        """The same bytes in objects of many kinds."""
        yield data
        yield bytearray(data)
        yield memoryview(data)
        yield memoryview(bytearray(data))
        yield memoryview(bytearray(data)).toreadonly()
        yield array("B", data)
        yield memoryview(b"".join(bytes([byte, 0]) for byte in data))[::2]

    def test_all_kinds_are_read_alike(self):
        data = sample("limb-leads")
        expected = tigmavresh.open(data)
        for kind in self.kinds(data):
            record = tigmavresh.open(kind)
            self.assertEqual(record.pointers, expected.pointers)
            self.assertEqual(list(record), list(expected))
            self.assertEqual(record.lead(6).samples.tolist(), expected.lead(6).samples.tolist())
            self.assertEqual(tigmavresh.crc(kind), tigmavresh.crc(data))
            self.assertFalse(tigmavresh.breaks(kind, 2))
            self.assertTrue(tigmavresh.same_identifier(kind, data))
            self.assertEqual(bytes(kind), data, "unchanged")

    def test_a_mapped_file(self):
        with open(SAMPLES / "007.scp", "rb") as file, mmap.mmap(file.fileno(), 0, access=mmap.ACCESS_READ) as mapped:
            self.assertEqual(tigmavresh.open(mapped).field(2), b"007\0")

    def test_a_record_outlives_its_buffer(self):
        buffer = bytearray(sample("beat"))
        record = tigmavresh.open(buffer)
        before = record.lead(1).samples.tolist()
        buffer[:] = bytes(10)  # changed and resized: the record holds no view of it
        self.assertEqual(record.lead(1).samples.tolist(), before)
        self.assertEqual(record.data, sample("beat"))

    def test_lent_bytes_are_not_changed(self):
        for name in ["beat", "limb-leads", "refused-13", "refused-14"]:
            data, again = sample(name), sample(name)
            record = tigmavresh.open(data)
            for place in (1, 2):
                try:
                    record.lead(place)
                except tigmavresh.Refused:
                    pass
            self.assertEqual(data, again)

    def test_what_is_no_bytes(self):
        for wrong in [None, 5, 1.5, "007", [1, 2], object()]:
            for call in [
                tigmavresh.open,
                tigmavresh.crc,
                lambda wrong: tigmavresh.breaks(wrong, 1),
                lambda wrong: tigmavresh.same_identifier(wrong, b""),
                lambda wrong: tigmavresh.same_identifier(b"", wrong),
                lambda wrong: tigmavresh.encode([1], 0, wrong),
            ]:
                self.assertRaises(TypeError, call, wrong)


    def test_a_path_or_a_file_is_no_record(self):
        path = SAMPLES / "007.scp"
        with open(path, "rb") as file, open(path, encoding="latin-1") as text, tempfile.NamedTemporaryFile() as kept:
            for wrong in [str(path), path, file, text, kept, io.BytesIO(sample("007"))]:
                for call in [tigmavresh.open, tigmavresh.Record]:
                    with self.assertRaises(TypeError) as caught:
                        call(wrong)
                    words = str(caught.exception)
                    self.assertIn("open takes a record's bytes, not a path or an open file", words)
                    self.assertIn(f"this is {type(wrong).__name__}", words)
                    self.assertIn("Path(name).read_bytes()", words)
        self.assertEqual(tigmavresh.open(path.read_bytes()).data, sample("007"))


class Numbers(Case):
    def test_numbers_that_do_not_fit(self):
        record = tigmavresh.open(sample("two-leads"))
        for call, most in [
            (record.field, 255),
            (record.fields, 255),
            (record.entry, 2**64 - 1),
            (record.lead, 2**64 - 1),
            (lambda number: record.field(2, number), 2**64 - 1),
            (lambda number: tigmavresh.breaks(b"", number), 255),
            (lambda number: tigmavresh.encode([1], number), 255),
        ]:
            self.assertRaises(OverflowError, call, -1)
            self.assertRaises(OverflowError, call, most + 1)
            for wrong in [None, 1.0, "1", b"1"]:
                self.assertRaises(TypeError, call, wrong)

    def test_whole_numbers_of_other_types(self):
        class Two:
            def __index__(self) -> int:
                return 2

        record = tigmavresh.open(sample("beat"))
        self.assertEqual(record.field(Two()), record.field(2))
        self.assertEqual(record.fields(Two()), record.fields(2))
        self.assertEqual(record.entry(Two()), record.entry(2))
        self.assertEqual(record.lead(Two()).samples.tolist(), record.lead(2).samples.tolist())
        self.assertEqual(tigmavresh.breaks(sample("refused-2"), Two()), True)
        self.assertEqual(tigmavresh.encode([1, 2], Two()), tigmavresh.encode([1, 2], 2))

    def test_the_words_name_the_number(self):
        with self.assertRaisesRegex(OverflowError, "^tag: 256 is outside 0 to 255$"):
            tigmavresh.open(sample("7")).field(256)


class Samples(Case):
    VALUES = [-32768, 0, 32767, 5]

    def stream(self, samples) -> bytes:
        return tigmavresh.encode(samples, 0).stream

    def test_all_kinds_are_coded_alike(self):
        expected = b"\x00\x80\x00\x00\xff\x7f\x05\x00"
        for kind in [self.VALUES, tuple(self.VALUES), iter(self.VALUES), array("h", self.VALUES), array("q", self.VALUES)]:
            self.assertEqual(self.stream(kind), expected)
        self.assertEqual(self.stream(range(2)), b"\0\0\1\0")
        self.assertEqual(self.stream(memoryview(array("h", [1, 2, 3]))[::2]), b"\1\0\3\0")

    def test_samples_that_do_not_fit(self):
        for wrong in [32768, -32769, 2**70]:
            self.assertRaises(OverflowError, self.stream, [0, wrong])

    def test_the_words_name_the_sample(self):
        for values, place in [([1, 2, 40000], 3), ([-32769, 0, 40000], 1), ([32767, 2**70, "1"], 2)]:
            expected = f"sample at place {place}: {values[place - 1]} is outside -32768 to 32767"
            for kind in [values, tuple(values), iter(values), (value for value in values)]:
                with self.assertRaises(OverflowError) as caught:
                    self.stream(kind)
                self.assertEqual(str(caught.exception), expected)
            leads = [tigmavresh.NewLead(1, [0]), tigmavresh.NewLead(2, iter(values), first=100)]
            with self.assertRaises(OverflowError) as caught:
                tigmavresh.write([], leads, step=1, interval=1, order=0)
            self.assertEqual(str(caught.exception), f"lead at place 2, {expected}")
        for kind in [array("q", [0, -40000]), array("H", [0, 65535]), memoryview(array("i", [0, 32768]))]:
            with self.assertRaisesRegex(OverflowError, f"^sample at place 2: {kind[1]} is outside -32768 to 32767$"):
                self.stream(kind)

    def test_what_is_no_samples(self):
        for wrong in [None, 5, "12", b"12", bytearray(2), [1.0], ["1"], [None], [[1]]]:
            self.assertRaises(TypeError, self.stream, wrong)

    @unittest.skipUnless(numpy, "numpy is not installed")
    def test_samples_of_numpy(self):
        expected = self.stream(self.VALUES)
        for kind in ["int16", "int32", "int64", ">i2"]:
            self.assertEqual(self.stream(numpy.array(self.VALUES, dtype=kind)), expected)
        self.assertRaises(TypeError, self.stream, numpy.array([1.0]))
        self.assertRaises(TypeError, self.stream, numpy.array([[1], [2]], dtype="int16"))
        self.assertRaises(OverflowError, self.stream, numpy.array([40000]))
        with self.assertRaisesRegex(OverflowError, "^sample at place 2: 40000 is outside -32768 to 32767$"):
            self.stream(numpy.array([0, 40000]))
