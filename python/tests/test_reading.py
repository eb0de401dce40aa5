"""Records, fields and leads, as the tool and the samples' own notes have them."""

from __future__ import annotations

import csv
import ctypes
import io
import threading
import unittest
from array import array

import tigmavresh
from common import ACCEPTED, SAMPLES, WITH_LEADS, Case, changed, sample, tool, without
from tigmavresh import Rule
from tigmavresh._library import scp

try:
    import numpy
except ImportError:
    numpy = None


class Opening(Case):
    def test_pointers_are_as_stored(self):
        record = tigmavresh.open(sample("007"))
        self.assertEqual(record.pointers[0], (0, 136, 7))
        self.assertEqual(record.pointers[1], tigmavresh.Pointer(id=1, length=len(sample("007")) - 142, index=143))
        self.assertEqual(record.pointers[2:], tuple((id, 0, 0) for id in range(2, 12)))

    def test_pointers_of_makers_sections(self):
        pointers = tigmavresh.open(sample("makers-sections")).pointers
        self.assertEqual(len(pointers), 15)
        ids = [pointer.id for pointer in pointers]
        self.assertEqual(ids[:12], list(range(12)))
        self.assertEqual(ids, sorted(set(ids)))

    def test_a_record_keeps_its_bytes(self):
        for name in ACCEPTED:
            record = tigmavresh.open(sample(name))
            self.assertEqual(record.data, sample(name))
            self.assertIn(f"{len(sample(name))} bytes", repr(record))


class Fields(Case):
    FIELDS = [(2, b"007\0"), (14, b""), (25, b"\xe8\x07\x03\x0e"), (26, b"\x09\x1a\x35"), (30, b"Made up\0")]

    def setUp(self):
        self.record = tigmavresh.open(sample("007"))

    def test_the_walk_shows_every_field(self):
        self.assertEqual(list(self.record), self.FIELDS)
        self.assertEqual(list(self.record), self.FIELDS, "a second walk")
        self.assertEqual([field.tag for field in self.record], [2, 14, 25, 26, 30])

    def test_fields_by_tag(self):
        for tag, data in self.FIELDS:
            self.assertEqual(self.record.field(tag), data)
            self.assertEqual(self.record.fields(tag), [data])
        self.assertEqual(self.record.fields(99), [])
        self.assertEqual(self.record.fields(255), [])

    def test_fields_that_are_not_there(self):
        for tag, occurrence in [(2, 2), (2, 0), (99, 1), (255, 1), (2, 2**64 - 1)]:
            self.refused(Rule.ABSENT, self.record.field, tag, occurrence)

    def test_fields_that_repeat(self):
        fields = [(30, b"one"), *self.FIELDS[:4], (30, b""), (30, b"three")]
        data = tigmavresh.write(fields, [tigmavresh.NewLead(1, [0])], step=1, interval=1, order=0)
        record = tigmavresh.open(data)
        self.assertEqual(record.fields(30), [b"one", b"", b"three"])
        self.assertEqual(record.field(30, 3), b"three")
        self.assertEqual(record.field(30, occurrence=2), b"")
        self.refused(Rule.ABSENT, record.field, 30, 4)

    def test_identifiers(self):
        other = tigmavresh.open(sample("7")).field(2)
        self.assertEqual(other, b"7\0")
        self.assertFalse(tigmavresh.same_identifier(self.record.field(2), other))
        self.assertTrue(tigmavresh.same_identifier(bytearray(b"7\0"), other))
        self.assertTrue(tigmavresh.same_identifier(b"", b""))
        for one in [b"7", b"7\0\0", b" 7\0", b""]:
            self.assertFalse(tigmavresh.same_identifier(one, other))


class Leads(Case):
    def table(self, name: str) -> list[list[str]]:
        """A sample's leads as the tool shows them in CSV."""
        return list(csv.reader(io.StringIO(tool("samples", SAMPLES / f"{name}.scp", "--csv"))))

    def test_samples_are_those_of_the_tool(self):
        for name in WITH_LEADS:
            record, (heads, *rows) = tigmavresh.open(sample(name)), self.table(name)
            self.assertEqual(len(record.leads()), len(heads) - 1)
            for place, head in enumerate(heads[1:], 1):
                lead = record.lead(place)
                shown = {int(row[0]): int(row[place]) for row in rows if row[place]}
                self.assertEqual(dict(enumerate(lead.samples.tolist(), lead.first)), shown)
                self.assertEqual(max(shown), lead.last)
                self.assertIn(f"({lead.step} nV)", head)

    def test_leads_agree_with_their_entries(self):
        for name in WITH_LEADS:
            record = tigmavresh.open(sample(name))
            for place, entry in enumerate(record.leads(), 1):
                self.assertEqual(entry, record.entry(place))
                lead = record.lead(place)
                said = entry.id, entry.first, entry.last, entry.step, entry.interval, entry.flags
                self.assertEqual(said, (lead.id, lead.first, lead.last, lead.step, lead.interval, lead.flags))

    def test_a_lead_with_its_beat(self):
        record = tigmavresh.open(sample("beat"))
        lead = record.lead(2)
        self.assertEqual((lead.id, lead.first, lead.step, lead.interval, lead.flags), (2, 5, 5000, 2000, 5))
        self.assertEqual(lead.samples.tolist()[:10], [28, 119, 80, -9, -2, -1, -1, 0, 1, 2])
        self.assertEqual(record.lead(1).samples.tolist(), record.lead(1).samples.tolist(), "read twice")

    def test_padded_streams_are_read_as_unpadded_ones(self):
        padded, beat = tigmavresh.open(sample("padded")), tigmavresh.open(sample("beat"))
        for place in (1, 2):
            one, other = padded.lead(place), beat.lead(place)
            self.assertEqual(one.samples.tolist(), other.samples.tolist())
            said = [(lead.id, lead.first, lead.last, lead.step, lead.interval, lead.flags) for lead in (one, other)]
            self.assertEqual(said[0], said[1])
            self.assertEqual(padded.entry(place).bytes % 2, 0)

    def compared(self, name: str) -> list[int]:
        """The structures compared for a sample's two leads."""
        record = tigmavresh.open(sample(name))
        return [record.lead(place).compared for place in (1, 2)]

    def test_structures_compared(self):
        there, back = 6, 5  # the places of the switches between the two tables
        published = [2, 4, 3, 1, 7, 1, 7, 2, 1, 5, there, 2, 1, 4, 2, 1, back, 1, 2, 5, 3, 2]
        by_table_2 = [there, 1, 1, 2, 1, 1, 3, 3, 3]
        self.assertEqual((sum(published), sum(by_table_2)), (67, 21))
        self.assertEqual(self.compared("own-tables"), [67, 21])
        self.assertEqual(self.compared("two-leads"), [0, 0], "there is no Section 2")

    def test_structures_compared_with_a_beat(self):
        # in the default table 0 is at place 1, k at 2k, -k at 2k + 1, and other numbers of 8 bits at 18
        beats = 1 + 8 + 4 * 18 + 11 + 1, 1 + 4 + 4 * 18 + 9 + 2
        first_differences = 5 + 32 * 2 + 7 * 9, 5 + 20 * 2 + 5 * 9
        second_differences = 5 + 3 + 24 + 7 * 11 + 7 * 10, 5 + 3 + 15 + 5 * 11 + 4 * 10
        self.assertEqual((beats, first_differences, second_differences), ((93, 88), (132, 90), (179, 118)))
        self.assertEqual(self.compared("beat"), [93 + 132, 88 + 90])
        self.assertEqual(self.compared("padded"), [93 + 179, 88 + 118])

    def test_the_most_structures_compared(self):
        # one table: 62 structures of 8 bits, then 5 as 10, and at place 64 a switch to the same table as 0
        codes = [bytes([8, 8, 1, k, 0, k << 2 | 3, 0, 0, 0]) for k in range(62)]
        codes += [bytes([2, 2, 1, 5, 0, 1, 0, 0, 0]), bytes([1, 1, 0, 1, 0, 0, 0, 0, 0])]
        given = {"step": 1, "interval": 1, "order": 0, "section2": bytes([1, 0, 64, 0]) + b"".join(codes)}
        data = tigmavresh.write(Fields.FIELDS, [tigmavresh.NewLead(1, [5, 5, 5, 5])], **given)
        self.assertEqual(tigmavresh.open(data).lead(1).compared, 4 * 63)
        # the stream of one byte, 10101010, is made 00000010: six switches and one value
        switched = changed(changed(data, 3, 6, b"\1"), 6, 8, b"\2")
        lead = tigmavresh.open(switched).lead(1)
        self.assertEqual((lead.samples.tolist(), lead.compared), ([5], 6 * 64 + 63))

    def test_refusals_have_no_structures_compared(self):
        room, work = (ctypes.c_int16 * 40)(), (ctypes.c_int16 * 8)()
        for number in [7, 8, 9, 10, 12, 13, 14]:
            data = sample(f"refused-{number}")
            lead = scp.scp_read_lead(data, len(data), 2, room, len(room), work, len(work))
            fields = {name: getattr(lead, name) for name, _ in lead._fields_}
            self.assertEqual(fields, dict.fromkeys(fields, 0) | {"refusal": number})

    def test_an_entry(self):
        entry = tigmavresh.open(sample("limb-leads")).entry(4)
        expected = tigmavresh.Entry(
            id=62, first=41, last=80, step=5000, interval=2000, order=2, flags=24, bytes=8, leads=6
        )
        self.assertEqual(entry, expected)

    def test_places_without_a_lead(self):
        record = tigmavresh.open(sample("two-leads"))
        for place in [0, 3, 33, 2**64 - 1]:
            self.refused(Rule.ABSENT, record.lead, place)
            self.refused(Rule.ABSENT, record.entry, place)

    def test_a_record_without_leads(self):
        for name in ["007", "7", "makers-sections"]:
            record = tigmavresh.open(sample(name))
            self.assertEqual((record.pointers[3].length, record.pointers[6].length), (0, 0), name)
            self.assertEqual(record.leads(), [])
            self.refused(Rule.ABSENT, record.lead, 1)
            self.refused(Rule.ABSENT, record.entry, 1)

    def test_leads_without_their_samples(self):
        record = tigmavresh.open(sample("refused-10"))
        self.assertGreater(record.pointers[3].length, 0)
        self.assertEqual(record.pointers[6].length, 0)
        self.refused(Rule.ABSENT, record.leads)

    def test_samples_without_their_leads(self):
        self.refused(Rule.SECTIONS_3_TO_6, tigmavresh.open(without(sample("two-leads"), 3)).leads)

    def test_no_leads_and_a_fault(self):
        given = {"step": 1, "interval": 1, "order": 0, "section2": tigmavresh.DEFAULT_TABLE}
        data = tigmavresh.write(Fields.FIELDS, [tigmavresh.NewLead(1, [0])], **given)
        bare = without(without(data, 6), 3)
        self.assertEqual(tigmavresh.open(bare).leads(), [])
        self.refused(Rule.SECTION_2, tigmavresh.open(changed(bare, 2, 0, b"\0\0")).leads)

    def test_samples_are_the_callers_own(self):
        record = tigmavresh.open(sample("two-leads"))
        samples = record.lead(1).samples
        before = samples.tolist()
        samples[0] = 77
        self.assertEqual(record.lead(1).samples.tolist(), before)

    @unittest.skipUnless(numpy, "numpy is not installed")
    def test_samples_by_numpy(self):
        samples = tigmavresh.open(sample("beat")).lead(2).samples
        self.assertIsInstance(samples, numpy.ndarray)
        self.assertEqual(samples.dtype, numpy.int16)
        self.assertEqual(samples.shape, (26,))

    def test_samples_without_numpy(self):
        kept, tigmavresh.reading.numpy = tigmavresh.reading.numpy, None
        try:
            samples = tigmavresh.open(sample("beat")).lead(2).samples
        finally:
            tigmavresh.reading.numpy = kept
        self.assertIsInstance(samples, array)
        self.assertEqual((samples.typecode, len(samples), samples[1]), ("h", 26, 119))

    def extremes(self) -> tigmavresh.Lead:
        """A lead with the extreme samples, and the largest step."""
        leads = [tigmavresh.NewLead(1, [-32768, 32767, 0, 1, -1])]
        return tigmavresh.open(tigmavresh.write(Fields.FIELDS, leads, step=65535, interval=1, order=0)).lead(1)

    def voltages(self):
        """Holds voltages to the samples and steps, which they leave as they are; answers those of `extremes`."""
        for name in WITH_LEADS:
            lead = tigmavresh.open(sample(name)).lead(1)
            self.assertEqual(lead.nanovolts().tolist(), [one * lead.step for one in lead.samples.tolist()])
        self.assertEqual(tigmavresh.open(sample("beat")).lead(2).nanovolts().tolist()[:3], [140_000, 595_000, 400_000])
        lead = self.extremes()
        kind = type(lead.samples)
        found = lead.nanovolts()
        self.assertEqual(found.tolist(), [-2_147_450_880, 2_147_385_345, 0, 65_535, -65_535])
        found[0] = 7
        self.assertEqual((lead.samples.tolist(), lead.step), ([-32768, 32767, 0, 1, -1], 65535))
        self.assertEqual((type(lead.samples), lead.samples.itemsize), (kind, 2))
        self.assertEqual(lead.nanovolts().tolist()[0], -2_147_450_880, "asked twice")
        return found

    @unittest.skipUnless(numpy, "numpy is not installed")
    def test_voltages_by_numpy(self):
        found = self.voltages()
        self.assertIsInstance(found, numpy.ndarray)
        self.assertEqual((found.dtype, found.shape), (numpy.int32, (5,)))

    def test_voltages_without_numpy(self):
        kept, tigmavresh.reading.numpy = tigmavresh.reading.numpy, None
        try:
            found = self.voltages()
        finally:
            tigmavresh.reading.numpy = kept
        self.assertIsInstance(found, array)
        self.assertEqual((found.typecode, found.itemsize), ("i", 4))

    def test_threads_read_side_by_side(self):
        records = [tigmavresh.open(sample(name)) for name in WITH_LEADS]
        alone = [[record.lead(1).samples.tolist()] * 20 for record in records]
        found: list[list[list[int]]] = [[] for _ in records]

        def read(at: int) -> None:
            found[at] = [records[at].lead(1).samples.tolist() for _ in range(20)]

        threads = [threading.Thread(target=read, args=(at,)) for at in range(len(records))]
        for thread in threads:
            thread.start()
        for thread in threads:
            thread.join()
        self.assertEqual(found, alone)


class Checks(Case):
    def test_the_check(self):
        self.assertEqual(tigmavresh.crc(b"123456789"), 0x29B1)
        self.assertEqual(tigmavresh.crc(b""), 0xFFFF)
        data = sample("007")
        self.assertEqual(tigmavresh.crc(data[2:]), int.from_bytes(data[:2], "little"))
