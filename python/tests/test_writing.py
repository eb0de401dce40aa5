"""Coding leads and writing records: the rules' own examples, every refusal, and the tool's word."""

from __future__ import annotations

import csv
import json
import tempfile
from pathlib import Path

import tigmavresh
from common import SAMPLES, WITH_LEADS, Case, sample, section_data, tool
from tigmavresh import DEFAULT_TABLE, NewLead, Rule, encode, write

FIELDS = [(2, b"007\0"), (14, b""), (25, b"\xe8\x07\x03\x0e"), (26, b"\x09\x1a\x35")]


def written(leads=(NewLead(1, [0]),), fields=FIELDS, **named) -> bytes:
    """A record of these leads and fields, the rest ordinary unless it is said."""
    return write(fields, leads, **{"step": 5000, "interval": 2000, "order": 1, **named})


class Encoding(Case):
    def test_by_the_default_table(self):
        coded = encode([14, 18, 0, -4, -9, -1, 5], 0, DEFAULT_TABLE)
        self.assertEqual(coded.bits, 71)
        self.assertEqual(coded.stream[:8], bytes.fromhex("FF83BFE127BFF7BD"))
        self.assertEqual(len(coded.stream), 9)

    def test_by_differences(self):
        samples = [10, 12, 13, 15, 18, 22, 20, 15]
        for order, values in [(1, [10, 2, 1, 2, 3, 4, -2, -5]), (2, [10, 12, -1, 1, 1, 1, -6, -3])]:
            self.assertEqual(encode(samples, order, DEFAULT_TABLE), encode(values, 0, DEFAULT_TABLE))
            self.assertEqual(encode(samples, order), encode(values, 0))

    def test_through_two_tables(self):
        tables = section_data(sample("own-tables"), 2)
        values = [1, 2, -1, 0, 3, 0, 4, 1, 0, -2, 0, 15, -1, 0, 13, 0, 1, -2, -1, 1]
        self.assertEqual(encode(values, 0, tables).bits, 87)
        self.assertEqual(encode([15], 0, tables).bits, 12)
        self.assertEqual(encode([15, 15], 0, tables).bits, 22)

    def test_what_is_refused(self):
        self.refused(Rule.WRITER_BOUNDS, encode, [], 0)
        self.refused(Rule.WRITER_BOUNDS, encode, [1], 3)
        self.refused(Rule.WRITER_BOUNDS, encode, [0] * 65_537, 0, DEFAULT_TABLE)
        self.refused(Rule.SECTION_2, encode, [1], 0, b"\0")
        self.refused(Rule.NO_STREAM, encode, [-32768, 32767, -32768], 2, DEFAULT_TABLE)
        self.refused(Rule.NO_STREAM, encode, [-32768, 32767], 1)
        self.refused(Rule.TOO_LONG, encode, [0] * 32_768, 0)
        self.assertEqual(len(encode([0] * 32_767, 0).stream), 65_534)


class Writing(Case):
    def test_what_is_written_is_read(self):
        leads = [NewLead(1, [5, 6, 7]), NewLead(2, [-32768, 32767], first=100), NewLead(61, [0])]
        data = written(leads, order=0, section2=DEFAULT_TABLE, version=10, flags=9)
        record = tigmavresh.open(data)
        self.assertEqual(list(record), FIELDS)
        self.assertEqual([lead.flags for lead in record.leads()], [8, 8, 8], "bit 0 is cleared")
        for place, new in enumerate(leads, 1):
            lead = record.lead(place)
            self.assertEqual((lead.id, lead.first, lead.samples.tolist()), (new.id, new.first, new.samples))
            self.assertEqual((lead.step, lead.interval), (5000, 2000))
        self.assertEqual(section_data(data, 2), DEFAULT_TABLE)
        self.assertEqual(data[14:16], b"\x0a\x0a")

    def test_samples_written_again(self):
        for name in WITH_LEADS:
            old = tigmavresh.open(sample(name))
            leads = [old.lead(place) for place in range(1, len(old.leads()) + 1)]
            new = tigmavresh.open(written(leads, old, section2=DEFAULT_TABLE))
            self.assertEqual(list(new), list(old))
            for place, lead in enumerate(leads, 1):
                self.assertEqual(new.lead(place).samples.tolist(), lead.samples.tolist())
                self.assertEqual((new.lead(place).id, new.lead(place).first), (lead.id, lead.first))

    def test_the_tool_writes_the_same(self):
        job = json.loads((SAMPLES / "job.json").read_text())
        with open(SAMPLES / "job.csv", newline="") as file:
            columns = zip(*list(csv.reader(file))[1:])
        fields = [
            (field["tag"], field["text"].encode() + b"\0" if "text" in field else bytes.fromhex(field["hex"]))
            for field in job["fields"]
        ]
        leads = [NewLead(id, map(int, column)) for id, column in enumerate(columns) if id]
        data = written(leads, fields, order=job["difference_order"], section2=DEFAULT_TABLE, version=job["version"])
        with tempfile.TemporaryDirectory() as folder:
            out = Path(folder) / "out.scp"
            tool("write", SAMPLES / "job.json", out)
            self.assertEqual(data, out.read_bytes())

    def test_what_is_refused(self):
        self.refused(Rule.WRITER_BOUNDS, written, [])
        self.refused(Rule.WRITER_BOUNDS, written, [NewLead(1, [0])] * 33)
        self.refused(Rule.WRITER_BOUNDS, written, [NewLead(1, [])])
        self.refused(Rule.WRITER_BOUNDS, written, [NewLead(1, [0], first=0)])
        self.refused(Rule.WRITER_BOUNDS, written, [NewLead(1, [0, 0], first=2**32 - 1)])
        for named in [{"step": 0}, {"interval": 0}, {"order": 3}]:
            self.refused(Rule.WRITER_BOUNDS, written, **named)
        self.refused(Rule.SECTION_1, written, fields=FIELDS[1:])
        self.refused(Rule.SECTION_1, written, fields=[*FIELDS, (255, b"")])
        self.refused(Rule.SECTION_2, written, section2=b"\1\0\0\0")
        self.refused(Rule.NO_STREAM, written, [NewLead(1, [0]), NewLead(2, [-32768, 32767])])
        self.refused(Rule.TOO_LONG, written, [NewLead(1, [0] * 32_767)] * 20)
        self.assertEqual(len(tigmavresh.open(written([NewLead(1, [0])] * 32)).leads()), 32)

    def test_what_cannot_be_asked(self):
        for named, error in [
            ({"version": 256}, OverflowError),
            ({"flags": -1}, OverflowError),
            ({"step": 65_536}, OverflowError),
            ({"interval": 2**64}, OverflowError),
            ({"order": 256}, OverflowError),
            ({"step": 1.0}, TypeError),
            ({"section2": None}, TypeError),
            ({"fields": [(2, "007")]}, TypeError),
            ({"fields": [(2, bytes(65_536))]}, OverflowError),
            ({"fields": [(256, b"")]}, OverflowError),
            ({"leads": [NewLead(256, [0])]}, OverflowError),
            ({"leads": [NewLead(1, [0], first=2**32)]}, OverflowError),
            ({"leads": [NewLead(1, [40_000])]}, OverflowError),
            ({"leads": [NewLead(1, b"12")]}, TypeError),
        ]:
            self.assertRaises(error, written, **named)
