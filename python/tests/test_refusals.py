"""Refusals: their numbers and words, the refused samples, and damaged bytes."""

from __future__ import annotations

import pickle
import re

import tigmavresh
from common import ACCEPTED, REFUSED, SAMPLES, TOP, WITH_LEADS, Case, checked, sample
from tigmavresh import Rule


class Words(Case):
    def test_the_words_are_those_of_the_rust_code(self):
        rust = (TOP / "rust/scp/src/refusal.rs").read_text()
        for rule in Rule:
            refused = tigmavresh.Refused(rule.value)
            row = rust.index(f"    {rule.name} = {rule.value} {{\n")
            self.assertIn(f'rule: "{refused.rule}",\n', rust[row : rust.index("}", row)])
            self.assertEqual(str(refused), f"refused, number {rule.value}; rule broken: {refused.rule}")
        self.assertEqual(len(Rule), len(re.findall(r'^ +rule: "[^"]', rust, re.MULTILINE)))

    def test_a_refusal_can_be_sent(self):
        sent = pickle.loads(pickle.dumps(tigmavresh.Refused(Rule.SECTION_1)))
        self.assertEqual((sent.number, sent.rule), (Rule.SECTION_1, tigmavresh.Refused(6).rule))


class Samples(Case):
    def test_all_samples_are_tried(self):
        names = {path.stem for path in SAMPLES.glob("*.scp")}
        self.assertEqual(names, {*ACCEPTED, *(f"refused-{number}" for number in REFUSED)})

    def test_records_that_do_not_open(self):
        for number in range(Rule.LENGTH, Rule.SECTION_1 + 1):
            self.refused(number, tigmavresh.open, sample(f"refused-{number}"))

    def test_records_whose_leads_are_all_refused(self):
        for number in range(Rule.SECTION_2, Rule.ABSENT + 1):
            record = tigmavresh.open(sample(f"refused-{number}"))
            self.refused(number, record.leads)
            self.refused(number, record.entry, 1)
            self.refused(number, record.lead, 1)
            self.assertEqual(len(record.fields(2)), 1)

    def test_records_with_one_lead_refused(self):
        for number in range(Rule.CODE, Rule.LEFT_OVER_BITS + 1):
            record = tigmavresh.open(sample(f"refused-{number}"))
            self.assertEqual(len(record.leads()), 2)
            self.assertGreater(len(record.lead(1).samples), 0)
            self.refused(number, record.lead, 2)

    def test_rules_one_by_one(self):
        for name in WITH_LEADS:
            self.assertFalse(any(tigmavresh.breaks(sample(name), row) for row in range(256)), name)
        for number in range(Rule.LENGTH, Rule.BIMODAL_STEP_INTERVAL + 1):
            found = [tigmavresh.breaks(sample(f"refused-{number}"), row) for row in range(1, number + 1)]
            self.assertEqual(found, [False] * (number - 1) + [True])


class Damage(Case):
    def test_every_byte_changed(self):
        data = sample("two-leads")
        for at in range(len(data)):
            damaged = bytearray(data)
            damaged[at] ^= 0x10
            self.refused(Rule.LENGTH if 2 <= at < 6 else Rule.RECORD_CHECK, tigmavresh.open, damaged)

    def test_every_length(self):
        data = sample("two-leads")
        for length in range(len(data)):
            self.refused(Rule.LENGTH, tigmavresh.open, data[:length])
        self.refused(Rule.LENGTH, tigmavresh.open, data + b"\0")

    def test_every_byte_changed_and_the_records_check_mended(self):
        data = sample("7")
        section1 = tigmavresh.open(data).pointers[1]
        for at in range(6, len(data)):
            damaged = bytearray(data)
            damaged[at] ^= 0x10
            with self.assertRaises(tigmavresh.Refused) as caught:
                tigmavresh.open(checked(damaged))
            self.assertIn(caught.exception.number, (Rule.SECTION_0, Rule.PLACES, Rule.SECTION_CHECK))
            if at >= section1.index + 15:
                self.assertEqual(caught.exception.number, Rule.SECTION_CHECK)

    def test_bytes_of_no_record(self):
        for data in [b"", b"\0", bytes(142), bytes(1_048_577), b"\xff" * 1000]:
            self.refused(Rule.LENGTH, tigmavresh.open, data)
            self.assertTrue(tigmavresh.breaks(data, 1))
