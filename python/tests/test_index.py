"""The index: its bytes and their order, merging, lookups, every refusal, and what can be given."""

from __future__ import annotations

import random
import threading
from array import array

import tigmavresh
from common import ACCEPTED, SAMPLES, Case, changed, sample
from tigmavresh import Index, IndexEntry, NewLead, Rule

# Of 007.scp: 000011, the year 0000011111101000, the month 0011, the day 01110, no leads 00000000, and 0.
ENTRY = b"\x0c\x1f\xa0\xdc\x00007"

# Where the month and the day are in the data of Section 1, if the identifier has three bytes.
MONTH, DAY = 15, 16


def made(identifier: bytes, date: tuple[int, int, int] = (2024, 3, 14), leads: int = 1) -> bytes:
    """A record with this identifier, date and number of leads."""
    year, month, day = date
    fields = [(2, identifier + b"\0"), (14, b""), (25, year.to_bytes(2, "little") + bytes([month, day])), (26, bytes(3))]
    return tigmavresh.write(fields, [NewLead(1, [0])] * leads, step=1, interval=1, order=0)


def index_of(*records: bytes) -> Index:
    """An index of these records, in order of arrival."""
    index = Index()
    for record in records:
        index.add(record)
    return index


class Adding(Case):
    def test_an_entry(self):
        index = index_of(sample("007"))
        self.assertEqual(bytes(index), ENTRY)
        self.assertEqual(list(index), [IndexEntry(identifier=b"007", year=2024, month=3, day=14, leads=0)])
        self.assertEqual((len(index), repr(index)), (1, "<Index of 8 bytes>"))
        index = index_of(made(b"\xff" * 63, (65535, 12, 31), leads=32))
        self.assertEqual(bytes(index), b"\xff\xff\xff\x3e\x40" + b"\xff" * 63)
        self.assertEqual(list(index), [(b"\xff" * 63, 65535, 12, 31, 32)])

    def test_no_records(self):
        self.assertEqual((bytes(Index()), list(Index()), len(Index())), (b"", [], 0))
        self.assertEqual(Index().find(b"007"), [])

    def test_the_order(self):
        arrived = [
            (b"7", (2024, 1, 1), 1),
            (b"007", (2024, 2, 29), 2),
            (b"0071", (2023, 1, 1), 1),
            (b"007", (2024, 2, 29), 1),
            (b"007", (2024, 2, 28), 3),
            (b"007", (2024, 1, 31), 4),
            (b"007", (2023, 12, 31), 5),
            (b"00", (2025, 1, 1), 6),
            (b"\xff", (0, 2, 31), 7),
        ]
        index = index_of(*(made(*given) for given in arrived))
        expected = [(identifier, *date, leads) for identifier, date, leads in sorted(arrived, key=lambda one: one[:2])]
        self.assertEqual(list(index), expected)
        self.assertEqual([entry.leads for entry in index.find(b"007")], [5, 4, 3, 2, 1])

    def test_a_kept_index_is_the_same(self):
        rng = random.Random(13)
        index, arrived = Index(), []
        for number in range(60):
            identifier = bytes(rng.choice(b"017") for _ in range(rng.randint(1, 3)))
            date = 2024, rng.randint(1, 2), rng.randint(1, 2)
            arrived.append((identifier, date, number % 32 + 1))
            index = Index(bytes(index)) if number % 7 == 0 else index
            index.add(made(*arrived[-1]))
            self.assertEqual(len(index), number + 1)
        ordered = sorted(arrived, key=lambda one: one[:2])
        self.assertEqual(list(index), [(identifier, *date, leads) for identifier, date, leads in ordered])
        for asked in {identifier for identifier, _, _ in arrived}:
            self.assertEqual(index.find(asked), [entry for entry in index if entry.identifier == asked])

    def test_records_are_given_as_bytes_or_opened(self):
        for name in ACCEPTED:
            data = sample(name)
            expected = bytes(index_of(data))
            view = memoryview(b"".join(bytes([byte, 0]) for byte in data))[::2]
            for kind in [tigmavresh.open(data), bytearray(data), memoryview(data), array("B", data), view]:
                self.assertEqual(bytes(index_of(kind)), expected)
            self.assertEqual(data, sample(name), "unchanged")


class Merging(Case):
    def setUp(self):
        self.a = index_of(made(b"007", leads=2), made(b"8"), made(b"00"))
        self.b = index_of(made(b"007", leads=3), made(b"0071"), made(b"007", (2023, 1, 1)), made(b"70"))

    def test_the_entries_of_both(self):
        before = bytes(self.b)
        self.assertEqual(len(self.a), 3)
        self.a.merge(self.b)
        expected = [
            (b"00", 2024, 3, 14, 1),
            (b"007", 2023, 1, 1, 1),
            (b"007", 2024, 3, 14, 2),
            (b"007", 2024, 3, 14, 3),
            (b"0071", 2024, 3, 14, 1),
            (b"70", 2024, 3, 14, 1),
            (b"8", 2024, 3, 14, 1),
        ]
        self.assertEqual((list(self.a), len(self.a)), (expected, 7))
        self.assertEqual(bytes(self.b), before, "unchanged")
        self.b.add(made(b"9"))
        self.assertEqual(len(self.a), 7)

    def test_this_index_comes_first(self):
        self.b.merge(self.a)
        self.assertEqual([entry.leads for entry in self.b.find(b"007")], [1, 3, 2])

    def test_empty_ones(self):
        before = bytes(self.a)
        self.a.merge(Index())
        self.assertEqual(bytes(self.a), before)
        index = Index()
        index.merge(self.a)
        self.assertEqual(bytes(index), before)
        index = Index()
        index.merge(b"")
        self.assertEqual((bytes(index), len(index)), (b"", 0))

    def test_an_index_with_itself(self):
        entries = list(self.a)
        self.a.merge(self.a)
        self.assertEqual(list(self.a), sorted(entries * 2))

    def test_adding_goes_on(self):
        self.a.merge(self.b)
        for number in range(20):
            self.a.add(made(b"\xff" * 63, leads=number + 1))
        self.assertEqual([entry.leads for entry in self.a.find(b"\xff" * 63)], list(range(1, 21)))
        self.assertEqual(len(self.a), 27)

    def test_runs_are_what_is_added_one_by_one(self):
        rng = random.Random(14)
        records = []
        for number in range(40):
            identifier = bytes(rng.choice(b"017") for _ in range(rng.randint(1, 3)))
            records.append(made(identifier, (2024, rng.randint(1, 2), 1), number % 32 + 1))
        expected = bytes(index_of(*records))
        for _ in range(10):
            places = sorted(rng.randint(0, len(records)) for _ in range(4))
            runs = [index_of(*records[i:j]) for i, j in zip([0, *places], [*places, len(records)])]
            while len(runs) > 1:
                at = rng.randrange(len(runs) - 1)
                runs[at].merge(runs.pop(at + 1))
            self.assertEqual(bytes(runs[0]), expected, places)

    def test_an_index_is_given_as_bytes_or_as_it_is(self):
        data = bytes(self.b)
        view = memoryview(b"".join(bytes([byte, 0]) for byte in data))[::2]
        merged = []
        for kind in [self.b, data, bytearray(data), memoryview(data), array("B", data), view]:
            index = Index(bytes(self.a))
            index.merge(kind)
            merged.append(bytes(index))
            self.assertEqual(bytes(kind), data, "unchanged")
        self.assertEqual(set(merged), {merged[0]})

    def test_what_is_no_index(self):
        before, sound = bytes(self.a), bytes(self.b)
        for wrong in [b"\0", sound[:-1], sound[1:], sound + b"\0", bytes(index_of(sample("7"))) + ENTRY, sample("007")]:
            self.refused(Rule.INDEX, self.a.merge, wrong)
        self.assertEqual((bytes(self.a), len(self.a)), (before, 3), "unchanged")
        for wrong in [str(SAMPLES), SAMPLES, 7, None, [ENTRY], tigmavresh.open(sample("007"))]:
            self.assertRaises(TypeError, self.a.merge, wrong)
        self.assertEqual((bytes(self.a), len(self.a)), (before, 3), "unchanged")


class Finding(Case):
    def setUp(self):
        self.index = index_of(made(b"007"), made(b"7"), made(b"0071"), made(b"007", (2023, 1, 1), 2))

    def test_all_and_only_the_entries_of_an_identifier(self):
        self.assertEqual(self.index.find(b"007"), [(b"007", 2023, 1, 1, 2), (b"007", 2024, 3, 14, 1)])
        self.assertEqual(self.index.find(bytearray(b"0071")), [(b"0071", 2024, 3, 14, 1)])
        self.assertEqual(self.index.find(memoryview(b"7")), [(b"7", 2024, 3, 14, 1)])

    def test_identifiers_are_bytes(self):
        for none in [b"", b"0", b"07", b"0070", b"007\0", b" 007", b"007 ", b"8", b"0" * 64]:
            self.assertEqual(self.index.find(none), [], none)
        for wrong in ["007", 7, None, 7.0, [48, 48, 55]]:
            self.assertRaises(TypeError, self.index.find, wrong)

    def test_the_identifier_of_a_record(self):
        field = tigmavresh.open(sample("007")).field(2)
        self.assertEqual(field, b"007\0")
        self.assertEqual(len(self.index.find(field[:-1])), 2)


class Refusing(Case):
    def test_what_is_no_index(self):
        seven = bytes(index_of(sample("7")))
        self.assertEqual(len(Index(ENTRY + ENTRY + seven)), 3)
        for wrong in [
            b"\0",
            ENTRY[:-1],
            ENTRY + b"\0",
            seven + ENTRY,
            b"\0" + ENTRY[1:],
            ENTRY[:6] + b"\0" + ENTRY[7:],
            *(ENTRY[:at] + bytes([byte]) + ENTRY[at + 1 :] for at, byte in [(2, 0xA3), (3, 0x1C), (3, 0xC0), (4, 66), (4, 1)]),
        ]:
            self.refused(Rule.INDEX, Index, wrong)

    def test_records_that_have_no_entry(self):
        index = index_of(sample("7"), sample("007"))
        before = bytes(index)
        for number in range(Rule.LENGTH, Rule.SECTION_1 + 1):
            self.refused(number, index.add, sample(f"refused-{number}"))
        data = sample("limb-leads")
        for at, byte in [(MONTH, 0), (MONTH, 13), (DAY, 0), (DAY, 32)]:
            self.refused(Rule.DATE, index.add, changed(data, 1, at, bytes([byte])))
        for leads in [0, 5, 7, 33]:
            self.refused(Rule.SECTIONS_3_TO_6, index.add, changed(data, 3, 0, bytes([leads])))
        both = changed(changed(data, 1, MONTH, b"\0"), 3, 0, b"\0")
        self.refused(Rule.SECTIONS_3_TO_6, index.add, both)
        self.assertEqual((bytes(index), len(index)), (before, 2), "unchanged")
        index.add(changed(data, 1, MONTH, b"\x0c\x1f"))
        self.assertEqual(list(index)[1:], [(b"007", 2024, 12, 31, 6), (b"7", 2024, 3, 14, 0)])

    def test_only_section_3_is_asked(self):
        for number in [7, 8, 9, 10, 12, 13, 14]:
            self.assertEqual(list(index_of(sample(f"refused-{number}"))), [(b"007", 2024, 3, 14, 2)])

    def test_what_cannot_be_given(self):
        path = SAMPLES / "007.scp"
        for wrong in [str(path), path, 7, None]:
            self.assertRaises(TypeError, Index, wrong)
            with self.assertRaisesRegex(TypeError, "^add takes a record's bytes, not a path or an open file"):
                Index().add(wrong)
        index = index_of(sample("7"))
        self.assertRaises(TypeError, index.add, index)


class Sharing(Case):
    def test_an_index_is_no_view(self):
        buffer = bytearray(ENTRY)
        index = Index(buffer)
        buffer[:] = b""
        shown = iter(index)
        index.add(sample("7"))
        index.add(made(b"0"))
        self.assertEqual([entry.identifier for entry in shown], [b"007"], "as it was when it began")
        self.assertEqual([entry.identifier for entry in index], [b"0", b"007", b"7"])

    def test_threads_share_an_index(self):
        index, numbers = Index(), range(20)
        found: list[int] = []

        def add(thread: int) -> None:
            for number in numbers:
                index.add(made(b"%d-%d" % (thread, number)))
                found.append(len(index.find(b"%d-%d" % (thread, number))))

        threads = [threading.Thread(target=add, args=(thread,)) for thread in range(3)]
        for thread in threads:
            thread.start()
        for thread in threads:
            thread.join()
        expected = sorted(b"%d-%d" % (thread, number) for thread in range(3) for number in numbers)
        self.assertEqual([entry.identifier for entry in index], expected)
        self.assertEqual(found, [1] * len(expected))

    def test_threads_merge_indexes_into_each_other(self):
        one, other = index_of(made(b"1")), index_of(made(b"2"))

        def merge(into: Index, index: Index) -> None:
            for _ in range(5):
                into.merge(index)

        threads = [threading.Thread(target=merge, args=args, daemon=True) for args in [(one, other), (other, one)]]
        for thread in threads:
            thread.start()
        for thread in threads:
            thread.join(60)
            self.assertFalse(thread.is_alive(), "it waits for the other one")
        self.assertEqual({entry.identifier for index in (one, other) for entry in index}, {b"1", b"2"})
