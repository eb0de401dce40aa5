"""Reading: a record opened, its header fields, its leads; and the questions that can be asked of any bytes."""

from __future__ import annotations

import ctypes
from array import array
from dataclasses import dataclass
from typing import Iterator, NamedTuple, Union

from ._lending import Bytes, bytes_of, number, record_of, size
from ._library import SCP_POINTERS_ROOM, SCP_SAMPLES_MAX, scp
from .refusal import Refused, check

try:
    import numpy
except ImportError:
    numpy = None  # type: ignore[assignment]

Samples = Union["numpy.ndarray", "array[int]"]

# Where the first field of Section 1 is: just after the section's header.
_FIRST_FIELD = 16

# The bit of the flags that tells of a reference beat.
_BEAT = 1


class Pointer(NamedTuple):
    """A pointer of Section 0, as it is stored.

    id: The section's number.
    length: The section's bytes with its header; 0 if it is absent.
    index: Where its first byte is in the record, counted from 1. Any number if it is absent.
    """

    id: int
    length: int
    index: int


class Field(NamedTuple):
    """A header field of Section 1.

    tag: The field's tag, 0 to 254: 2 is the patient identifier's.
    data: The field's bytes, as they are stored.
    """

    tag: int
    data: bytes


class Entry(NamedTuple):
    """What a record says of a lead, its stream unread.

    id: The lead's ID: 1 is lead I, 2 is lead II.
    first: The number of the first sample.
    last: The number of the last sample.
    step: The nanovolts that a sample of 1 stands for.
    interval: The microseconds between two samples.
    order: The order of the differences that are stored: 0, 1 or 2.
    flags: The flags of Section 3, for all leads; bit 0: a reference beat was subtracted.
    bytes: How many bytes the lead's stream has in Section 6.
    leads: How many leads the record has.
    """

    id: int
    first: int
    last: int
    step: int
    interval: int
    order: int
    flags: int
    bytes: int
    leads: int


@dataclass(frozen=True, eq=False)
class Lead:
    """A lead that was read: every sample as it was before it was coded, a reference beat added back.

    id: The lead's ID: 1 is lead I, 2 is lead II.
    first: The number of the first sample.
    step: The nanovolts that a sample of 1 stands for.
    interval: The microseconds between two samples.
    flags: The flags of Section 3, for all leads; bit 0: a reference beat was subtracted.
    samples: An int16 array of numpy where that is installed, else an `array('h')`. `nanovolts` gives the voltages.
    compared: How many code structures were compared: for each code that was read its structure's place in its table, from 1,
        all of them added up. Switches count, and where a reference beat was subtracted its stream counts too, once. It is 0
        in a record without Section 2, and at most 64 times the bits of the codes.
    """

    id: int
    first: int
    step: int
    interval: int
    flags: int
    samples: Samples
    compared: int

    def nanovolts(self) -> Samples:
        """The voltages, exact: each sample times the step, in 32 bits, which hold every product.

        They are an int32 array of numpy where that is installed, else an `array('i')`; `samples` stay as they are. 16 bits
        are too few: `samples * step` is cut to them by numpy, and repeats an `array`.
        """
        if numpy is None:
            return array("i", (sample * self.step for sample in self.samples))
        return numpy.asarray(self.samples).astype(numpy.int32) * numpy.int32(self.step)

    @property
    def last(self) -> int:
        """The number of the last sample."""
        return self.first + len(self.samples) - 1


class Record:
    """A record that was opened. Iterating over it walks over its header fields, in the order that they stand in.

    pointers: The pointers of Section 0, as they are stored.
    """

    def __init__(self, data: Bytes) -> None:
        self._data = record_of("open", data)
        room = (ctypes.c_uint32 * SCP_POINTERS_ROOM)()
        opened = scp.scp_open(self._data, len(self._data), room)
        check(opened.refusal)
        self.pointers = tuple(Pointer(*room[at : at + 3]) for at in range(0, 3 * opened.count, 3))

    @property
    def data(self) -> bytes:
        """The record's bytes."""
        return self._data

    def __repr__(self) -> str:
        return f"<Record of {len(self._data)} bytes, {len(self.pointers)} pointers>"

    def __iter__(self) -> Iterator[Field]:
        part = scp.scp_walk_start(self._data, len(self._data))
        check(part.refusal)
        section = self._data[part.start : part.start + part.length]
        step = scp.scp_walk_step(section, len(section), _FIRST_FIELD)
        while step.more:
            yield Field(step.tag, section[step.start : step.start + step.length])
            step = scp.scp_walk_step(section, len(section), step.next)

    def field(self, tag: int, occurrence: int = 1) -> bytes:
        """The bytes of one field. Refused with 10 if there is none; tag 255 is the end mark, and no field."""
        part = scp.scp_field(self._data, len(self._data), number("tag", tag, 8), size("occurrence", occurrence))
        check(part.refusal)
        return self._data[part.start : part.start + part.length]

    def fields(self, tag: int) -> list[bytes]:
        """The bytes of every field with this tag, in the order that they stand in; there may be none."""
        tag = number("tag", tag, 8)
        return [field.data for field in self if field.tag == tag]

    def entry(self, place: int) -> Entry:
        """What the record says of the lead at a place, from 1, judged as reading is: refused with 7 to 10."""
        said = scp.scp_lead(self._data, len(self._data), size("place", place))
        check(said.refusal)
        return Entry(*(getattr(said, name) for name in Entry._fields))

    def leads(self) -> list[Entry]:
        """What the record says of each lead, in the order of Section 3; of a record with neither Section 3 nor 6, nothing.

        Refused with 7 to 9, and with 10 if Section 3 is there and Section 6 is not: leads are named, and have no samples.
        """
        try:
            first = self.entry(1)
        except Refused as refused:
            if refused.number == 10 and not self.pointers[3].length and not self.pointers[6].length:
                return []
            raise
        return [first] + [self.entry(place) for place in range(2, first.leads + 1)]

    def lead(self, place: int) -> Lead:
        """The lead at a place, from 1, with all its samples. Refused with 7 to 10 and 12 to 14."""
        place = size("place", place)
        entry = self.entry(place)
        room = (ctypes.c_int16 * (entry.last - entry.first + 1))()
        work = (ctypes.c_int16 * (SCP_SAMPLES_MAX if entry.flags & _BEAT else 0))()
        lead = scp.scp_read_lead(self._data, len(self._data), place, room, len(room), work, len(work))
        check(lead.refusal)
        return Lead(lead.id, lead.first, lead.step, lead.interval, lead.flags, _samples(room), lead.compared)


def _samples(room: ctypes.Array[ctypes.c_int16]) -> Samples:
    """Samples as they are given to the caller."""
    if numpy is None:
        return array("h", bytes(room))
    return numpy.frombuffer(room, dtype=numpy.int16)


def open(data: Bytes) -> Record:
    """Opens a record of its bytes: those of a file are `pathlib.Path(name).read_bytes()`.

    Refused with the smallest of 1 to 6 that applies.
    """
    return Record(data)


def breaks(data: Bytes, row: int) -> bool:
    """Whether bytes break the rule of a row, 1 to 9, asked alone; of any other row, false.

    The answer means its row where the rules of all smaller rows are kept.
    """
    lent = bytes_of(data)
    return bool(scp.scp_breaks(lent, len(lent), number("row", row, 8)))


def crc(data: Bytes) -> int:
    """The check of bytes: CRC-CCITT, preset FFFF, most significant bit first."""
    lent = bytes_of(data)
    return scp.scp_crc(lent, len(lent))


def same_identifier(a: Bytes, b: Bytes) -> bool:
    """Whether two identifiers are the same: whether all their bytes are equal. No number, trimming or folding."""
    lent_a, lent_b = bytes_of(a), bytes_of(b)
    return bool(scp.scp_same_identifier(lent_a, len(lent_a), lent_b, len(lent_b)))
