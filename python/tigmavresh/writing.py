"""Writing: a lead coded by its shortest stream, and whole records."""

from __future__ import annotations

import ctypes
from array import array
from typing import Iterable, NamedTuple, Protocol

from ._lending import Bytes, bytes_of, number, samples_of
from ._library import SCP_RECORD_MAX, SCP_SAMPLES_MAX, SCP_STREAM_MAX, SCP_TABLES_MAX, scp
from .refusal import check

DEFAULT_TABLE = (19999).to_bytes(2, "little")
"""Section 2's data for the default table."""

_END_MARK = b"\xff\x00\x00"


class Coded(NamedTuple):
    """A lead that was coded.

    stream: The bytes of the stream.
    bits: How many bits the codes take; the others of the last byte are 0.
    """

    stream: bytes
    bits: int


class NewLead(NamedTuple):
    """A lead to be written. A `Lead` that was read serves as well.

    id: The lead's ID: 1 is lead I, 2 is lead II.
    samples: Whole numbers of 16 bits, -32768 to 32767.
    first: The number of the first sample.
    """

    id: int
    samples: Iterable[int]
    first: int = 1


class _AnyLead(Protocol):
    """What a lead to be written has."""

    @property
    def id(self) -> int: ...
    @property
    def samples(self) -> Iterable[int]: ...
    @property
    def first(self) -> int: ...


def encode(samples: Iterable[int], order: int, section2: Bytes = b"") -> Coded:
    """The shortest stream that is read to these samples, coded by differences of order 0, 1 or 2.

    `section2` is Section 2's data with no spare byte (`DEFAULT_TABLE`, or tables of one's own); empty data mean that there
    is none, and two bytes a value. Refused with the first that applies of 17, 7, 15 and 16.
    """
    values, tables = samples_of(samples), bytes_of(section2)
    work = _work(tables, len(values))
    room = (ctypes.c_uint8 * SCP_STREAM_MAX)()
    coded = scp.scp_encode_lead(
        tables, len(tables), values.tobytes(), len(values), number("order", order, 8), work, len(work), room, len(room)
    )
    check(coded.refusal)
    return Coded(ctypes.string_at(room, coded.bytes), coded.bits)


def write(
    fields: Iterable[tuple[int, Bytes]],
    leads: Iterable[_AnyLead],
    *,
    step: int,
    interval: int,
    order: int,
    section2: Bytes = b"",
    version: int = 13,
    flags: int = 0,
) -> bytes:
    """A record with Sections 0, 1, 2 (if it is given), 3 and 6, each lead by the stream that `encode` gives.

    `fields` are tags with their bytes, as iterating over a `Record` gives them; the end mark is put after them. `step` is in
    nanovolts, `interval` in microseconds; `version` goes into both version bytes of every section, and bit 0 of `flags` is
    written as 0. What is written opens, shows the same fields and is read to the same samples. Refused with the first that
    applies of 17, 6, 7, 15 and 16.
    """
    section1, tables = _section1(fields), bytes_of(section2)
    listed = [
        (number("id", lead.id, 8), number("first", lead.first, 32), samples_of(lead.samples, f"lead at place {place}, "))
        for place, lead in enumerate(leads, 1)
    ]
    ids = bytes(id for id, _, _ in listed)
    firsts = array("I", (first for _, first, _ in listed))
    counts = array("I", (len(samples) for _, _, samples in listed))
    together = b"".join(samples.tobytes() for _, _, samples in listed)
    work = _work(tables, max(counts, default=0))
    room = (ctypes.c_uint8 * SCP_RECORD_MAX)()
    written = scp.scp_write_record(
        section1, len(section1), tables, len(tables),
        number("version", version, 8), number("flags", flags, 8),
        number("step", step, 16), number("interval", interval, 16), number("order", order, 8),
        firsts.tobytes(), len(firsts), counts.tobytes(), len(counts), ids, len(ids), together, len(together) // 2,
        work, len(work), room, len(room),
    )  # fmt: skip
    check(written.refusal)
    return ctypes.string_at(room, written.bytes)


def _section1(fields: Iterable[tuple[int, Bytes]]) -> bytes:
    """Section 1's data: the fields, then the end mark."""
    parts = []
    for tag, data in fields:
        lent = bytes_of(data)
        length = number(f"length of field {tag}", len(lent), 16)
        parts += [bytes([number("tag", tag, 8)]), length.to_bytes(2, "little"), lent]
    return b"".join(parts) + _END_MARK


def _work(tables: bytes, samples: int) -> ctypes.Array[ctypes.c_uint8]:
    """Work space for a search: enough for as many tables as there can be, none without Section 2."""
    return (ctypes.c_uint8 * (min(samples, SCP_SAMPLES_MAX) * SCP_TABLES_MAX if tables else 0))()
