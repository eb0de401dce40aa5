"""The index: an entry for each record, sorted by identifier and then by date."""

from __future__ import annotations

import ctypes
import threading
from typing import Iterator, NamedTuple, Optional, Union

from ._lending import Bytes, bytes_of, record_of
from ._library import SCP_INDEX_ENTRY_MAX, scp
from .reading import Record
from .refusal import check

# No entry has it: an identifier has 1 to 63 bytes.
_NO_IDENTIFIER = b""


class IndexEntry(NamedTuple):
    """An entry of an index: what it says of a record.

    identifier: The patient identifier's bytes, without its NUL.
    year: The year of the date, tag 25.
    month: The month, 1 to 12.
    day: The day, 1 to 31.
    leads: How many leads the record has; 0 if it has no Section 3.
    """

    identifier: bytes
    year: int
    month: int
    day: int
    leads: int


class Index:
    """An index of records, empty or of the bytes that `bytes` gave of an index. Other bytes are refused with 26.

    Entries are sorted by the identifier's bytes, a shorter one before a longer one that begins with it, then by date; equal
    ones are in order of arrival. Iterating over an index shows them as they were when that began, and `len` counts them.

    Adding, merging and finding judge all of it, and take longer the more entries there are. For many records, add them to
    several indexes and merge these. Threads may share an index: it takes their calls one after another.
    """

    def __init__(self, data: Bytes = b"") -> None:
        lent = bytes_of(data)
        self._lock = threading.Lock()
        self._used = len(lent)
        self._room = ctypes.create_string_buffer(lent, len(lent) + SCP_INDEX_ENTRY_MAX)
        self._count: Optional[int] = None
        self._part(_NO_IDENTIFIER)  # refused if this is no index

    def __repr__(self) -> str:
        return f"<Index of {self._used} bytes>"

    def __bytes__(self) -> bytes:
        """The index's bytes, as they can be kept in a file."""
        with self._lock:
            return ctypes.string_at(self._room, self._used)

    def __iter__(self) -> Iterator[IndexEntry]:
        return _entries(bytes(self))

    def __len__(self) -> int:
        with self._lock:
            if self._count is None:
                self._count = sum(1 for _ in _entries(ctypes.string_at(self._room, self._used)))
            return self._count

    def add(self, record: Union[Record, Bytes]) -> None:
        """Adds a record, or its bytes: the entry comes behind all that are not greater.

        Refused with the first that applies of 1 to 6, 8 for Section 3, and 24; the index is then as it was.
        """
        lent = record.data if isinstance(record, Record) else record_of("add", record)
        with self._lock:
            self._grow()
            indexed = scp.scp_index_add(self._room, len(self._room), self._used, lent, len(lent))
            check(indexed.refusal)
            self._used = indexed.used
            if self._count is not None:
                self._count += 1

    def merge(self, other: Union[Index, Bytes]) -> None:
        """Merges another index, or the bytes of one, into this one: of equal entries, those of this index come first.

        This index is then as if the other's records had been added to it. The other one stays as it is. Bytes that are no index
        are refused with 26; this index is then as it was.
        """
        lent = bytes(other) if isinstance(other, Index) else bytes_of(other)
        with self._lock:
            room = ctypes.create_string_buffer(self._used + len(lent) + SCP_INDEX_ENTRY_MAX)
            indexed = scp.scp_index_merge(self._room, self._used, lent, len(lent), room, len(room))
            check(indexed.refusal)
            self._room, self._used, self._count = room, indexed.used, None

    def find(self, identifier: Bytes) -> list[IndexEntry]:
        """All entries of an identifier and no others, in their order; there may be none.

        It is given without its NUL, as entries have it (`record.field(2)[:-1]`), and is the same where all its bytes are
        equal: no number, trimming or folding.
        """
        return list(_entries(self._part(bytes_of(identifier))))

    def _part(self, identifier: bytes) -> bytes:
        """The part of the index that holds the entries of an identifier."""
        with self._lock:
            part = scp.scp_index_find(self._room, len(self._room), self._used, identifier, len(identifier))
            check(part.refusal)
            return ctypes.string_at(ctypes.addressof(self._room) + part.start, part.length)

    def _grow(self) -> None:
        """Makes room for one more entry; where there is none the room is doubled, so that it is seldom made."""
        if len(self._room) - self._used < SCP_INDEX_ENTRY_MAX:
            room = ctypes.create_string_buffer(2 * self._used + SCP_INDEX_ENTRY_MAX)
            ctypes.memmove(room, self._room, self._used)
            self._room = room


def _entries(index: bytes) -> Iterator[IndexEntry]:
    """The entries of an index, or of a part of one."""
    step = scp.scp_index_step(index, len(index), 0)
    while step.more:
        identifier = index[step.start : step.start + step.length]
        yield IndexEntry(identifier, step.year, step.month, step.day, step.leads)
        step = scp.scp_index_step(index, len(index), step.next)
