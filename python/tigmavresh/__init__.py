"""Opens, checks and writes SCP-ECG records by the proved library.

    from pathlib import Path
    import tigmavresh

    record = tigmavresh.open(Path("record.scp").read_bytes())
    record.field(2)                 # the patient identifier, byte for byte
    for tag, data in record: ...    # every header field
    lead = record.lead(1)
    lead.nanovolts()                # the voltages: every sample times the step, in 32 bits
    lead.samples, lead.step         # the same apart; 16 bits, as the samples have, are too few for their product
    index = tigmavresh.Index()      # an entry for each record, sorted by identifier and date
    index.add(record)
    index.find(b"007")              # a patient's entries: the dates, and how many leads there are

Whether a record is accepted, and every number answered, is the library's word: this module lends it memory and adds no
judgement of its own. What is refused raises `Refused`, with the number of the rule that is broken.

Bytes that are lent are never changed. What is not `bytes` (a `bytearray`, a `memoryview`, ...) is copied first, so that a
record is what it was when it was opened. Calls may be made from any number of threads, and run side by side.
"""

from ._rules import Rule
from ._version import __version__
from .index import Index, IndexEntry
from .reading import Entry, Field, Lead, Pointer, Record, breaks, crc, open, same_identifier
from .refusal import Refused
from .writing import DEFAULT_TABLE, Coded, NewLead, encode, write

__all__ = [
    "DEFAULT_TABLE",
    "Coded",
    "Entry",
    "Field",
    "Index",
    "IndexEntry",
    "Lead",
    "NewLead",
    "Pointer",
    "Record",
    "Refused",
    "Rule",
    "__version__",
    "breaks",
    "crc",
    "encode",
    "open",
    "same_identifier",
    "write",
]
