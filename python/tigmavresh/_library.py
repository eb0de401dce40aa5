"""The proved library as ctypes calls it: the bounds, structures and functions of rust/include/scp.h, under its names.

A test holds this file to that header. All lent memory is passed as an address and a length.
"""

from __future__ import annotations

import ctypes
import platform
from ctypes import c_size_t, c_uint8, c_uint16, c_uint32, c_void_p
from pathlib import Path

SCP_POINTERS_MAX = 64
SCP_POINTERS_ROOM = 3 * SCP_POINTERS_MAX
SCP_SAMPLES_MAX = 65536
SCP_LEADS_MAX = 32
SCP_TABLES_MAX = 8
SCP_STREAM_MAX = 65535
SCP_RECORD_MAX = 1048576
SCP_INDEX_ENTRY_MAX = 68


class ScpOpened(ctypes.Structure):
    _fields_ = [("refusal", c_uint8), ("count", c_uint32)]


class ScpPart(ctypes.Structure):
    _fields_ = [("refusal", c_uint8), ("start", c_size_t), ("length", c_size_t)]


class ScpStep(ctypes.Structure):
    _fields_ = [("more", c_uint8), ("tag", c_uint8), ("start", c_size_t), ("length", c_size_t), ("next", c_size_t)]


class ScpLead(ctypes.Structure):
    _fields_ = [
        ("refusal", c_uint8),
        ("id", c_uint8),
        ("flags", c_uint8),
        ("step", c_uint16),
        ("interval", c_uint16),
        ("first", c_uint32),
        ("count", c_uint32),
        ("compared", c_uint32),
    ]


class ScpEntry(ctypes.Structure):
    _fields_ = [
        ("refusal", c_uint8),
        ("id", c_uint8),
        ("flags", c_uint8),
        ("order", c_uint8),
        ("step", c_uint16),
        ("interval", c_uint16),
        ("first", c_uint32),
        ("last", c_uint32),
        ("leads", c_uint32),
        ("bytes", c_uint32),
    ]


class ScpCoded(ctypes.Structure):
    _fields_ = [("refusal", c_uint8), ("bytes", c_uint32), ("bits", c_uint32)]


class ScpWritten(ctypes.Structure):
    _fields_ = [("refusal", c_uint8), ("bytes", c_uint32)]


class ScpIndexed(ctypes.Structure):
    _fields_ = [("refusal", c_uint8), ("used", c_size_t)]


class ScpIndexEntry(ctypes.Structure):
    _fields_ = [
        ("more", c_uint8),
        ("month", c_uint8),
        ("day", c_uint8),
        ("leads", c_uint8),
        ("year", c_uint16),
        ("start", c_size_t),
        ("length", c_size_t),
        ("next", c_size_t),
    ]


# Lent memory: its address, and how many elements there are.
LENT = [c_void_p, c_size_t]

# The answer of each function, and its arguments.
PROTOTYPES = {
    "scp_crc": (c_uint16, LENT),
    "scp_open": (ScpOpened, LENT + [c_void_p]),
    "scp_field": (ScpPart, LENT + [c_uint8, c_size_t]),
    "scp_same_identifier": (c_uint8, LENT + LENT),
    "scp_walk_start": (ScpPart, LENT),
    "scp_walk_step": (ScpStep, LENT + [c_size_t]),
    "scp_read_lead": (ScpLead, LENT + [c_size_t] + LENT + LENT),
    "scp_lead": (ScpEntry, LENT + [c_size_t]),
    "scp_breaks": (c_uint8, LENT + [c_uint8]),
    "scp_encode_lead": (ScpCoded, LENT + LENT + [c_uint8] + LENT + LENT),
    "scp_write_record": (
        ScpWritten,
        LENT + LENT + [c_uint8, c_uint8, c_uint16, c_uint16, c_uint8] + LENT + LENT + LENT + LENT + LENT + LENT,
    ),
    "scp_index_add": (ScpIndexed, LENT + [c_size_t] + LENT),
    "scp_index_find": (ScpPart, LENT + [c_size_t] + LENT),
    "scp_index_step": (ScpIndexEntry, LENT + [c_size_t]),
    "scp_index_merge": (ScpIndexed, LENT + LENT + LENT),
}


def load() -> ctypes.CDLL:
    """The library, each of its functions with its prototype."""
    path = Path(__file__).with_name("libscp.so")
    try:
        library = ctypes.CDLL(str(path))
    except OSError as error:
        raise ImportError(f"the library is for x86-64 Linux, and this is {platform.platform()}: {error}") from error
    for name, (answer, given) in PROTOTYPES.items():
        function = getattr(library, name)
        function.restype, function.argtypes = answer, given
    return library


scp = load()
