"""What a caller gives, as the library can be lent it.

ctypes would cut a number to its width in silence, and would let another thread change a buffer during a call. So numbers are
held to their width here, and what is lent to be read is always `bytes`, which nobody changes.
"""

from __future__ import annotations

import operator
from array import array
from typing import Any, Iterable, Union

Bytes = Union[bytes, bytearray, memoryview]


def bytes_of(data: Bytes) -> bytes:
    """The bytes of a bytes-like object as they are now: a copy, unless they are `bytes`."""
    if isinstance(data, bytes):
        return data
    with memoryview(data) as view:
        return view.tobytes()


def record_of(call: str, data: Bytes) -> bytes:
    """The bytes of a record that a call is given, as `bytes_of` has them."""
    try:
        return bytes_of(data)
    except TypeError:
        raise TypeError(
            f"{call} takes a record's bytes, not a path or an open file, and this is {type(data).__name__}: "
            "pathlib.Path(name).read_bytes() gives a file's bytes"
        ) from None


def number(name: str, value: Any, bits: int) -> int:
    """A whole number that fits this many bits."""
    value = operator.index(value)
    if not 0 <= value < 1 << bits:
        raise OverflowError(f"{name}: {value} is outside 0 to {(1 << bits) - 1}")
    return value


def size(name: str, value: Any) -> int:
    """A whole number that C's size_t can have."""
    return number(name, value, 64)


def samples_of(samples: Iterable[int], of: str = "") -> array[int]:
    """Samples of 16 bits, from an array of numpy or of the module `array`, a list, or any other whole numbers.

    A sample that does not fit is named by its place, from 1, after the words on what it is of.
    """
    if isinstance(samples, (bytes, bytearray)):
        raise TypeError("samples are whole numbers, not bytes")
    try:
        view = memoryview(samples)  # type: ignore[arg-type]
    except TypeError:
        view = None
    if view is not None and view.format == "h" and view.ndim == 1:
        return array("h", view.tobytes())
    values = list(samples)
    try:
        return array("h", values)
    except OverflowError:
        for place, value in enumerate(map(operator.index, values), 1):
            if not -32768 <= value <= 32767:
                raise OverflowError(f"{of}sample at place {place}: {value} is outside -32768 to 32767") from None
        raise
