"""Bits of which each has a byte of its own, and bytes that have eight."""

from __future__ import annotations

import sys
from typing import Any

_TO_DIGITS = b"0" + b"1" * 255
_FROM_DIGITS = bytes.maketrans(b"01", b"\x00\x01")


def packed(each: bytes) -> bytes:
    """Returns bytes of eight bits, the least significant first. A bit is set unless its byte is 0.

    >>> packed(bytes([1, 0, 7]))
    b'\\x05'
    """
    number = int(each.translate(_TO_DIGITS)[::-1] or b"0", 2)
    return number.to_bytes((len(each) + 7) // 8, "little")


def unpacked(data: bytes, bits: int) -> bytes:
    """Returns a byte for each of as many bits: 1 if it is set, and else 0.

    >>> unpacked(b"\\x05", 4)
    b'\\x01\\x00\\x01\\x00'
    """
    digits = format(int.from_bytes(data, "little"), f"0{bits}b") if bits else ""
    return digits[::-1].encode().translate(_FROM_DIGITS)


def packed_array(values: Any) -> Any:
    """Returns the words of an array of NumPy, of which each item is a bit, as such an array; None of anything else."""
    numpy = sys.modules.get("numpy")
    if numpy is None or not isinstance(values, numpy.ndarray) or values.ndim != 1:
        return None
    data = numpy.packbits(values.astype(bool, copy=False), bitorder="little")
    words = numpy.zeros((values.size + 63) // 64, dtype="<u8")
    words.view(numpy.uint8)[: data.size] = data
    return words.astype(numpy.uint64, copy=False)


def unpacked_array(words: Any, bits: int, dtype: Any) -> Any:
    """Returns an array of NumPy with an item for each of the first bits of words."""
    import numpy

    data = numpy.frombuffer(words, dtype=numpy.uint64).astype("<u8", copy=False).view(numpy.uint8)
    each = numpy.unpackbits(data, count=bits, bitorder="little")
    return each.view(bool) if dtype is None else each.astype(dtype, copy=False)
