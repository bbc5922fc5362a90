"""Finds libconthiral.so, and declares the calls of conthiral.h that are used here."""

from __future__ import annotations

import ctypes
import ctypes.util
import os
from ctypes import POINTER, c_bool, c_size_t, c_uint8, c_uint64
from typing import Any

OK, LENGTH, RANGE, MEMORY, NOT_CANONICAL = range(5)

_WORDS = [POINTER(c_uint64), c_size_t]
_OWN = _WORDS + [c_size_t]
_BOTH = _WORDS + _WORDS + [c_size_t]
_THREE = _WORDS + _WORDS + _WORDS + [c_size_t]
_BYTES = [POINTER(c_uint8), c_size_t]
_FLAG = [POINTER(c_bool)]
_INDEX = [POINTER(c_size_t)]

_CALLS = {
    "check": _OWN,
    "mask": _OWN,
    "fill": _OWN + [c_bool],
    "negate": _OWN,
    "set_range": _OWN + [c_size_t, c_size_t, c_bool] + _FLAG,
    "negate_range": _OWN + [c_size_t, c_size_t],
    "move": _OWN + [c_size_t, c_size_t, c_size_t],
    "copy": _OWN + [c_size_t] + _OWN + [c_size_t, c_size_t],
    "shift_up": _OWN + [c_size_t],
    "shift_down": _OWN + [c_size_t],
    "reverse": _OWN,
    "rotate_down": _OWN + [c_size_t],
    "rotate_up": _OWN + [c_size_t],
    "and": _BOTH + _FLAG,
    "or": _BOTH + _FLAG,
    "xor": _BOTH + _FLAG,
    "and_not": _BOTH + _FLAG,
    "or_and": _THREE + _FLAG,
    "or_and_not": _THREE + _FLAG,
    "is_subset": _BOTH + _FLAG,
    "is_disjoint": _BOTH + _FLAG,
    "equal": _BOTH + _FLAG,
    "first_difference": _OWN + _OWN + _INDEX,
    "get": _OWN + [c_size_t] + _FLAG,
    "set": _OWN + [c_size_t, c_bool] + _FLAG,
    "flip": _OWN + [c_size_t] + _FLAG,
    "count_ones": _OWN + _INDEX,
    "count_and": _BOTH + _INDEX,
    "count_or": _BOTH + _INDEX,
    "count_xor": _BOTH + _INDEX,
    "count_and_not": _BOTH + _INDEX,
    "rank": _OWN + [c_size_t] + _INDEX,
    "select": _OWN + [c_size_t] + _INDEX,
    "next": _OWN + [c_bool, c_size_t] + _INDEX,
    "previous": _OWN + [c_bool, c_size_t] + _INDEX,
    "first_unset_run": _OWN + [c_size_t] + _INDEX,
    "indices": _OWN + [c_bool, c_size_t] + _INDEX + [c_size_t] + _INDEX,
    "from_bytes": _OWN + _BYTES + [c_bool],
    "to_bytes": _OWN + _BYTES + [c_bool],
    "close": _OWN + _FLAG,
    "reach": _OWN + _WORDS + _WORDS,
    "transpose": _OWN + [c_size_t] + _WORDS,
    "product": _OWN + [c_size_t] + _OWN + _WORDS,
}


def _load() -> ctypes.CDLL:
    """Returns the library that CONTHIRAL_LIBRARY names, or one beside this file, or the system's."""
    beside = os.path.join(os.path.dirname(os.path.abspath(__file__)), "libconthiral.so")
    places = [os.environ.get("CONTHIRAL_LIBRARY"), beside if os.path.exists(beside) else None]
    place = next(filter(None, places), None) or ctypes.util.find_library("conthiral") or "libconthiral.so"
    try:
        return ctypes.CDLL(place)
    except OSError as error:
        raise ImportError(f"libconthiral.so isn't found: set CONTHIRAL_LIBRARY to its file ({error})") from error


LIBRARY = _load()
for _name, _types in _CALLS.items():
    _call = getattr(LIBRARY, "conthiral_" + _name)
    _call.argtypes = _types
    _call.restype = c_uint8


def overlap(one: Any, other: Any) -> bool:
    """Returns whether two arrays of ctypes, or None for an empty one, have a byte in common."""
    if one is None or other is None:
        return False
    first, second = ctypes.addressof(one), ctypes.addressof(other)
    return first < second + ctypes.sizeof(other) and second < first + ctypes.sizeof(one)
