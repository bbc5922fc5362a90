"""Calls of the library, and what is raised when one is refused."""

from __future__ import annotations

from typing import Any

from ._library import LENGTH, LIBRARY, MEMORY, NOT_CANONICAL, RANGE


class LengthError(ValueError):
    """Two lengths that must be the same differ, or words are more or fewer than the bits need."""


class NotCanonicalError(ValueError):
    """A bit past the last one is set in the words."""


_FAULTS = {
    LENGTH: (LengthError, "the lengths differ"),
    RANGE: (IndexError, "an index is past the bits"),
    MEMORY: (MemoryError, "there is no memory for the call"),
    NOT_CANONICAL: (NotCanonicalError, "a bit past the last one is set"),
}


def fault(status: int) -> Exception:
    """Returns what is raised for a status."""
    kind, text = _FAULTS[status]
    return kind(text)


def told(status: int) -> None:
    """Raises what a status says, unless it says that all is well."""
    if status:
        raise fault(status)


def call(name: str, *arguments: Any) -> None:
    """Makes a call of the library, and raises what its status says."""
    told(getattr(LIBRARY, "conthiral_" + name)(*arguments))
