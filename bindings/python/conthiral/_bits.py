"""Bits over words that the caller may own."""

from __future__ import annotations

from array import array
from bisect import bisect_left
from ctypes import POINTER, c_bool, c_char_p, c_size_t, c_uint8, c_uint64, cast
from itertools import chain
from operator import index as whole
from typing import Any, Callable, Iterable, Iterator, List, Optional, Tuple, Union, overload

from ._faults import call as _call, fault
from ._library import LENGTH, RANGE, overlap
from ._pack import packed, packed_array, unpacked, unpacked_array

# how many indices a call of the library writes at most
_ROOM = 4096
# how many bits a walk over them takes at once
_STEP = 4096


class Bits:
    """A fixed number of bits. Bit i stands in word i // 64, at the place of weight 2 ** (i % 64).

    ``Bits(n)`` has n bits that are unset, and ``Bits("011")`` those of a text. ``Bits.over`` takes words that are
    there, as a NumPy array of ``uint64``, and doesn't copy them.
    """

    __slots__ = ("words", "_bits", "_pointer")

    words: Any

    def __init__(self, bits: Union[int, str] = 0, value: bool = False) -> None:
        """Makes bits of one value, or those of a text.

        >>> Bits(3, True)
        Bits('111')
        >>> Bits("01") | Bits("10")
        Bits('11')
        """
        count = len(bits) if isinstance(bits, str) else whole(bits)
        if count < 0 or isinstance(bits, str) and bits.strip("01"):
            raise ValueError("bits are a number that isn't negative, or a text of 0 and 1")
        self._take(array("Q", [0]) * ((count + 63) // 64), count)
        if isinstance(bits, str):
            self[:] = map(int, bits)
        elif value:
            self.fill(True)

    def _take(self, words: Any, bits: int) -> None:
        """Takes words, and keeps their address."""
        self.words = words
        self._bits = bits
        view = memoryview(words)
        if view.itemsize != 8 or view.ndim != 1 or not view.c_contiguous:
            raise TypeError("words are one array of 64-bit integers")
        count = len(view)
        self._pointer = (c_uint64 * count).from_buffer(view) if count else None

    @classmethod
    def over(cls, words: Any, bits: Optional[int] = None) -> Bits:
        """Returns the bits of words, which aren't copied: what one writes, the other reads. The words are an
        ``array('Q')`` or a writable NumPy array of ``uint64``. Without a number of bits all of them are meant.

        >>> words = array("Q", [5])
        >>> bits = Bits.over(words, 3)
        >>> bits[1] = True
        >>> words
        array('Q', [7])
        """
        new = cls.__new__(cls)
        new._take(words, len(words) * 64 if bits is None else bits)
        _call("check", *new._own())
        return new

    @classmethod
    def of(cls, values: Iterable[Any]) -> Bits:
        """Returns the bits of a list, or of an array of NumPy: those of values that are true are set.

        >>> Bits.of([True, False, True])
        Bits('101')
        """
        words = packed_array(values)
        if words is not None:
            return cls.over(words, len(values))  # type: ignore[arg-type]
        each = values if isinstance(values, (bytes, bytearray)) else bytes(map(bool, values))
        return cls.of_bytes(packed(each), len(each))

    @classmethod
    def of_indices(cls, bits: int, indices: Iterable[int]) -> Bits:
        """Returns bits of which those at some indices are set.

        >>> Bits.of_indices(4, [1, 3])
        Bits('0101')
        """
        new = cls(bits)
        for index in indices:
            new[index] = True
        return new

    @classmethod
    def of_bytes(cls, data: bytes, bits: Optional[int] = None, most_first: bool = False) -> Bits:
        """Returns the bits of bytes, the least significant bit of each first, or the most significant one.

        >>> Bits.of_bytes(b"\\x05", 3)
        Bits('101')
        """
        new = cls(len(data) * 8 if bits is None else bits)
        data = bytes(data)
        _call("from_bytes", *new._own(), cast(c_char_p(data), POINTER(c_uint8)), len(data), most_first)
        return new

    def to_bytes(self, most_first: bool = False) -> bytes:
        """Returns the bytes of the bits. The places of the last one past the last bit are 0.

        >>> Bits.of([True, False, True]).to_bytes()
        b'\\x05'
        """
        count = (self._bits + 7) // 8
        buffer = (c_uint8 * count)()
        _call("to_bytes", *self._own(), buffer, count, most_first)
        return bytes(buffer)

    __bytes__ = to_bytes

    def __array__(self, dtype: Any = None, copy: Optional[bool] = None) -> Any:
        """Returns an array of NumPy with a ``bool`` for each bit."""
        if copy is False:
            raise ValueError("an array of an item for each bit is a copy")
        return unpacked_array(self.words, self._bits, dtype)

    def copy(self) -> Bits:
        """Returns the same bits in words of their own."""
        return self[:]

    __copy__ = copy

    def __reduce__(self) -> Tuple[Callable[..., Bits], Tuple[bytes, int]]:
        return Bits.of_bytes, (self.to_bytes(), self._bits)

    def _own(self) -> Tuple[Any, int, int]:
        return self._pointer, len(self.words), self._bits

    def _both(self, other: Bits) -> Tuple[Any, int, Any, int, int]:
        if self._bits != other._bits:
            raise fault(LENGTH)
        return self._pointer, len(self.words), other._pointer, len(other.words), self._bits

    def _index(self, index: int) -> int:
        at = whole(index)
        at += self._bits if at < 0 else 0
        if not 0 <= at < self._bits:
            raise fault(RANGE)
        return at

    def _range(self, part: slice) -> Tuple[int, int]:
        start, stop, _ = part.indices(self._bits)
        return start, max(start, stop)

    def __len__(self) -> int:
        return self._bits

    @overload
    def __getitem__(self, index: int) -> bool: ...
    @overload
    def __getitem__(self, index: slice) -> Bits: ...

    def __getitem__(self, index: Union[int, slice]) -> Union[bool, Bits]:
        """Returns a bit, or the bits of a range in words of their own.

        >>> Bits("0111")[1:], Bits("0111")[::-2]
        (Bits('111'), Bits('11'))
        """
        if not isinstance(index, slice):
            value = c_bool()
            _call("get", *self._own(), self._index(index), value)
            return value.value
        if index.step not in (None, 1):
            return Bits.of(self._each()[index])
        start, stop = self._range(index)
        new = Bits(stop - start)
        _call("copy", *new._own(), 0, *self._own(), start, stop - start)
        return new

    def __setitem__(self, index: Union[int, slice], value: Union[bool, Bits, Iterable[Any]]) -> None:
        """Writes a bit, one value to the bits of a range, or as many bits over them.

        >>> bits = Bits(5)
        >>> bits[1:3] = True
        >>> bits[::2] = [1, 0, 1]
        >>> bits
        Bits('11001')
        """
        if not isinstance(index, slice):
            _call("set", *self._own(), self._index(index), bool(value), c_bool())
            return
        if not isinstance(value, Bits) and hasattr(value, "__iter__"):
            value = Bits.of(value)
        if index.step not in (None, 1):
            self._set_steps(index, value)
            return
        start, stop = self._range(index)
        if not isinstance(value, Bits):
            _call("set_range", *self._own(), start, stop, bool(value), c_bool())
            return
        if len(value) != stop - start:
            raise fault(LENGTH)
        if overlap(value._pointer, self._pointer):
            value = value.copy()
        _call("copy", *self._own(), start, *value._own(), 0, stop - start)

    def _set_steps(self, steps: slice, value: Any) -> None:
        """Writes the bits at some indices that are a step apart."""
        count = len(range(*steps.indices(self._bits)))
        values = value._each() if isinstance(value, Bits) else bytes([bool(value)]) * count
        if len(values) != count:
            raise fault(LENGTH)
        each = bytearray(self._each())
        each[steps] = values
        self[:] = Bits.of(each)

    def _each(self) -> bytes:
        return unpacked(self.to_bytes(), self._bits)

    def __iter__(self) -> Iterator[bool]:
        for start in range(0, self._bits, _STEP):
            yield from map(bool, self[start : start + _STEP]._each())

    def __contains__(self, value: object) -> bool:
        return value in (False, True) and self.next(0, bool(value)) is not None

    def any(self) -> bool:
        """Returns whether a bit is set."""
        return True in self

    def all(self) -> bool:
        """Returns whether every bit is set.

        >>> Bits("11").all(), Bits("10").all(), Bits("10").any()
        (True, False, True)
        """
        return False not in self

    def __add__(self, other: Bits) -> Bits:
        """Returns these bits, and then another's.

        >>> Bits("01") + Bits("1")
        Bits('011')
        """
        new = Bits(self._bits + other._bits)
        new[: self._bits] = self
        new[self._bits :] = other
        return new

    def __eq__(self, other: object) -> bool:
        if not isinstance(other, Bits):
            return NotImplemented
        if self._bits != other._bits:
            return False
        answer = c_bool()
        _call("equal", *self._both(other), answer)
        return answer.value

    __hash__ = None  # type: ignore[assignment]

    def __repr__(self) -> str:
        text = "".join("1" if bit else "0" for bit in self[:64])
        return f"Bits('{text}')" if self._bits <= 64 else f"<Bits of {self._bits}: {text}..>"

    def fill(self, value: bool) -> None:
        """Makes each bit one value."""
        _call("fill", *self._own(), value)

    def flip(self, index: int) -> bool:
        """Negates a bit, and returns it."""
        value = c_bool()
        _call("flip", *self._own(), self._index(index), value)
        return value.value

    def negate(self, start: int = 0, stop: Optional[int] = None) -> None:
        """Negates each bit, or those of a range."""
        _call("negate_range", *self._own(), *self._range(slice(start, stop)))

    def __invert__(self) -> Bits:
        new = self.copy()
        new.negate()
        return new

    def reverse(self) -> None:
        """Reverses the order of the bits.

        >>> bits = Bits.of([True, False, False])
        >>> bits.reverse()
        >>> bits
        Bits('001')
        """
        _call("reverse", *self._own())

    def rotate(self, n: int) -> None:
        """Rotates the bits to the right, as ``collections.deque`` does: the last n come first.

        >>> bits = Bits.of([True, True, False, False])
        >>> bits.rotate(1)
        >>> bits
        Bits('0110')
        """
        _call("rotate_up" if n >= 0 else "rotate_down", *self._own(), abs(n))

    def shift(self, n: int) -> None:
        """Moves each bit n indices up, or down if n is negative. Bits that come in are unset."""
        _call("shift_up" if n >= 0 else "shift_down", *self._own(), abs(n))

    def _combine(self, name: str, other: Bits) -> bool:
        changed = c_bool()
        if not isinstance(other, Bits):
            raise TypeError(f"Bits are combined with Bits, not with {type(other).__name__}")
        if overlap(self._pointer, other._pointer):
            other = other.copy()
        _call(name, *self._both(other), changed)
        return changed.value

    def intersect(self, other: Bits) -> bool:
        """Keeps the bits that another has too. Returns whether one changed."""
        return self._combine("and", other)

    def unite(self, other: Bits) -> bool:
        """Adds the bits that another has. Returns whether one changed.

        >>> bits = Bits.of([True, False])
        >>> bits.unite(Bits.of([False, True])), bits.unite(Bits.of([False, True]))
        (True, False)
        """
        return self._combine("or", other)

    def subtract(self, other: Bits) -> bool:
        """Removes the bits that another has. Returns whether one changed."""
        return self._combine("and_not", other)

    def differ(self, other: Bits) -> bool:
        """Keeps the bits that exactly one has. Returns whether one changed."""
        return self._combine("xor", other)

    def unite_both(self, first: Bits, second: Bits) -> bool:
        """Adds the bits that two others both have. Returns whether one changed."""
        self._both(second)
        changed = c_bool()
        others = [bits.copy() if overlap(bits._pointer, self._pointer) else bits for bits in (first, second)]
        _call("or_and", *self._both(others[0])[:4], others[1]._pointer, len(others[1].words), self._bits, changed)
        return changed.value

    def __iand__(self, other: Bits) -> Bits:
        self.intersect(other)
        return self

    def __ior__(self, other: Bits) -> Bits:
        self.unite(other)
        return self

    def __ixor__(self, other: Bits) -> Bits:
        self.differ(other)
        return self

    def __isub__(self, other: Bits) -> Bits:
        self.subtract(other)
        return self

    def __and__(self, other: Bits) -> Bits:
        new = self.copy()
        new &= other
        return new

    def __or__(self, other: Bits) -> Bits:
        new = self.copy()
        new |= other
        return new

    def __xor__(self, other: Bits) -> Bits:
        new = self.copy()
        new ^= other
        return new

    def __sub__(self, other: Bits) -> Bits:
        new = self.copy()
        new -= other
        return new

    def issubset(self, other: Bits) -> bool:
        """Returns whether another has each bit that is set."""
        answer = c_bool()
        _call("is_subset", *self._both(other), answer)
        return answer.value

    def isdisjoint(self, other: Bits) -> bool:
        """Returns whether no bit is set in both."""
        answer = c_bool()
        _call("is_disjoint", *self._both(other), answer)
        return answer.value

    def _count(self, name: str, other: Bits) -> int:
        number = c_size_t()
        _call(name, *self._both(other), number)
        return number.value

    def count_and(self, other: Bits) -> int:
        """Returns how many bits are set in both: ``(self & other).count()`` without a copy.

        >>> Bits.of([True, True, False]).count_and(Bits.of([True, False, True]))
        1
        """
        return self._count("count_and", other)

    def count_or(self, other: Bits) -> int:
        """Returns how many bits are set in either."""
        return self._count("count_or", other)

    def count_xor(self, other: Bits) -> int:
        """Returns how many bits are set in exactly one."""
        return self._count("count_xor", other)

    def count_and_not(self, other: Bits) -> int:
        """Returns how many bits are set here and not in another."""
        return self._count("count_and_not", other)

    def first_difference(self, other: Bits) -> Optional[int]:
        """Returns the first index that both have at which they differ, if there is one."""
        index = c_size_t()
        _call("first_difference", *self._own(), *other._own(), index)
        return index.value if index.value < min(self._bits, other._bits) else None

    def _found(self, name: str, *arguments: Any) -> Optional[int]:
        index = c_size_t()
        _call(name, *arguments, index)
        return index.value if index.value < self._bits else None

    def count(self, start: int = 0, stop: Optional[int] = None) -> int:
        """Returns how many bits are set, of a range if one is given.

        >>> Bits.of([True, False, True, True]).count(1, 3)
        1
        """
        first, last = self._range(slice(start, stop))
        if first == 0 and last == self._bits:
            number = c_size_t()
            _call("count_ones", *self._own(), number)
            return number.value
        return self.rank(last) - self.rank(first)

    def rank(self, index: int) -> int:
        """Returns how many bits below an index are set."""
        number = c_size_t()
        _call("rank", *self._own(), index, number)
        return number.value

    def select(self, rank: int) -> Optional[int]:
        """Returns the index of the set bit below which ``rank`` bits are set, if there is one.

        >>> Bits.of([False, True, False, True]).select(1)
        3
        """
        return self._found("select", *self._own(), rank)

    def next(self, start: int = 0, value: bool = True) -> Optional[int]:
        """Returns the first index from one on whose bit has a value, if there is one."""
        return self._found("next", *self._own(), value, start)

    def previous(self, last: int, value: bool = True) -> Optional[int]:
        """Returns the last index up to one whose bit has a value, if there is one."""
        return self._found("previous", *self._own(), value, last)

    def first_unset_run(self, count: int) -> Optional[int]:
        """Returns the first index from which on so many bits are unset, if there is one.

        >>> Bits.of([True, False, True, False, False]).first_unset_run(2)
        3
        """
        if count < 1:
            raise ValueError("a run has a bit")
        return self._found("first_unset_run", *self._own(), count)

    def indices(self, start: int = 0, stop: Optional[int] = None, value: bool = True) -> Iterator[int]:
        """Returns the indices of bits of a value, the lowest first, of a range if one is given.

        >>> list(Bits.of([True, False, True]).indices())
        [0, 2]
        """
        return chain.from_iterable(self._blocks_of_indices(start, stop, value))

    def _blocks_of_indices(self, start: int, stop: Optional[int], value: bool) -> Iterator[List[int]]:
        first, last = self._range(slice(start, stop))
        found = (c_size_t * _ROOM)()
        count = c_size_t()
        while first < last:
            _call("indices", *self._own(), value, first, found, _ROOM, count)
            block = found[: count.value]
            yield block[: bisect_left(block, last)]
            first = found[_ROOM - 1] + 1 if count.value == _ROOM else last
