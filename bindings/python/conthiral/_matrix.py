"""Matrices of bits in words: which nodes of a graph lead to which."""

from __future__ import annotations

from array import array
from ctypes import c_bool, c_uint64
from typing import Any, Dict, Hashable, Iterable, List, Mapping, Optional, Tuple, TypeVar, Union

from ._bits import Bits
from ._faults import call as _call

Name = TypeVar("Name", bound=Hashable)


def _pointer(words: Any) -> Tuple[Any, int]:
    """Returns the address of words and how many there are."""
    view = memoryview(words)
    if view.itemsize != 8 or not view.c_contiguous:
        raise TypeError("words are one array of 64-bit integers")
    count = view.nbytes // 8
    return (c_uint64 * count).from_buffer(words) if count else None, count


def _rows(words: Any, size: Optional[int]) -> int:
    """Returns the number of rows of a matrix: the length of an array of arrays, if no number is given."""
    shape = memoryview(words).shape or ()
    if size is None and len(shape) != 2:
        raise TypeError("words that aren't an array of rows need a size")
    return shape[0] if size is None else size


def close(words: Any, size: Optional[int] = None) -> bool:
    """Sets bit j of row i wherever a path of one edge or more leads from node i to node j: the transitive closure.
    Returns whether a bit changed; if none did, the relation was transitive.

    The words are a writable NumPy array of ``uint64`` with a row for each node and (size + 63) // 64 words a row,
    or an ``array('Q')`` of these rows one after another, with its ``size``. They aren't copied.

    >>> words = array("Q", [0b010, 0b100, 0])
    >>> close(words, 3), words
    (True, array('Q', [6, 4, 0]))
    """
    changed = c_bool()
    _call("close", *_pointer(words), _rows(words, size), changed)
    return changed.value


def reach(words: Any, size: int, starts: Iterable[int]) -> Bits:
    """Returns the set of some nodes, and of all to which paths of edges lead from them.

    >>> list(reach(array("Q", [0b010, 0b100, 0b000, 0b0001]), 4, [1]).indices())
    [1, 2]
    """
    reached = Bits.of_indices(size, starts)
    turned = array("Q", bytes(len(reached.words) * 8))
    _call("reach", *_pointer(words), size, *_pointer(reached.words), *_pointer(turned))
    return reached


def transpose(words: Any, rows: int, columns: int) -> array[int]:
    """Returns the words of a matrix with rows and columns exchanged.

    >>> transpose(array("Q", [0b011, 0b100]), 2, 3)
    array('Q', [1, 1, 2])
    """
    made = array("Q", bytes(columns * ((rows + 63) // 64) * 8))
    _call("transpose", *_pointer(words), rows, columns, *_pointer(made))
    return made


def product(first: Any, rows: int, inner: int, second: Any, columns: int) -> array[int]:
    """Returns the words of the Boolean product of two matrices, of ``rows`` and of ``inner`` rows: bit j of row i is
    set if the first has bit k of row i and the second bit j of row k, for some k.

    >>> product(array("Q", [0b011, 0b100]), 2, 3, array("Q", [1, 2, 3]), 2)
    array('Q', [3, 3])
    """
    made = array("Q", bytes(rows * ((columns + 63) // 64) * 8))
    _call("product", *_pointer(first), rows, inner, *_pointer(second), columns, *_pointer(made))
    return made


def closure(edges: Union[Mapping[Name, Iterable[Name]], Iterable[Tuple[Name, Name]]]) -> Dict[Name, List[Name]]:
    """Returns for each node those to which a path of one edge or more leads. Edges are a mapping from a node to the
    nodes after it, or pairs. Nodes come in the order in which they are first named.

    >>> closure({"a": ["b"], "b": ["c"], "d": ["d"]})
    {'a': ['b', 'c'], 'b': ['c'], 'c': [], 'd': ['d']}
    >>> closure([(1, 2), (2, 1)])
    {1: [1, 2], 2: [1, 2]}
    """
    lists = list(edges.items()) if isinstance(edges, Mapping) else [(name, [other]) for name, other in edges]
    lists = [(name, list(after)) for name, after in lists]
    numbers: Dict[Name, int] = {}
    for name, after in lists:
        for each in (name, *after):
            numbers.setdefault(each, len(numbers))
    names = list(numbers)
    width = (len(names) + 63) // 64
    words = array("Q", bytes(len(names) * width * 8))
    for name, after in lists:
        for other in after:
            index = numbers[other]
            words[numbers[name] * width + index // 64] |= 1 << index % 64
    close(words, len(names))
    return {name: _named(names, words[at * width : (at + 1) * width]) for at, name in enumerate(names)}


def _named(names: List[Name], row: Iterable[int]) -> List[Name]:
    """Returns the names at the set bits of a row."""
    found = []
    for at, word in enumerate(row):
        while word:
            low = word & -word
            found.append(names[at * 64 + low.bit_length() - 1])
            word ^= low
    return found
