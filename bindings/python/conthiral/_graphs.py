"""Graphs: dominators, strong components, live variables, and sets that draw from one another."""

from __future__ import annotations

from array import array
from ctypes import POINTER, c_bool, c_size_t, c_uint8, c_uint64
from itertools import accumulate, chain
from typing import Any, Dict, Generic, Hashable, Iterable, List, Mapping, Optional, Tuple, TypeVar, Union

from ._faults import call
from ._library import LIBRARY
from ._matrix import _named as named

Name = TypeVar("Name", bound=Hashable)
Item = TypeVar("Item", bound=Hashable)
Edges = Union[Mapping[Name, Iterable[Name]], Iterable[Tuple[Name, Name]]]
Sets = Mapping[Name, Iterable[Item]]

_NUMBERS = [POINTER(c_size_t), c_size_t]
_GRAPH = _NUMBERS + _NUMBERS
_ROWS = [POINTER(c_uint64), c_size_t]
_CALLS = {
    "dominators": _GRAPH + [c_size_t] + _NUMBERS,
    "components": _GRAPH + _NUMBERS + [POINTER(c_size_t)],
    "liveness": _GRAPH + [c_size_t] + _ROWS * 4,
    "least": _GRAPH + [c_size_t] + _ROWS + [c_bool] + _ROWS,
    "greatest": _GRAPH + [c_size_t, c_size_t] + _ROWS + [c_bool] + _ROWS,
}
for _name, _types in _CALLS.items():
    _function = getattr(LIBRARY, "conthiral_" + _name)
    _function.argtypes = _types
    _function.restype = c_uint8


def _numbers(items: array[int]) -> Tuple[Any, int]:
    """Returns the address of numbers and how many there are."""
    return (c_size_t * len(items)).from_buffer(items) if items else None, len(items)


def _words(items: array[int]) -> Tuple[Any, int]:
    """Returns the address of words and how many there are."""
    return (c_uint64 * len(items)).from_buffer(items) if items else None, len(items)


class _Graph(Generic[Name]):
    """The arrays of a graph, and its nodes in the order in which they are first named."""

    def __init__(self, edges: Edges[Name], first: Iterable[Name] = (), last: Iterable[Name] = ()) -> None:
        given = edges.items() if isinstance(edges, Mapping) else ((name, (other,)) for name, other in edges)
        lists = [(name, tuple(others)) for name, others in given]
        named = chain(first, chain.from_iterable((name, *others) for name, others in lists), last)
        self.numbers = {name: at for at, name in enumerate(dict.fromkeys(named))}
        after: List[List[int]] = [[] for _ in self.numbers]
        for name, others in lists:
            after[self.numbers[name]] += map(self.numbers.__getitem__, others)
        self.names = list(self.numbers)
        self.offsets = array("Q", accumulate(map(len, after), initial=0))
        self.ends = array("Q", chain.from_iterable(after))

    def arrays(self) -> Tuple[Any, ...]:
        return (*_numbers(self.offsets), *_numbers(self.ends))


def dominators(edges: Edges[Name], entry: Name) -> Dict[Name, Optional[Name]]:
    """Returns the immediate dominator of each node to which a path leads from the entry: the nearest of the nodes, but
    itself, that every such path passes. The entry has none. Edges are a mapping from a node to the nodes after it, or
    pairs.

    >>> dominators({"in": ["left", "right"], "left": ["out"], "right": ["out"], "lost": ["out"]}, "in")
    {'in': None, 'left': 'in', 'right': 'in', 'out': 'in'}
    """
    graph = _Graph(edges, [entry])
    immediate = array("Q", bytes(len(graph.names) * 8))
    call("dominators", *graph.arrays(), 0, *_numbers(immediate))
    found: Dict[Name, Optional[Name]] = {entry: None}
    for name, at in zip(graph.names, immediate):
        if at < len(graph.names):
            found[name] = graph.names[at]
    return found


def components(edges: Edges[Name]) -> List[List[Name]]:
    """Returns the strong components of a graph: two nodes are in one exactly if paths lead from each to the other. A
    component comes after those to which its edges lead.

    >>> components({"main": ["read"], "read": ["parse"], "parse": ["read", "error"]})
    [['error'], ['read', 'parse'], ['main']]
    """
    graph = _Graph(edges)
    component = array("Q", bytes(len(graph.names) * 8))
    count = c_size_t()
    call("components", *graph.arrays(), *_numbers(component), count)
    found: List[List[Name]] = [[] for _ in range(count.value)]
    for name, at in zip(graph.names, component):
        found[at].append(name)
    return found


class _Rows(Generic[Name, Item]):
    """Rows of bits for the nodes of a graph, and what they have in all, in the order in which it is first named."""

    def __init__(self, graph: _Graph[Name], *sides: Sets[Name, Item]) -> None:
        lists = [[list(side.get(name, ())) for name in graph.names] for side in sides]
        numbers = {item: at for at, item in enumerate(dict.fromkeys(chain.from_iterable(chain(*lists))))}
        self.names = graph.names
        self.items = list(numbers)
        self.width = (len(numbers) + 63) // 64
        self.sides = [self.empty() for _ in sides]
        for words, side in zip(self.sides, lists):
            for row, items in enumerate(side):
                for at in map(numbers.__getitem__, items):
                    words[row * self.width + at // 64] |= 1 << at % 64

    def empty(self) -> array[int]:
        return array("Q", bytes(len(self.names) * self.width * 8))

    def named(self, words: array[int]) -> Dict[Name, List[Item]]:
        """Returns what each row has, by the name of its node."""
        width = self.width
        return {name: named(self.items, words[at * width : (at + 1) * width]) for at, name in enumerate(self.names)}


def liveness(
    edges: Edges[Name], reads: Sets[Name, Item], writes: Sets[Name, Item]
) -> Tuple[Dict[Name, List[Item]], Dict[Name, List[Item]]]:
    """Returns the variables that are live before each node, and those that are live after it. One is live before a
    node that reads it, or that doesn't write it while it is live after the node; it is live after a node if it is live
    before one to which an edge leads.

    >>> before, after = liveness([(1, 2), (2, 2), (2, 3)], {2: ["i"], 3: ["sum"]}, {1: ["i", "sum"], 2: ["sum"]})
    >>> before
    {1: [], 2: ['i'], 3: ['sum']}
    >>> after
    {1: ['i'], 2: ['i', 'sum'], 3: []}
    """
    graph = _Graph(edges, last=[*reads, *writes])
    rows = _Rows(graph, reads, writes)
    before, after = rows.empty(), rows.empty()
    words = [part for side in (*rows.sides, before, after) for part in _words(side)]
    call("liveness", *graph.arrays(), len(rows.items), *words)
    return rows.named(before), rows.named(after)


def least(
    edges: Edges[Name],
    sets: Sets[Name, Item],
    masks: Optional[Sets[Name, Item]] = None,
    keep: bool = False,
) -> Dict[Name, List[Item]]:
    """Returns the least sets that have what they start with, and what they draw. The set of a node draws from those of
    the nodes to which its edges lead. It draws what its mask doesn't have, or with ``keep`` what it has.

    Definitions reach the end of a node that makes them, or that draws them from a node before it and keeps them:

    >>> before = {"loop": ["start", "loop"], "end": ["loop"]}
    >>> least(before, {"start": ["i = 0"], "loop": ["i += 1"]}, {"loop": ["i = 0"]})
    {'loop': ['i += 1'], 'start': ['i = 0'], 'end': ['i += 1']}
    """
    graph = _Graph(edges, last=[*sets, *(masks or ())])
    rows = _Rows(graph, sets, masks or {})
    call("least", *graph.arrays(), len(rows.items), *_words(rows.sides[1]), keep, *_words(rows.sides[0]))
    return rows.named(rows.sides[0])


def greatest(
    edges: Edges[Name],
    sets: Sets[Name, Item],
    masks: Optional[Sets[Name, Item]] = None,
    keep: bool = False,
    entry: Optional[Name] = None,
) -> Dict[Name, List[Item]]:
    """Returns the greatest sets that have what they start with, and what they draw: what all sets have from which the
    set of a node draws, as for :func:`least`. One that draws from none draws all that is named in sets and masks. The
    set of the entry draws nothing.

    Expressions are available after a node that finds them, or if they are so after all nodes before it:

    >>> before = {"left": ["start"], "right": ["start"], "end": ["left", "right"]}
    >>> greatest(before, {"start": ["a + b"], "right": ["a * b"]}, entry="start")
    {'left': ['a + b'], 'start': ['a + b'], 'right': ['a + b', 'a * b'], 'end': ['a + b']}
    """
    graph = _Graph(edges, last=[*sets, *(masks or ())])
    rows = _Rows(graph, sets, masks or {})
    at = len(graph.names) if entry is None else graph.numbers.get(entry, len(graph.names))
    call("greatest", *graph.arrays(), at, len(rows.items), *_words(rows.sides[1]), keep, *_words(rows.sides[0]))
    return rows.named(rows.sides[0])
