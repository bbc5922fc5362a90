"""Tables of parsers, from grammars as yacc and bison read them, and parsing by them."""

from __future__ import annotations

from array import array
from ctypes import POINTER, c_char_p, c_size_t, c_uint8
from sys import maxsize
from typing import Any, Dict, Iterable, List, NamedTuple, Tuple, Union

from ._faults import told
from ._library import LENGTH, LIBRARY

_TEXT, _TOKEN = 5, 6
_NUMBER = [POINTER(c_size_t)]
_NUMBERS = _NUMBER + [c_size_t]
_GRAMMAR = [c_char_p, c_size_t]
_CALLS = {
    "table_sizes": _GRAMMAR + _NUMBERS + _NUMBER * 2,
    "table": _GRAMMAR + _NUMBERS * 6 + _NUMBER,
    "table_names": _GRAMMAR + _NUMBERS + [POINTER(c_uint8), c_size_t],
    "parse": [c_size_t] + _NUMBERS * 7 + _NUMBER * 2,
}
for _name, _types in _CALLS.items():
    _function = getattr(LIBRARY, "conthiral_" + _name)
    _function.argtypes = _types
    _function.restype = c_uint8


class GrammarError(ValueError):
    """A text is no grammar. ``line`` and ``column`` say where, counted from 1; a column is a byte of its line."""

    def __init__(self, line: int, column: int) -> None:
        super().__init__(f"line {line}, column {column}: no grammar goes on so")
        self.line, self.column = line, column


class ParseError(ValueError):
    """A parser doesn't take a token. ``at`` is its index, or the number of tokens if it is the end."""

    def __init__(self, at: int, name: str) -> None:
        super().__init__(f"token {at}, {name}, doesn't fit")
        self.at, self.name = at, name


class Rule(NamedTuple):
    """A rule of a grammar: the name of its left side, and those on its right side."""

    left: str
    right: Tuple[str, ...]


class Node(NamedTuple):
    """A node of a tree: the rule that made it, and below it a node for each nonterminal, the index of each token."""

    rule: Rule
    below: List[Union["Node", int]]


def _zeros(count: int) -> array[int]:
    return array("Q", bytes(count * 8))


def _numbers(items: array[int]) -> Tuple[Any, int]:
    """Returns the address of numbers and how many there are."""
    return (c_size_t * len(items)).from_buffer(items) if items else None, len(items)


class Table:
    """The table of an LALR(1) parser, from the text of a grammar as yacc and bison read it.

    >>> table = Table("%left '+'  %left '*'  %% e: e '+' e | e '*' e | 'n';")
    >>> table.parse("n + n * n".split())
    [3, 3, 3, 2, 1]
    >>> table.rules[2]
    Rule(left='e', right=('e', "'*'", 'e'))
    """

    terminals: List[str]
    nonterminals: List[str]
    rules: List[Rule]

    def __init__(self, grammar: Union[str, bytes]) -> None:
        text = grammar.encode() if isinstance(grammar, str) else grammar
        sizes, line, column = _zeros(9), c_size_t(), c_size_t()
        status = LIBRARY.conthiral_table_sizes(text, len(text), *_numbers(sizes), line, column)
        if status == _TEXT:
            raise GrammarError(line.value, column.value)
        told(status)
        terminals, nonterminals, states, entries, rules, symbols, name_bytes, self._base, self._each = sizes
        left, lengths, right = _zeros(rules), _zeros(rules), _zeros(symbols)
        self._count = terminals
        self._arrays = [_zeros(states + 1), _zeros(entries), _zeros(entries), left, lengths]
        pairs = [pair for each in (*self._arrays, right) for pair in _numbers(each)]
        told(LIBRARY.conthiral_table(text, len(text), *pairs, c_size_t()))
        names = self._names(text, terminals + nonterminals, name_bytes)
        self.terminals, self.nonterminals = names[:terminals], names[terminals:]
        self.rules, self._right, at = [], [], 0
        for symbol, length in zip(left, lengths):
            self._right.append(right[at : at + length])
            self.rules.append(Rule(names[symbol], tuple(names[each] for each in self._right[-1])))
            at += length
        self._numbers = self._by_name()

    def _names(self, text: bytes, symbols: int, count: int) -> List[str]:
        """Returns the names of all symbols."""
        offsets, names = _zeros(symbols + 1), (c_uint8 * max(count, 1))()
        told(LIBRARY.conthiral_table_names(text, len(text), *_numbers(offsets), names, count))
        data = bytes(names)
        return [data[start:end].decode(errors="replace") for start, end in zip(offsets, offsets[1:])]

    def _by_name(self) -> Dict[str, int]:
        """Returns the number of each terminal by its name, and by the text of it that is in quotes."""
        numbers = {name[1:-1]: at for at, name in enumerate(self.terminals) if at and name[:1] in ("'", '"')}
        numbers.update((name, at) for at, name in enumerate(self.terminals) if at)
        return numbers

    def _tokens(self, tokens: Iterable[str]) -> array[int]:
        """Returns the numbers of tokens. Raises KeyError of the first that names no terminal."""
        return array("Q", map(self._numbers.__getitem__, tokens))

    def parse(self, tokens: Iterable[str]) -> List[int]:
        """Returns the rules by which a parser reduces tokens, in their order: read backwards, they are the rightmost
        derivation. A token is the name of a terminal, or the text in its quotes. Raises :class:`ParseError` of the
        first that doesn't fit, KeyError of one that is no terminal, and OverflowError if the parser makes more
        reductions than suffice for a sentence, as it may by a grammar with a cycle.

        >>> table = Table("%% list: %empty | list 'x';")
        >>> table.parse(["x", "x"])
        [1, 2, 2]
        >>> table.parse(["x", "error"])
        Traceback (most recent call last):
        conthiral._tables.ParseError: token 1, error, doesn't fit
        """
        return self._reductions(self._tokens(tokens)).tolist()

    def _reductions(self, tokens: array[int]) -> array[int]:
        room = self._base + self._each * len(tokens)
        if room > maxsize // 8:
            raise MemoryError("no number of reductions is known to suffice")
        reductions = _zeros(room)
        count, at = c_size_t(), c_size_t()
        pairs = [pair for each in (*self._arrays, tokens, reductions) for pair in _numbers(each)]
        status = LIBRARY.conthiral_parse(self._count, *pairs, count, at)
        if status == _TOKEN:
            name = self.terminals[tokens[at.value]] if at.value < len(tokens) else "the end"
            raise ParseError(at.value, name)
        if status == LENGTH:
            raise OverflowError("the parser makes more reductions than suffice for a sentence")
        told(status)
        return reductions[: count.value]

    def tree(self, tokens: Iterable[str]) -> Node:
        """Returns the tree of tokens. Raises what :meth:`parse` does.

        >>> tree = Table("%% sum: sum '+' 'n' | 'n';").tree(["n", "+", "n"])
        >>> tree.rule.left, tree.below[1:], tree.below[0].below
        ('sum', [1, 2], [0])
        """
        numbers = self._tokens(tokens)
        reductions, at = self._reductions(numbers), len(numbers)
        top: List[Union[Node, int]] = []
        # a rightmost derivation: the last rule is that of the start, and the last symbols become tokens first
        waiting = [(top, self._right[0][0])]
        made = []
        while waiting:
            above, symbol = waiting.pop()
            if symbol < self._count:
                at -= 1
                above.append(at)
            else:
                rule = reductions.pop()
                node = Node(self.rules[rule], [])
                made.append(node)
                above.append(node)
                waiting += [(node.below, each) for each in self._right[rule]]
        for node in made:
            node.below.reverse()
        root = top[0]
        assert isinstance(root, Node)
        return root
