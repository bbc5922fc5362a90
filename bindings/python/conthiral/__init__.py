"""Bits in words, by calls that are proved.

>>> from conthiral import Bits, closure
>>> seen = Bits(100)
>>> seen[7] = True
>>> seen[10:13] = True
>>> list(seen.indices())
[7, 10, 11, 12]
>>> (seen & Bits.of_indices(100, [7, 8])).count()
1
>>> closure({"a": ["b"], "b": ["c"]})
{'a': ['b', 'c'], 'b': ['c'], 'c': []}
"""

from ._bits import Bits
from ._faults import LengthError, NotCanonicalError
from ._graphs import components, dominators, greatest, least, liveness
from ._matrix import close, closure, product, reach, transpose
from ._tables import GrammarError, Node, ParseError, Rule, Table

__all__ = [
    "Bits",
    "GrammarError",
    "LengthError",
    "Node",
    "NotCanonicalError",
    "ParseError",
    "Rule",
    "Table",
    "close",
    "closure",
    "components",
    "dominators",
    "greatest",
    "least",
    "liveness",
    "product",
    "reach",
    "transpose",
]
__version__ = "0.1.0"
