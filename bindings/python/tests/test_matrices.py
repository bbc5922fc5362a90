"""Each call on matrices beside what plain lists of lists give, and networkx where it is installed. CONTHIRAL_SEED
repeats a run."""

import doctest
import os
import random
import time
import unittest
from array import array

from conthiral import LengthError, NotCanonicalError, _matrix, close, closure, product, reach, transpose

try:
    import numpy
except ImportError:
    numpy = None
try:
    import networkx
except ImportError:
    networkx = None

SEED = int(os.environ.get("CONTHIRAL_SEED") or time.time())
ROUNDS = 12


def some_rows(rows, columns):
    often = random.choice([0, 0.01, 0.05, 0.5])
    return [[random.random() < often for _ in range(columns)] for _ in range(rows)]


def some_size():
    return random.choice([random.randrange(3) * 64, random.randrange(130)])


def packed(rows, columns):
    words = array("Q")
    for row in rows:
        for first in range(0, columns, 64):
            words.append(sum(bit << place for place, bit in enumerate(row[first : first + 64])))
    return words


def closed(rows):
    rows = [list(row) for row in rows]
    for k, through in enumerate(rows):
        for row in rows:
            if row[k]:
                row[:] = [a or b for a, b in zip(row, through)]
    return rows


class Matrices(unittest.TestCase):
    def setUp(self):
        random.seed(SEED)

    def test_close(self):
        for _ in range(ROUNDS):
            size = some_size()
            rows = some_rows(size, size)
            words = packed(rows, size)
            wanted = closed(rows)
            starts = [i for i in range(size) if random.random() < 0.1]
            nodes = [j for j in range(size) if j in starts or any(wanted[i][j] for i in starts)]
            self.assertEqual(list(reach(words, size, starts).indices()), nodes, f"CONTHIRAL_SEED={SEED}")
            self.assertEqual(close(words, size), wanted != rows, f"CONTHIRAL_SEED={SEED}")
            self.assertEqual(words, packed(wanted, size), f"CONTHIRAL_SEED={SEED}")
            self.assertFalse(close(words, size))

    def test_two_dimensions(self):
        words = array("Q", [2, 4, 0])
        self.assertTrue(close(memoryview(words).cast("B").cast("Q", [3, 1])))
        self.assertEqual(words.tolist(), [6, 4, 0])
        with self.assertRaises(LengthError):
            close(memoryview(words).cast("B").cast("Q", [1, 3]))

    @unittest.skipUnless(numpy, "numpy isn't installed")
    def test_numpy(self):
        words = numpy.array([[2], [4], [0]], dtype=numpy.uint64)
        self.assertTrue(close(words))
        self.assertEqual(words.tolist(), [[6], [4], [0]])

    def test_closure(self):
        for _ in range(ROUNDS):
            size = some_size()
            rows = some_rows(size, size)
            names = [f"node {at}" for at in range(size)]
            edges = {name: [names[j] for j in range(size) if row[j]] for name, row in zip(names, rows)}
            wanted = {name: {names[j] for j in range(size) if row[j]} for name, row in zip(names, closed(rows))}
            found = closure(edges)
            self.assertEqual({name: set(after) for name, after in found.items()}, wanted, f"CONTHIRAL_SEED={SEED}")
            order = list(found)
            self.assertTrue(all(after == sorted(after, key=order.index) for after in found.values()))
            again = closure([(name, other) for name, after in edges.items() for other in after])
            self.assertEqual({name: set(after) for name, after in again.items()}, {name: wanted[name] for name in again})
            if networkx:
                graph = networkx.transitive_closure(networkx.DiGraph(edges))
                self.assertEqual(wanted, {name: set(graph.successors(name)) for name in names})

    def test_product_and_transpose(self):
        for _ in range(ROUNDS):
            rows, inner, columns = some_size(), some_size(), some_size()
            own, other = some_rows(rows, inner), some_rows(inner, columns)
            turned = [[row[j] for row in own] for j in range(inner)]
            self.assertEqual(transpose(packed(own, inner), rows, inner), packed(turned, rows), f"CONTHIRAL_SEED={SEED}")
            wanted = [[any(row[k] for row in map(other.__getitem__, named)) for k in range(columns)]
                      for named in ([k for k in range(inner) if row[k]] for row in own)]
            made = product(packed(own, inner), rows, inner, packed(other, columns), columns)
            self.assertEqual(made, packed(wanted, columns), f"CONTHIRAL_SEED={SEED}")
        with self.assertRaises(LengthError):
            transpose(array("Q", [0]), 2, 3)
        with self.assertRaises(NotCanonicalError):
            product(array("Q", [8]), 1, 3, array("Q", [0, 0, 0]), 2)

    def test_faults(self):
        words = array("Q", [1, 2, 8])
        with self.assertRaises(NotCanonicalError):
            close(words, 3)
        with self.assertRaises(LengthError):
            close(words, 4)
        with self.assertRaises(TypeError):
            close(words)
        with self.assertRaises(TypeError):
            close(b"12345678", 1)
        self.assertEqual(words.tolist(), [1, 2, 8])
        self.assertEqual(closure({}), {})


def load_tests(loader, tests, pattern):
    tests.addTests(doctest.DocTestSuite(_matrix))
    return tests


if __name__ == "__main__":
    unittest.main()
