#!/usr/bin/env python3
"""Times the module of bindings/python beside NumPy and networkx. Prints a row each: our time over theirs, the median of
three readings. bench/bindings.sh runs it."""

import random
import statistics
import time

import networkx
import numpy
from conthiral import Bits, closure

BITS = 1 << 20
NODES, EDGES = 2000, 2400
READINGS, BATCHES, BATCH = 3, 7, 0.05


def least(work):
    """Returns the least time in seconds that a work takes, in one of some batches; a long one is a batch of its own."""
    start, times = time.perf_counter(), 0
    while time.perf_counter() - start < BATCH:
        work()
        times += 1
    first = (time.perf_counter() - start) / times
    spent = [first]
    for _ in range(BATCHES if first < 10 * BATCH else 0):
        start = time.perf_counter()
        for _ in range(times):
            work()
        spent.append((time.perf_counter() - start) / times)
    return min(spent)


def row(name, beside, ours, theirs, same):
    """Prints a row, if both works come to the same."""
    assert same(ours(), theirs()), name
    ratio = statistics.median(least(ours) / least(theirs) for _ in range(READINGS))
    print(f"| {name} | {beside} | {ratio:.2g} |", flush=True)


def same_edges(found, graph):
    return all(set(after) == set(graph[node]) for node, after in found.items())


def main():
    rng = numpy.random.default_rng(1)
    each, other = (rng.random(BITS) < 0.5 for _ in range(2))
    bytes_of = numpy.packbits(each, bitorder="little")
    bits, second = Bits.of(each), Bits.of(other)
    words = bytes_of.view(numpy.uint64)
    other_words = numpy.packbits(other, bitorder="little").view(numpy.uint64)
    data = bytes_of.tobytes()

    def unpack():
        return numpy.unpackbits(bytes_of, bitorder="little")

    print("| Python | beside | time |\n|---|---|---|")
    row("bits of an array of bools", "`packbits`",
        lambda: Bits.of(each),
        lambda: numpy.packbits(each, bitorder="little"),
        lambda one, two: one.to_bytes() == two.tobytes())
    row("an array of the bits", "`unpackbits`",
        lambda: numpy.asarray(bits, dtype=numpy.uint8),
        unpack, numpy.array_equal)
    row("bytes with the most significant bit first", "`packbits` of `unpackbits`",
        lambda: Bits.of_bytes(data, most_first=True),
        lambda: numpy.packbits(numpy.unpackbits(bytes_of), bitorder="little"),
        lambda one, two: one.to_bytes() == two.tobytes())
    row("count of set bits", "`unpackbits`, summed", bits.count, lambda: int(unpack().sum()), int.__eq__)
    row("indices of set bits, as a list", "`flatnonzero` of `unpackbits`",
        lambda: list(bits.indices()),
        lambda: numpy.flatnonzero(unpack()).tolist(), list.__eq__)
    row("all bits but three", "`packbits` of a slice",
        lambda: bits[3:],
        lambda: numpy.packbits(unpack()[3:], bitorder="little"),
        lambda one, two: one.to_bytes() == two.tobytes())
    mine, theirs = bits.copy(), words.copy()
    row("`and` in place", "`bitwise_and` of words",
        lambda: mine.intersect(second),
        lambda: numpy.bitwise_and(theirs, other_words, out=theirs),
        lambda one, two: mine.to_bytes() == two.tobytes())
    row("is a subset", "a comparison of words",
        lambda: bits.issubset(bits),
        lambda: not numpy.any(words & ~words),
        lambda one, two: one == two)

    random.seed(1)
    edges = [(random.randrange(NODES), random.randrange(NODES)) for _ in range(EDGES)]
    row("closure, 2,000 nodes, 2,400 edges", "networkx",
        lambda: closure(edges),
        lambda: networkx.transitive_closure(networkx.DiGraph(edges)),
        same_edges)


main()
