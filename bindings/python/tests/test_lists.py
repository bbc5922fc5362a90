"""Each call beside what plain lists of bits give. CONTHIRAL_SEED repeats a run."""

import copy
import doctest
import os
import pathlib
import pickle
import random
import time
import unittest
from array import array

import conthiral
from conthiral import Bits, LengthError, NotCanonicalError, _bits, _pack

try:
    import numpy
except ImportError:
    numpy = None

SEED = int(os.environ.get("CONTHIRAL_SEED") or time.time())
ROUNDS = 200


def some_list(length):
    kind = random.randrange(4)
    if kind < 2:
        return [kind == 1] * length
    return [random.random() < (0.02 if kind == 2 else 0.5) for _ in range(length)]


def some_length():
    return random.choice([random.randrange(4) * 64, random.randrange(400)])


class Lists(unittest.TestCase):
    def setUp(self):
        random.seed(SEED)

    def same(self, bits, wanted):
        self.assertEqual(list(bits), wanted, f"CONTHIRAL_SEED={SEED}")
        self.assertEqual(len(bits), len(wanted))
        if len(wanted) % 64:
            self.assertEqual(int(bits.words[-1]) >> len(wanted) % 64, 0)

    def test_ranges(self):
        for _ in range(ROUNDS):
            own, other = some_list(some_length()), some_list(some_length())
            bits = Bits.of(own)
            start = random.randrange(len(own) + 1)
            stop = random.randrange(start, len(own) + 1)
            self.same(bits[start:stop], own[start:stop])
            bits[start:stop] = True
            own[start:stop] = [True] * (stop - start)
            self.same(bits, own)
            bits.negate(start, stop)
            own[start:stop] = [False] * (stop - start)
            self.same(bits, own)
            count = min(len(other), len(own) - start)
            bits[start : start + count] = Bits.of(other)[:count]
            own[start : start + count] = other[:count]
            self.same(bits, own)
            for index in range(-len(own), len(own), 7):
                self.assertEqual(bits[index], own[index])

    def test_steps(self):
        for _ in range(ROUNDS):
            own = some_list(some_length())
            bits = Bits.of(own)
            ends = [random.choice([None, random.randrange(-len(own) - 3, len(own) + 4)]) for _ in range(2)]
            steps = slice(*ends, random.choice([-3, -2, -1, 2, 3, 70]))
            self.same(bits[steps], own[steps])
            values = some_list(len(own[steps]))
            own[steps] = values
            bits[steps] = random.choice([values, Bits.of(values), iter(values)])
            self.same(bits, own)
            bits[steps] = True
            own[steps] = [True] * len(values)
            self.same(bits, own)

    def test_as_python_has_it(self):
        for _ in range(ROUNDS):
            own, other = some_list(some_length()), some_list(some_length())
            bits = Bits.of(own)
            text = "".join("01"[bit] for bit in own)
            self.same(Bits(text), own)
            self.same(bits + Bits.of(other), own + other)
            self.assertEqual((True in bits, False in bits), (True in own, False in own))
            self.assertEqual((bits.any(), bits.all()), (any(own), all(own)))
            self.assertEqual(list(reversed(bits)), own[::-1])
            self.assertEqual(bytes(bits), bits.to_bytes())
            for made in (bits.copy(), copy.copy(bits), copy.deepcopy(bits), pickle.loads(pickle.dumps(bits))):
                self.same(made, own)
                made.negate()
            self.same(bits, own)
            if len(own) <= 64:
                self.assertEqual(eval(repr(bits)), bits)
        self.assertNotIn(2, Bits(3))

    def test_all_bits(self):
        for _ in range(ROUNDS):
            own = some_list(some_length())
            n = random.randrange(-len(own) - 70, len(own) + 70)
            bits = Bits.of(own)
            bits.reverse()
            own.reverse()
            self.same(bits, own)
            bits.rotate(n)
            turn = n % len(own) if own else 0
            own = own[len(own) - turn :] + own[: len(own) - turn]
            self.same(bits, own)
            self.same(~bits, [not bit for bit in own])
            bits.shift(n)
            own = [0 <= i - n < len(own) and own[i - n] for i in range(len(own))]
            self.same(bits, own)

    def test_two(self):
        for _ in range(ROUNDS):
            length = some_length()
            own, other, third = (some_list(length) for _ in range(3))
            first, second = Bits.of(own), Bits.of(other)
            pairs = list(zip(own, other))
            self.same(first & second, [a and b for a, b in pairs])
            self.same(first | second, [a or b for a, b in pairs])
            self.same(first ^ second, [a != b for a, b in pairs])
            self.same(first - second, [a and not b for a, b in pairs])
            self.assertEqual(first.count_and(second), sum(a and b for a, b in pairs))
            self.assertEqual(first.count_or(second), sum(a or b for a, b in pairs))
            self.assertEqual(first.count_xor(second), sum(a != b for a, b in pairs))
            self.assertEqual(first.count_and_not(second), sum(a and not b for a, b in pairs))
            self.same(first & first, own)
            self.same(first ^ first, [False] * length)
            self.assertEqual(first.issubset(second), all(b or not a for a, b in pairs))
            self.assertEqual(first.isdisjoint(second), not any(a and b for a, b in pairs))
            self.assertEqual(first == second, own == other)
            differ = [i for i in range(length) if own[i] != other[i]]
            self.assertEqual(first.first_difference(second), differ[0] if differ else None)
            more = some_list(some_length())
            differ = [i for i in range(min(length, len(more))) if own[i] != more[i]]
            self.assertEqual(first.first_difference(Bits.of(more)), differ[0] if differ else None)
            wanted = [a or b and c for a, b, c in zip(own, other, third)]
            self.assertEqual(first.unite_both(second, Bits.of(third)), wanted != own)
            self.same(first, wanted)

    def test_words_in_common(self):
        for _ in range(ROUNDS):
            own = some_list(192)
            words = array("Q", Bits.of(own).words)
            first, second = Bits.over(memoryview(words)[:2]), Bits.over(memoryview(words)[1:])
            wanted = [a != b for a, b in zip(own[:128], own[64:])]
            first ^= second
            self.same(first, wanted)
            first[:] = second
            self.same(first, wanted[64:] + own[128:])

    def test_counts(self):
        for _ in range(ROUNDS):
            own = some_list(some_length())
            bits = Bits.of(own)
            for value in (False, True):
                found = [i for i, bit in enumerate(own) if bit == value]
                at = random.randrange(len(own) + 70)
                self.assertEqual(list(bits.indices(value=value)), found)
                self.assertEqual(list(bits.indices(at, value=value)), [i for i in found if i >= at])
                self.assertEqual(list(bits.indices(0, at, value)), [i for i in found if i < at])
                self.assertEqual(bits.next(at, value), next((i for i in found if i >= at), None))
                self.assertEqual(bits.previous(at, value), max((i for i in found if i <= at), default=None))
            self.assertEqual(bits.count(), sum(own))
            self.assertEqual(bits.rank(at), sum(own[:at]))
            self.assertEqual(bits.select(at), found[at] if at < len(found) else None)
            n = at % 9 + 1
            runs = [i for i in range(len(own) - n + 1) if not any(own[i : i + n])]
            self.assertEqual(bits.first_unset_run(n), runs[0] if runs else None)

    def test_bytes(self):
        for _ in range(ROUNDS):
            own = some_list(some_length())
            for most_first in (False, True):
                data = Bits.of(own).to_bytes(most_first)
                self.same(Bits.of_bytes(data, len(own), most_first), own)
                eight = [data[i // 8] >> (7 - i % 8 if most_first else i % 8) & 1 == 1 for i in range(len(own))]
                self.assertEqual(eight, own)

    def test_faults(self):
        bits = Bits(70)
        for index in (70, -71):
            with self.assertRaises(IndexError):
                bits[index]
            with self.assertRaises(IndexError):
                bits[index] = True
        with self.assertRaises(LengthError):
            bits &= Bits(71)
        with self.assertRaises(LengthError):
            bits[0:3] = Bits(2)
        with self.assertRaises(NotCanonicalError):
            Bits.over(array("Q", [4]), 2)
        with self.assertRaises(LengthError):
            Bits.over(array("Q", [0, 0]), 64)
        with self.assertRaises(TypeError):
            Bits.over(array("L" if array("L").itemsize != 8 else "I", [0]), 3)
        with self.assertRaises(LengthError):
            bits[0:10:2] = [True] * 4
        for wrong in (-1, "012", "1 "):
            with self.assertRaises(ValueError):
                Bits(wrong)
        with self.assertRaises(TypeError):
            Bits(1.5)
        with self.assertRaises(TypeError):
            hash(bits)
        with self.assertRaises(TypeError):
            bits & 3
        self.same(bits, [False] * 70)

    @unittest.skipUnless(numpy, "numpy isn't installed")
    def test_numpy(self):
        words = numpy.zeros(3, dtype=numpy.uint64)
        bits = Bits.over(words, 130)
        bits[128] = True
        self.assertEqual(words.tolist(), [0, 0, 1])
        words[0] = 6
        self.assertEqual(list(bits.indices()), [1, 2, 128])
        with self.assertRaises(TypeError):
            Bits.over(numpy.zeros((2, 2), dtype=numpy.uint64))
        for _ in range(ROUNDS):
            own = some_list(some_length())
            each = numpy.array(own, dtype=random.choice([bool, int, float]))
            self.same(Bits.of(each), own)
            self.assertEqual(numpy.asarray(Bits.of(own)).tolist(), own)
            self.assertEqual(numpy.asarray(Bits.of(own), dtype=int).tolist(), [int(bit) for bit in own])
        self.assertEqual(bits[numpy.int64(1)], True)


def load_tests(loader, tests, pattern):
    for module in (conthiral, _bits, _pack):
        tests.addTests(doctest.DocTestSuite(module))
    page = pathlib.Path(__file__).parents[1] / "README.md"
    # what ends a block of text isn't printed
    text = page.read_text().replace("\n```", "\n\n")
    tests.addTest(doctest.DocTestCase(doctest.DocTestParser().get_doctest(text, {}, page.name, str(page), 0)))
    return tests


if __name__ == "__main__":
    unittest.main()
