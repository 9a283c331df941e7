# SPDX-License-Identifier: MIT OR Apache-2.0
"""A conversion copies neither the stamps nor the times."""
import tracemalloc
import unittest
from array import array

from support import opened_wide

try:
    import numpy
except ImportError:
    numpy = None

COUNT = 100_000
SIZE = 8 * COUNT  # of a list, in bytes


class Conversions(unittest.TestCase):
    def setUp(self):
        self.snapshot = opened_wide().snapshot()

    def most_memory(self, stamps, out=None):
        """Returns the most bytes that a conversion has at once, besides the lists it gets."""
        tracemalloc.start()
        try:
            self.snapshot.convert(stamps, 0, out)
            return tracemalloc.get_traced_memory()[1]
        finally:
            tracemalloc.stop()

    def check(self, stamps, out):
        self.assertLess(self.most_memory(stamps, out), SIZE / 2)
        new = self.most_memory(stamps)
        self.assertTrue(SIZE <= new < 1.5 * SIZE, new)

    def test_arrays(self):
        self.check(array("Q", range(COUNT)), array("Q", [0]) * COUNT)

    @unittest.skipUnless(numpy, "no numpy")
    def test_arrays_of_numpy(self):
        self.check(numpy.arange(COUNT, dtype=numpy.uint64), numpy.zeros(COUNT, numpy.uint64))


if __name__ == "__main__":
    unittest.main()
