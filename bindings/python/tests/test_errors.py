# SPDX-License-Identifier: MIT OR Apache-2.0
"""An exception keeps all its attributes when it is pickled, copied or raised in another process."""
import copy
import multiprocessing
import pickle
import unittest
from array import array

import tkcore
from support import opened
from tkcore.errors import BY_CODE, Error

PROTOCOLS = range(pickle.HIGHEST_PROTOCOL + 1)
ABOVE = 2**32  # a stamp with more bits than the counter


def classes(base=Error):
    """Returns an exception's class and all classes below it."""
    return [base, *(it for child in base.__subclasses__() for it in classes(child))]


def made():
    """Returns an exception of each class, with a value in every attribute that it may have."""
    for cls in classes():
        error = cls("the reading", 7, (0, 5))
        if hasattr(cls, "done"):
            error.done = 3
        error.fleet = "a caller's attribute"
        yield error


def convert(stamps):
    """Converts stamps, in this process or in a worker."""
    return list(opened().snapshot().convert(array("Q", stamps), tkcore.ClockId.REALTIME))


class Errors(unittest.TestCase):
    def check(self, error, other):
        self.assertIsNot(error, other)
        self.assertIs(type(error), type(other))
        self.assertEqual(error.code, other.code)
        self.assertEqual(error.args, other.args)
        self.assertEqual(str(error), str(other))
        self.assertEqual(vars(error), vars(other))
        self.assertEqual(getattr(error, "done", None), getattr(other, "done", None))

    def test_each_code_has_a_class(self):
        self.assertEqual(set(BY_CODE), {it.code for it in classes()} - {None})

    def test_pickles_and_copies(self):
        for error in made():
            for protocol in PROTOCOLS:
                self.check(error, pickle.loads(pickle.dumps(error, protocol)))
            self.check(error, copy.copy(error))
            self.check(error, copy.deepcopy(error))

    def test_an_attribute_of_a_copy_is_its_own(self):
        error = tkcore.Invalid("the reading")
        other = copy.copy(error)
        other.done = 1
        self.assertIsNone(error.done)

    def test_a_refused_conversion(self):
        with self.assertRaises(tkcore.Invalid) as raised:
            convert([1, 2, ABOVE])
        for protocol in PROTOCOLS:
            other = pickle.loads(pickle.dumps(raised.exception, protocol))
            self.check(raised.exception, other)
            self.assertEqual((other.done, other.value, other.range), (2, ABOVE, (0, ABOVE - 1)))

    def test_a_conversion_that_a_worker_refuses(self):
        with multiprocessing.get_context("fork").Pool(1) as workers:
            with self.assertRaises(tkcore.Invalid) as raised:
                workers.apply_async(convert, ([1, 2, ABOVE],)).get(30)
        found = raised.exception
        self.assertEqual((found.done, found.value, found.range), (2, ABOVE, (0, ABOVE - 1)))
        self.assertEqual(str(found), f"stamp is {ABOVE} instead of 0 to {ABOVE - 1}")


if __name__ == "__main__":
    unittest.main()
