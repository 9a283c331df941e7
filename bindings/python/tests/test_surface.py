# SPDX-License-Identifier: MIT OR Apache-2.0
"""All that the package offers has a documentation and the types of its arguments and its result."""
import inspect
import unittest

import tkcore


def functions():
    """Returns the names and the functions of all methods that the package's classes define."""
    for name in tkcore.__all__:
        offered = getattr(tkcore, name)
        if not inspect.isclass(offered):
            continue
        for base in offered.__mro__:
            if not base.__module__.startswith("tkcore"):
                continue
            for word, found in vars(base).items():
                found = getattr(found, "__func__", getattr(found, "fget", found))
                if inspect.isfunction(found) and (word == "__init__" or not word.startswith("_")):
                    yield f"{name}.{word}", found


class Surface(unittest.TestCase):
    def test_documentation(self):
        for name in tkcore.__all__:
            if name != "NANOS":
                self.assertTrue(getattr(tkcore, name).__doc__, name)
        for name, function in functions():
            self.assertTrue(function.__doc__ or name.endswith("__init__"), name)

    def test_types(self):
        found = list(functions())
        self.assertGreater(len(found), 60)
        for name, function in found:
            signature = inspect.signature(function)
            self.assertIsNot(signature.return_annotation, signature.empty, name)
            for place, parameter in enumerate(signature.parameters.values()):
                if place or parameter.name not in ("self", "cls"):
                    self.assertIsNot(parameter.annotation, parameter.empty, (name, parameter))


if __name__ == "__main__":
    unittest.main()
