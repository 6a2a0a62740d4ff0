"""The examples in docstrings and on the first page are run; every public name has types; the module is written for Python 3.9 on."""

import ast
import doctest
import pkgutil
import typing
import unittest
from importlib import import_module
from pathlib import Path

import velejume
from vectors import REPOSITORY


def modules():
    return [velejume] + [import_module(f"velejume.{found.name}") for found in pkgutil.iter_modules(velejume.__path__)]


class Module(unittest.TestCase):
    def test_every_public_name_has_an_example(self):
        for name in velejume.__all__:
            with self.subTest(name):
                self.assertIn(">>>", getattr(velejume, name).__doc__)

    def test_types(self):
        for name in velejume.__all__:
            thing = getattr(velejume, name)
            with self.subTest(name):
                self.assertTrue(typing.get_type_hints(thing.__init__ if name == "Refused" else thing))

    def test_syntax(self):
        for module in modules():
            with self.subTest(module.__name__):
                ast.parse(Path(module.__file__).read_text(encoding="utf-8"), feature_version=(3, 9))


def load_tests(loader, tests, pattern):
    for module in modules():
        tests.addTests(doctest.DocTestSuite(module))
    tests.addTests(doctest.DocFileSuite(str(REPOSITORY / "README.md"), module_relative=False, encoding="utf-8"))
    return tests


if __name__ == "__main__":
    unittest.main()
