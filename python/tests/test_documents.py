"""The examples in the docstrings, and that every public name has one."""

import doctest
import importlib
import inspect
import pkgutil
import unittest

import sukhlent


def load_tests(loader, tests, pattern):
    for module in pkgutil.walk_packages(sukhlent.__path__, "sukhlent."):
        if not module.name.endswith(("__main__", "_calls")):
            tests.addTests(doctest.DocTestSuite(importlib.import_module(module.name)))
    tests.addTests(doctest.DocTestSuite(sukhlent))
    return tests


def public():
    """The public functions and classes of the package, and the methods of the classes."""
    for name in sukhlent.__all__:
        held = getattr(sukhlent, name)
        if inspect.isfunction(held):
            yield name, held
        elif inspect.isclass(held):
            yield name, held
            for kind in held.__mro__:
                if not kind.__module__.startswith("sukhlent"):
                    continue
                for method, inside in vars(kind).items():
                    if not method.startswith("_") and (callable(inside) or isinstance(inside, (property, classmethod))):
                        if getattr(held, method).__doc__ == inside.__doc__:  # not overridden
                            yield f"{name}.{method}", inside


class Documents(unittest.TestCase):
    def test_every_public_name_has_an_example_and_its_types(self):
        seen = 0
        for name, held in public():
            with self.subTest(name=name):
                seen += 1
                function = getattr(held, "fget", None) or getattr(held, "__func__", held)
                if name != "GeneratorList.buffers":  # what passes to C
                    self.assertIn(">>>", inspect.getdoc(function) or "")
                if inspect.isfunction(function):
                    hints = set(inspect.signature(function).parameters) - {"self", "cls"}
                    self.assertLessEqual(hints | {"return"}, set(function.__annotations__))
        self.assertGreater(seen, 100)
