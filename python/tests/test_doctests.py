"""The examples beside the methods, and their type hints."""
import doctest
import importlib
import inspect
import pkgutil
import unittest

import coxeter_shell

# A program runs when the first is imported, and the others need Sage: checks/sage tries them.
APART = ("__main__", "sage", "sage_cells", "sage_words")


def load_tests(_, tests, __):
    for module in pkgutil.iter_modules(coxeter_shell.__path__):
        if module.name not in APART:
            found = importlib.import_module(f"coxeter_shell.{module.name}")
            names = {name: getattr(coxeter_shell, name) for name in coxeter_shell.__all__}
            tests.addTests(doctest.DocTestSuite(found, extraglobs=names))
    return tests


class Examples(unittest.TestCase):
    def test_each_method_has_one(self):
        for kind in KINDS:
            for name in dir(kind):
                method = getattr(kind, name)
                if not name.startswith("_") and callable(method) and not hasattr(dict, name) and name not in EXEMPT:
                    self.assertIn(">>> ", method.__doc__ or "", f"{kind.__name__}.{name}")


class Hints(unittest.TestCase):
    def test_each_public_call_has_them(self):
        """Whether they are right says mypy, which `checks/python` runs where it is installed."""
        tried = 0
        for name in coxeter_shell.__all__:
            for called, call in calls(name, getattr(coxeter_shell, name)):
                tried += 1
                signature = inspect.signature(call)
                bare = [it.name for it in signature.parameters.values() if it.annotation is it.empty and it.name not in ("self", "cls")]
                self.assertEqual((called, bare, signature.return_annotation is signature.empty), (called, [], False))
        self.assertGreater(tried, 150)


def calls(name, value):
    """What is called by a public name: a function, or the functions of a class that this package has written."""
    if not inspect.isclass(value):
        return [(name, value)]
    found = []
    for base in value.__mro__:
        if base.__module__.startswith("coxeter_shell."):
            for own, it in vars(base).items():
                it = getattr(it, "__func__", it)
                if inspect.isfunction(it) and it.__module__ == base.__module__ and (own == "__init__" or not own.startswith("_")):
                    found.append((f"{base.__name__}.{own}", it))
    return found


KINDS = (
    coxeter_shell.CoxeterGroup,
    coxeter_shell.Polynomial,
    coxeter_shell.WGraph,
    coxeter_shell.HasseDiagram,
    coxeter_shell.CellOrder,
    coxeter_shell.CellModule,
)

# They need what may not be installed, or are what a table is made of.
EXEMPT = ("sage", "sage_element", "networkx", "to_frame", "close", "rows", "texts", "dot", "layers", "iter_reduced_words")


if __name__ == "__main__":
    unittest.main()
