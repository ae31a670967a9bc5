"""Tests that every function of the second program and of the module for Python has type hints."""

import ast
import unittest
from pathlib import Path

from tests import ROOT

TYPED = [*sorted(Path(ROOT, 'tests', 'second').glob('*.py')), Path(ROOT, 'bindings', 'python', 'scullpouch', '__init__.py')]


# The functions without a hint for an argument or for the answer, as name and line.
def without_hints(text):
    for node in ast.walk(ast.parse(text)):
        if isinstance(node, ast.FunctionDef):
            arguments = [*node.args.posonlyargs, *node.args.args, *node.args.kwonlyargs,
                         *filter(None, (node.args.vararg, node.args.kwarg))]
            bare = [one.arg for one in arguments if one.annotation is None and one.arg not in ('self', 'cls')]
            if bare or node.returns is None:
                yield f'{node.name}, line {node.lineno}'


class Hints(unittest.TestCase):

    def test_every_function(self):
        for path in TYPED:
            with self.subTest(str(path)):
                self.assertEqual(list(without_hints(path.read_text(encoding='utf-8'))), [])

    # A function without one is found.
    def test_found(self):
        for text in ('def f(a) -> int: ...', 'def f(a: int): ...', 'class C:\n  def f(self, *a) -> int: ...'):
            self.assertEqual(len(list(without_hints(text))), 1, text)


if __name__ == '__main__':
    unittest.main()
