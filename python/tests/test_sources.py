"""The sources: only the standard library, short functions and lines, everything documented."""

from __future__ import annotations

import ast
import glob
import os
import sys
import unittest

from .support import PYTHON, read

MOST_LINES = 40
MOST_COLUMNS = 100

_FUNCTIONS = (ast.FunctionDef, ast.AsyncFunctionDef)


def sources(folder: str = "*") -> list[str]:
    """The modules of a folder of python/, or all of them."""
    if folder == "*":
        return [f"{PYTHON}/wheel_backend.py", *sources("rrp"), *sources("tests")]
    return sorted(glob.glob(os.path.join(PYTHON, folder, "**", "*.py"), recursive=True))


def public(name: str) -> bool:
    """Whether a name is for others."""
    return not name.startswith("_")


class Sources(unittest.TestCase):
    """Each module of the package, and of the tests."""

    def test_lines(self) -> None:
        for path in sources():
            for number, line in enumerate(read(path).splitlines(), 1):
                self.assertLessEqual(len(line), MOST_COLUMNS, f"{path}:{number}")

    def test_functions(self) -> None:
        for path in sources():
            for node in ast.walk(ast.parse(read(path))):
                if isinstance(node, _FUNCTIONS):
                    length = node.end_lineno - node.lineno + 1
                    self.assertLessEqual(length, MOST_LINES, f"{path}: {node.name}")

    def test_documented_and_typed(self) -> None:
        for path in sources("rrp"):
            tree = ast.parse(read(path))
            self.assertIsNotNone(ast.get_docstring(tree), path)
            for node in ast.walk(tree):
                if isinstance(node, (ast.ClassDef, *_FUNCTIONS)) and public(node.name):
                    self.assertIsNotNone(ast.get_docstring(node), f"{path}: {node.name}")
                if isinstance(node, _FUNCTIONS) and public(node.name):
                    self.assertIsNotNone(node.returns, f"{path}: {node.name}")

    @unittest.skipUnless(hasattr(sys, "stdlib_module_names"), "Python 3.10 or later")
    def test_imports(self) -> None:
        for path in sources("rrp"):
            for node in ast.walk(ast.parse(read(path))):
                names = [each.name for each in node.names] if isinstance(node, ast.Import) else []
                if isinstance(node, ast.ImportFrom) and node.level == 0:
                    names = [node.module]
                for name in names:
                    self.assertIn(name.split(".")[0], sys.stdlib_module_names, path)


if __name__ == "__main__":
    unittest.main()
