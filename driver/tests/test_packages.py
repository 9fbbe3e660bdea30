"""Which package of driver/ uses which, and what of it."""
from __future__ import annotations

import ast
import unittest
from pathlib import Path

from . import support

# What each may use: of e1gw_common each module, of another one what its __init__ names.
MAY_USE = {'e1gw_common': set[str](), 'e1gw': {'e1gw_common', 'e1gw_picture'}, 'e1gw_picture': {'e1gw_common'},
           'e1gw_tie': {'e1gw_common'}, 'e1gw_tools': {'e1gw_common', 'e1gw_picture'}}


class PackageTests(unittest.TestCase):
    def test_no_package_uses_the_inside_of_another(self) -> None:
        for package, may_use in MAY_USE.items():
            for path in Path(support.TOP, 'driver', package).rglob('*.py'):
                nodes = [*ast.walk(ast.parse(path.read_text('utf-8')))]
                names = [each.name for node in nodes if isinstance(node, ast.Import) for each in node.names]
                names += [node.module or '' for node in nodes if isinstance(node, ast.ImportFrom) and not node.level]
                for name in (name for name in names if name.startswith(('e1gw', 'tests'))):
                    other, _, inside = name.partition('.')
                    self.assertIn(other, may_use | {package}, path)
                    self.assertTrue(other in (package, 'e1gw_common') or not inside, f'{path}: {name}')
