"""Small wrong versions of a module: which there are, and what becomes of them."""
import ast
import contextlib
import io
import unittest
from pathlib import Path
from unittest import mock

from . import FolderCase, loaded
from e1gw_common.programs import TOP
from mutation import edits_of


mutants = loaded('mutants')

# What is made of a line in a function of that type.
LINES = {
    'return a < b': ('bool', {'return a <= b', 'return a >= b', 'return not (a < b)'}),
    'return a is not b': ('bool', {'return a is b', 'return not (a is not b)'}),
    'return a and b or c': ('bool', {'return (a and b) and c', 'return a or b or c', 'return not (a and b or c)'}),
    'return not (a or b)': ('object', {'return (a or b)', 'return not (a and b)', 'return None'}),
    'suppress(A, B)': ('None', {'pass'}), 'return f(a, 1)': ('int', {'return f(1, a)', 'return f(a, 2)', 'return 0'}),
    'return min(a, 0.5)': ('float', {'return max(a, 0.5)', 'return min(a, 1.0)', 'return 0.0'}),
    'return a if b else True': ('object', {'return a', 'return True', 'return a if b else False', 'return None'}),
    'return [a for a in b if c]': ('list[int]', {'return [a for a in b if True]', 'return []'}),
    'await f(a)': ('None', {'f(a)', 'pass'}), 'a.b = c': ('None', {'pass'}), 'a = b': ('None', set[str]()),
    'if a: b()': ('None', {'if False: b()', 'if a: pass'}), 'a += 1': ('None', {'a += 2', 'pass'}),
    "return f'{a + 1}'": ('str', {"return ''"})}

MODULE = '''SEVEN = 7


def least(one: int, other: int) -> int:
    """The lesser of two."""
    return one if one < other else other


def nobody() -> bool:
    return True
'''
TESTS = '''import os
import subprocess
import sys
import unittest

from e1gw.numbers import SEVEN, least


class NumberTests(unittest.TestCase):
    def test_least(self) -> None:
        self.assertEqual((least(1, 2), least(2, 1), SEVEN < 9), (1, 2 - 1, True))

    def test_program(self) -> None:
        if os.environ['E1GW'] == '/none':
            raise unittest.SkipTest('no program')
        words = [sys.executable, '-c', 'from e1gw.numbers import nobody; print(nobody())']
        self.assertEqual(subprocess.run(words, capture_output=True).stdout, b'True\\n')
'''
LOOP = 'ENDS = True\n\ndef ends() -> bool:\n    return ENDS\n'
WAITS = '''import unittest

from e1gw.loop import ends


class LoopTests(unittest.TestCase):
    def test_end(self) -> None:
        while not ends():
            pass
'''


class Edits(unittest.TestCase):
    def test_of_lines(self) -> None:
        for line, (returns, wanted) in LINES.items():
            with self.subTest(line):
                text = f'async def its(a: A = B) -> {returns}:\n    {line}\n'
                found = edits_of(text)
                self.assertEqual({edit.after for edit in found}, wanted)
                for edit in found:
                    self.assertEqual((edit.line, edit.before, edit.lines), (2, line, (2,)))
                    self.assertEqual(edit.made(text.encode()).decode().split('\n')[1].strip(), edit.after)

    def test_nothing_that_is_no_decision(self) -> None:
        for text in ('@dataclass(frozen=True)\nclass A(B[1]):\n    """1"""\n    a: Literal[1]\n',
                     'if TYPE_CHECKING:\n    f(1)\n', 'def a(b: int) -> c[1]:\n    global d\n'):
            self.assertEqual(edits_of(text), [])

    def test_each_is_well_formed(self) -> None:
        """And another module than before."""
        for name in ('e1gw/clock', 'e1gw_tie/messages'):
            with open(f'{TOP}/driver/{name}.py', encoding='utf-8') as file:
                text = file.read()
            made = {ast.dump(ast.parse(edit.made(text.encode()))) for edit in edits_of(text)}
            self.assertEqual((len(made), ast.dump(ast.parse(text)) in made), (len(edits_of(text)), False))

    def test_lines_that_see_it(self) -> None:
        """Those of its statement; whatever uses the module sees one outside of functions."""
        text = 'A = 1\ndef f(a=1):\n    if (a and\n            b == 2):\n        g(3,\n          4)\n'
        found = {edit.after: edit.lines for edit in edits_of(text)}
        self.assertEqual([found[each] for each in ('A = 2', 'def f(a=2):', 'b != 2):', 'g(4,', 'if (False):')],
                         [(), (), (3, 4), (5, 6), (3, 4)])


class Mutants(FolderCase):
    def setUp(self) -> None:
        super().setUp()
        for path, text in (('bin/e1gw', ''), ('driver/e1gw/numbers.py', MODULE), ('driver/e1gw/__init__.py', ''),
                           ('driver/tests/__init__.py', ''), ('driver/tests/test_numbers.py', TESTS)):
            self.write(path, text)

    def ran(self, *words: str) -> tuple[int, list[str]]:
        told = io.StringIO()
        with contextlib.redirect_stdout(told):
            status = mutants.main([*words], Path(self.top))
        return status, told.getvalue().splitlines()

    def test_numbers(self) -> None:
        """Two that change nothing which is tested, and one that no test reaches."""
        status, told = self.ran('e1gw/numbers')
        self.assertEqual((status, told[-1]), (1, '4 passed, 3 failed'))
        self.assertIn('driver/e1gw/numbers.py:10: a constant changed, reached by no test', told)
        status, told = self.ran('e1gw/numbers', '--left', '43', '--seed', '7')
        self.assertEqual((status, told[-1]), (0, '4 passed, 0 failed'))
        with open(f'{self.top}/driver/e1gw/numbers.py', encoding='utf-8') as file:
            self.assertEqual(file.read(), MODULE)

    def test_processes_of_a_test(self) -> None:
        """With a program the tests that need one are run, and what they start is seen."""
        status, told = self.ran('e1gw/numbers', '--program', '/bin/true')
        self.assertEqual((status, told[-1]), (1, '5 passed, 2 failed'))

    def test_one_that_does_not_end(self) -> None:
        self.write('driver/e1gw/loop.py', LOOP)
        self.write('driver/tests/test_loop.py', WAITS)
        with mock.patch.multiple(mutants, AT_LEAST=1, TIMES=0):
            status, told = self.ran('e1gw/loop', '--jobs', '1')
        self.assertEqual((status, told[-1]), (0, '2 passed, 0 failed'))
        self.assertIn('2 endless', told[-2])

    def test_no_module(self) -> None:
        with self.assertRaises(SystemExit) as ended, contextlib.redirect_stderr(io.StringIO()):
            self.ran('e1gw/letters')
        self.assertEqual(ended.exception.code, 2)
