"""Tests scripts/test --changed in a small repository: what a newcomer sees who changes a limit."""
import os
import shutil
import subprocess

from . import FolderCase, SCRIPTS
from e1gw_common.programs import TOP

LIMIT = """MOST = 3


def is_too_much(count: int) -> bool:
    return count > MOST
"""
TEST = """import small


def test_more_than_three_are_too_much() -> None:
    assert [small.is_too_much(n) for n in (3, 4)] == [False, True]
"""


class Changed(FolderCase):
    def setUp(self) -> None:
        super().setUp()
        for name in 'test', 'need', 'parts', 'changed_tests.py':
            self.write(f'scripts/{name}', open(os.path.join(SCRIPTS, name), encoding='utf-8').read(), 0o755)
        for name in 'conftest.py', 'pyproject.toml':
            shutil.copy(os.path.join(TOP, name), self.top)
        for folder in 'tests/dist', 'tests/program', 'tests/scripts':
            os.makedirs(os.path.join(self.top, folder))
        self.write('driver/small.py', LIMIT)
        self.write('driver/other.py', LIMIT)
        self.write('driver/tests/test_small.py', TEST)
        self.write('driver/tests/test_other.py', 'import other\n\n\ndef test_it() -> None:\n    assert not other\n')
        for words in ['init', '-q'], ['add', '.'], ['-c', 'user.name=x', '-c', 'user.email=x', 'commit', '-qm', 'x']:
            subprocess.run(['git', *words], cwd=self.top, check=True)

    def ran(self) -> tuple[int, str]:
        around = {name: its for name, its in os.environ.items() if not name.startswith(('E1GW', 'PYTEST', 'GIT'))}
        done = subprocess.run([os.path.join(self.top, 'scripts', 'test'), '--changed'], cwd=self.top, env=around,
                              stdout=subprocess.PIPE, text=True, check=False)
        return done.returncode, done.stdout

    def test_nothing_is_changed(self) -> None:
        self.assertEqual(self.ran(), (0, 'no Python module of driver/ differs from the last commit\n'))

    def test_a_limit_is_changed(self) -> None:
        """The test that fails is named, and no other one is run; nothing is built."""
        self.write('driver/small.py', LIMIT.replace('3', '4'))
        status, said = self.ran()
        self.assertEqual((status > 0, said.splitlines()[-1]), (True, '0 passed, 1 failed'), said)
        self.assertIn('driver/tests/test_small.py::test_more_than_three_are_too_much', said)
        self.assertIn('no program is built', said)
