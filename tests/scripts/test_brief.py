"""What pytest leaves out of the tests if it is to be brief, and what it counts."""
import os
import shutil
import subprocess
import sys

from . import FolderCase
from e1gw_common.programs import TOP

TEST = '''import os
import pytest
def test_the_program() -> None:
    if not os.access(os.environ['E1GW'], os.X_OK):
        pytest.skip('no program')
'''


class Brief(FolderCase):
    def last_lines(self, *options: str) -> list[str]:
        """What pytest says last of one test in a quick file and one in another, which want the program."""
        shutil.copy(os.path.join(TOP, 'conftest.py'), self.top)
        for name in 'test_config.py', 'test_sessions.py':
            self.write(name, TEST)
        known = {name: its for name, its in os.environ.items() if name not in ('E1GW', 'E1GW_SEED')}
        done = subprocess.run([sys.executable, '-B', '-m', 'pytest', '-q', *options, self.top], cwd=self.top, env=known,
                              capture_output=True, text=True, check=False)
        return done.stdout.splitlines()[-2:]

    def test_brief_leaves_out_what_a_program_without_proof_makes_slow(self) -> None:
        left_out, last = self.last_lines('--brief', '--program=/bin/true')
        self.assertEqual((left_out.split(':')[0], last), ('1 tests left out', '1 passed, 0 failed'))

    def test_all_run_else_and_fail_without_a_program(self) -> None:
        self.assertEqual(self.last_lines('--program=/bin/true')[1], '2 passed, 0 failed')
        self.assertEqual(self.last_lines('--program=/none')[1], '0 passed, 2 failed')
