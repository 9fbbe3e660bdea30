"""scripts/need: what is missing is named, and installed only where that was asked for."""
import os
import subprocess

from . import FolderCase, SCRIPTS

NEED = os.path.join(SCRIPTS, 'need')
SCRIPT = f'''#!/usr/bin/env bash
set -euo pipefail
. "{NEED}"
need no-such-command no-such-package bash bash
echo "words: $*"
'''


class Need(FolderCase):
    def setUp(self) -> None:
        super().setUp()
        self.write('try', SCRIPT, 0o755)
        self.write('apt-get', f'#!/bin/sh\necho "$*" >> {self.top}/called\n', 0o755)

    def ran(self, *words: str, **around: str) -> subprocess.CompletedProcess[str]:
        usual = {name: value for name, value in os.environ.items() if name not in ('CI', 'E1GW_INSTALL')}
        usual['PATH'] = f'{self.top}:{usual["PATH"]}'
        return subprocess.run([os.path.join(self.top, 'try'), *words], env=usual | around, capture_output=True,
                              text=True)

    def called(self) -> str:
        try:
            with open(os.path.join(self.top, 'called'), encoding='utf-8') as file:
                return file.read()
        except FileNotFoundError:
            return ''

    def test_unasked_it_names_the_command_and_ends(self) -> None:
        ended = self.ran('one')
        self.assertEqual((ended.returncode, ended.stdout, self.called()), (2, '', ''))
        self.assertIn('apt-get install --no-install-recommends no-such-package', ended.stderr)

    def test_asked_it_installs_and_goes_on(self) -> None:
        ended = self.ran('--install', 'one', 'two')
        self.assertEqual((ended.returncode, ended.stdout), (0, 'words: one two\n'))
        self.assertIn('no-such-package', self.called())

    def test_so_it_does_where_nobody_answers(self) -> None:
        self.assertEqual(self.ran(CI='true').returncode, 0)
        self.assertIn('no-such-package', self.called())
