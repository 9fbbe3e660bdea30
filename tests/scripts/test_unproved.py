"""The program without proof, as bin/e1gw and scripts/build make and use it, on a small tree with a command rt whose try
runs a script."""
from __future__ import annotations

import contextlib
import io
import os
import re
import shutil
import signal
import subprocess
import time
from typing import Any
from unittest import mock

from . import FolderCase, loaded
from e1gw_common.programs import TOP

# The program of the try. `check` keeps its input open itself, as the real one does.
PROGRAM = '''#!/bin/sh
case $1 in
check) while IFS= read -r line; do echo "$line"; done < "$3" ;;
encode) echo "coded $(cat)"; echo 'of encode' >&2; exit 3 ;;
*) echo "not proved: $*" ;;
esac
'''
RT = '''#!/bin/bash
case $1 in
version) echo a kit ;;
lib) mkdir -p out/rlib ;;
run)
  mkdir -p out
  printf '#!/bin/sh\\necho proved\\n' > out/gateway_main
  chmod +x out/gateway_main
  ;;
try)
  echo try >> "$NOTES"
  while [ -n "$HELD" ] && [ ! -e "$HELD" ]; do sleep 0.05; done
  if grep -q broken src/main.rt; then
    printf 'error[names]: broken is no word\\n --> src/main.rt:1:1\\nrun=none proved=no\\n' >&2
    exit 1
  fi
  [ -z "$EDITED" ] || echo '// edited' >> src/main.rt
  until [ "$1" = -- ]; do shift; done
  shift
  made=$(mktemp -d)
  trap 'rm -rf "$made"' EXIT
  cp "$PROGRAM" "$made/program"
  if [ "$1$HIDDEN" = checkyes ]; then cat "$3"; else "$made/program" "$@"; fi
  status=$?
  printf 'checked: ended status=%s\\nrun=ended status=%s runners=1 proved=no\\n' "$status" "$status" >&2
  exit "$status"
  ;;
esac
'''
UNPROVED = ("e1gw: not proved yet, checks at run time stand in the proof's place: scripts/build proves it, in 20 to "
            "30 minutes on four cores\n")


class UnprovedCase(FolderCase):
    def setUp(self) -> None:
        super().setUp()
        self.notes, self.tree = f'{self.top}/notes', f'{self.top}/tree'
        for name in ('bin', 'scripts'):
            os.makedirs(f'{self.tree}/{name}')
        for name in ('build', 'libraries', 'libraries.py', 'kit.py', 'unproved.py'):
            shutil.copy(f'{TOP}/scripts/{name}', f'{self.tree}/scripts/{name}')
        shutil.copy(f'{TOP}/bin/e1gw', f'{self.tree}/bin/e1gw')
        self.write('bin/rt', RT, 0o755)
        self.write('tree/crates.txt', 'gateway_main:\n')
        self.write('tree/HANDLES', '')
        self.write('tree/dist/system/example.toml', 'prefill = 0\n')
        self.source('')
        self.write('program', PROGRAM, 0o755)

    def source(self, text: str) -> None:
        self.write('tree/crates/gateway_main/src/main.rt', text)

    def begin(self, *words: str, **given: str) -> subprocess.Popen[str]:
        around = {'PATH': f'{self.top}/bin:{os.environ["PATH"]}', 'NOTES': self.notes,
                  'PROGRAM': f'{self.top}/program', 'HELD': '', 'EDITED': '', 'HIDDEN': ''}
        return subprocess.Popen([f'{self.tree}/{words[0]}', *words[1:]], cwd=self.top, stdin=subprocess.PIPE,
                                stdout=subprocess.PIPE, stderr=subprocess.PIPE, text=True, start_new_session=True,
                                env={**os.environ, **around, **given})

    def ran(self, *words: str, **given: str) -> tuple[int, str, str]:
        process = self.begin(*words, **given)
        out, told = process.communicate('speech', timeout=60)
        return process.returncode, out, told

    def encoded(self, **given: str) -> str:
        """What is said beside the job, which is done and ends as the program does."""
        status, out, told = self.ran('bin/e1gw', 'encode', **given)
        self.assertEqual((status, out), (3, 'coded speech\n'), told)
        self.assertTrue(told.endswith('of encode\n'), told)
        return told.removesuffix('of encode\n')

    def tries(self) -> int:
        if not os.path.exists(self.notes):
            return 0
        with open(self.notes, encoding='utf-8') as file:
            return len(file.readlines())

    def kept(self) -> list[str]:
        """What there is of the program."""
        return sorted(name for name in os.listdir(f'{self.tree}/out') if not name.endswith(('.lock', '.log')))

    def until_tried(self, process: subprocess.Popen[str]) -> None:
        while not self.tries():         # (it is being built)
            self.assertIsNone(process.poll())
            time.sleep(0.05)


class Front(UnprovedCase):
    def test_it_is_built_once_and_said_each_time(self) -> None:
        told = self.encoded()
        self.assertEqual(told.splitlines(True)[-1], UNPROVED)
        self.assertIn('building the program without proof', told)
        self.assertNotIn('run=', told)
        for _ in range(2):
            self.assertEqual(self.encoded(), UNPROVED)
        self.assertEqual(self.tries(), 1)
        self.assertEqual(self.kept(), [f'e1gw.unproved{end}' for end in ('', '.sources', '.touched')])

    def test_a_proved_program_is_used(self) -> None:
        self.assertEqual(self.ran('scripts/build')[0], 0)
        for words in ('encode',), ('serve',), ('--help',):
            self.assertEqual(self.ran('bin/e1gw', *words), (0, 'proved\n', ''))
        self.assertEqual(self.ran('scripts/build', '--built'), (0, f'{self.tree}/out/e1gw\n', ''))
        self.assertEqual(self.tries(), 0)

    def test_what_carries_calls(self) -> None:
        """It does, too, and says each time what it is. What is asked for the proved one gets none."""
        self.encoded()
        self.assertEqual(self.ran('bin/e1gw', 'serve', '--help'), (0, 'not proved: serve --help\n', UNPROVED))
        status, out, told = self.ran('scripts/build', '--built')
        self.assertEqual((status, out), (70, ''))
        self.assertRegex(told, 'there is no proved program yet: scripts/build proves it, in 20 to 30 minutes')

    def test_a_source_that_changes(self) -> None:
        """It is built again where the text is another one, and where it was changed while it was read."""
        self.encoded()
        self.source('')
        self.assertEqual((self.encoded(), self.tries()), (UNPROVED, 1))
        self.source('// other')
        self.encoded(EDITED='yes')
        self.assertEqual(self.tries(), 2)
        self.encoded()
        self.encoded()
        self.assertEqual(self.tries(), 3)

    def test_a_broken_source(self) -> None:
        self.encoded()
        self.source('broken')
        status, out, told = self.ran('bin/e1gw', 'encode')
        self.assertEqual((status, out), (70, ''))
        self.assertIn('error[names]: broken is no word\n --> src/main.rt:1:1\n', told)
        self.assertNotIn('of encode', told)
        self.assertEqual(self.kept(), [])

    def test_where_it_cannot_be_kept(self) -> None:
        """(It is not waited for here so long.)"""
        with open(f'{TOP}/scripts/unproved.py', encoding='utf-8') as file:
            text, count = re.subn(r'(?m)^PATIENCE = 5.0 ', 'PATIENCE = 0.1 ', file.read())
        self.write('tree/scripts/unproved.py', text)
        self.assertEqual(count, 1)
        status, out, told = self.ran('bin/e1gw', 'encode', HIDDEN='yes')
        self.assertEqual((status, out, self.kept()), (70, '', []))
        self.assertIn('rt try does not let its program be kept', told)

    def test_a_second_one_waits(self) -> None:
        held = f'{self.top}/held'
        first = self.begin('bin/e1gw', 'encode', HELD=held)
        self.until_tried(first)
        second = self.begin('bin/e1gw', 'encode', HELD=held)
        assert second.stderr
        self.assertIn('waiting for another build', second.stderr.readline())
        self.write('held', '')
        for process in (first, second):
            self.assertEqual(process.communicate('speech', timeout=60)[0], 'coded speech\n')
        self.assertEqual(self.tries(), 1)

    def test_a_signal_leaves_nothing(self) -> None:
        for number in (signal.SIGINT, signal.SIGTERM, signal.SIGHUP):
            self.write('notes', '')
            process = self.begin('bin/e1gw', 'encode', HELD=f'{self.top}/never')
            self.until_tried(process)
            os.killpg(process.pid, number)
            process.communicate(timeout=60)
            self.assertIn(process.returncode, (70, -number))
            self.assertEqual(self.kept(), [])
        self.assertTrue(self.encoded())


class Progress(FolderCase):
    def test_lines_come(self) -> None:
        module: Any = loaded('unproved.py')
        said = io.StringIO()
        with mock.patch.object(module, 'BETWEEN_LINES', 0.3), contextlib.redirect_stderr(said), \
                subprocess.Popen(['sleep', '1']) as process:
            module.watch(process, f'{self.top}/none', f'{self.top}/none')
        self.assertGreater(said.getvalue().count('e1gw: building it without proof ('), 1)
