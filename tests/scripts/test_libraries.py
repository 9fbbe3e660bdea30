"""Tests scripts/libraries and scripts/build on a small tree, with a command rt that proves nothing."""
import os
import shutil
import signal
import subprocess
import time
from unittest import mock

from . import FolderCase, SCRIPTS, loaded

ROWS = 'low:\nother:\nmiddle: low arrayvec\ngateway_main: clap middle other\napart: low\n'
# It notes when it begins and ends with a library, and what of the libraries below is there.
RT = '''#!/bin/sh
case $1 in
version) echo a kit ;;
lib)
  name=$(basename "$PWD")
  echo "begin $name" >> "$NOTES"
  [ "$name" != "$SLOW" ] || exec sleep 30
  [ "$name" != "$REFUSED" ] || { echo 'error: no proof of its goal'; exit 1; }
  [ "$name" != middle ] || cat ../low/out/rlib/made || exit 1
  case " $BOTH " in *" $name "*)
    for each in $BOTH; do until grep -q "begin $each" "$NOTES"; do sleep 0.01; done; done ;;
  esac
  mkdir -p out/rlib
  echo "$name" > out/rlib/made
  echo "end $name" >> "$NOTES"
  ;;
run)
  echo 'checked gateway_main::main'
  [ "$REFUSED" != gateway_main ] || { echo 'error: no proof of its goal'; exit 1; }
  mkdir -p out
  printf '#!/bin/sh\\n' > out/gateway_main
  chmod +x out/gateway_main
  ;;
esac
'''


class Tree(FolderCase):
    def setUp(self) -> None:
        super().setUp()
        self.notes = f'{self.top}/notes'
        os.makedirs(f'{self.top}/tree/scripts')
        for name in ('build', 'libraries', 'libraries.py', 'kit.py'):
            shutil.copy(f'{SCRIPTS}/{name}', f'{self.top}/tree/scripts/{name}')
        self.write('bin/rt', RT, 0o755)
        self.write('tree/crates.txt', ROWS)
        self.write('tree/HANDLES', '')
        for row in ROWS.splitlines():
            self.write(f'tree/crates/{row.partition(":")[0]}/src/lib.rt', '')

    def begin(self, words: list[str], **given: str) -> subprocess.Popen[str]:
        paths = {'PATH': f'{self.top}/bin:{os.environ["PATH"]}', 'NOTES': self.notes, 'REFUSED': '', 'SLOW': '',
                 'BOTH': ''}
        return subprocess.Popen([f'{self.top}/tree/scripts/{words[0]}', *words[1:]], stdin=subprocess.DEVNULL,
                                stdout=subprocess.PIPE, stderr=subprocess.STDOUT, text=True,
                                env={**os.environ, **paths, **given})

    def run_to_end(self, words: list[str], **given: str) -> tuple[int, str]:
        process = self.begin(words, **given)
        told = process.communicate(timeout=60)[0]
        return process.returncode, told

    def noted(self) -> list[str]:
        if not os.path.exists(self.notes):
            return []
        with open(self.notes, encoding='utf-8') as file:
            return file.read().splitlines()

    def built(self) -> list[str]:
        return [name for name in ('low', 'other', 'middle', 'apart')
                if os.path.exists(f'{self.top}/tree/crates/{name}/out/rlib/made')]

    def side_trees(self) -> list[str]:
        tree = f'{self.top}/tree'
        return [at for at, _, files in os.walk(tree) if 'crates.txt' in files and at != tree]


class Libraries(Tree):
    def test_side_by_side_and_lowest_first(self) -> None:
        status, told = self.run_to_end(['libraries', '--lanes', '2'], BOTH='low other')
        noted = self.noted()
        self.assertEqual(status, 0, told)
        self.assertEqual({*noted[:2]}, {'begin low', 'begin other'})
        self.assertLess(noted.index('end low'), noted.index('begin middle'))
        self.assertEqual(self.built(), ['low', 'other', 'middle'])
        self.assertIn('proving middle', told)

    def test_one_lane(self) -> None:
        self.assertEqual(self.run_to_end(['libraries', '--lanes', '1'])[0], 0)
        self.assertEqual([it.split()[0] for it in self.noted()], ['begin', 'end'] * 3)

    def test_named_alone(self) -> None:
        self.assertEqual(self.run_to_end(['libraries', 'apart'])[0], 0)
        self.assertEqual(self.built(), ['low', 'apart'])

    def test_refused(self) -> None:
        status, told = self.run_to_end(['libraries'], REFUSED='low')
        self.assertEqual(status, 70)
        self.assertIn('low is not proved', told)
        self.assertIn('error: no proof of its goal', told)
        self.assertNotIn('begin middle', self.noted())

    def test_no_tree_is_left(self) -> None:
        for with_git in (False, True):
            if with_git:
                subprocess.run(['git', 'init', '-q', f'{self.top}/tree'], check=True)
            for refused in ('', 'middle'):
                self.run_to_end(['libraries'], REFUSED=refused)
                self.assertEqual(self.side_trees(), [])

    def test_unknown_name(self) -> None:
        self.assertEqual(self.run_to_end(['libraries', 'none'])[0], 2)
        self.assertEqual(self.noted(), [])

    def test_help_builds_nothing(self) -> None:
        status, told = self.run_to_end(['libraries', '--help'])
        self.assertEqual(status, 0)
        self.assertIn('at a time', told)
        self.assertEqual(self.noted(), [])

    def test_lanes(self) -> None:
        lanes_for = loaded('libraries.py').lanes_for
        rows = [(4, 23, 4), (4, 7, 2), (4, 3, 2), (1, 23, 1), (1, 3, 1), (16, 9, 4)]
        for processors, gigabytes, lanes in rows:
            with self.subTest(processors=processors, gigabytes=gigabytes):
                self.assertEqual(lanes_for(processors, gigabytes * 10**9), lanes)


    def test_longest_chain(self) -> None:
        """The next crate of the longest chain has two jobs."""
        module = loaded('libraries.py')
        with mock.patch.object(module, 'lines_of', {'low': 10, 'middle': 10, 'other': 15, 'more': 1}.__getitem__):
            build = module.Build(['low', 'middle', 'other', 'more'], {
                'low': [], 'middle': ['low'], 'other': [], 'more': []}, 4)
        self.assertEqual([build.jobs(name) for name in ('low', 'middle', 'other', 'more')], [2, 1, 1, 1])
        build._left.remove('low')
        self.assertEqual([build.jobs(name) for name in ('middle', 'other')], [1, 2])


class Signals(Tree):
    def in_middle(self, words: list[str]) -> subprocess.Popen[str]:
        """A run that proves `middle`, and has proved `other` beside it."""
        self.write('notes', '')
        process = self.begin(words, SLOW='middle')
        while 'begin middle' not in self.noted() or self.built() != ['low', 'other']:
            self.assertIsNone(process.poll())
            time.sleep(0.05)
        return process

    def ended(self, words: list[str], number: int) -> None:
        """A run that this signal ends."""
        process = self.in_middle(words)
        process.send_signal(number)
        process.communicate(timeout=60)
        self.assertEqual(process.returncode, 70)
        self.assertEqual(self.built(), ['low', 'other'])
        self.assertEqual(self.side_trees(), [])

    def test_libraries(self) -> None:
        for number in (signal.SIGTERM, signal.SIGINT, signal.SIGHUP):
            with self.subTest(number=number):
                self.ended(['libraries'], number)

    def test_build(self) -> None:
        self.ended(['build'], signal.SIGTERM)

    def test_put_back(self) -> None:
        with self.in_middle(['libraries']) as process:
            process.kill()
        self.assertNotEqual(self.side_trees(), [])
        self.assertEqual(self.run_to_end(['libraries', '--put-back'])[0], 0)
        self.assertEqual(self.side_trees(), [])
        self.assertEqual(self.built(), ['low', 'other'])


class Build(Tree):
    def test_program(self) -> None:
        status, told = self.run_to_end(['build'])
        self.assertEqual(status, 0, told)
        self.assertIn('e1gw: proving gateway_main', told)
        self.assertTrue(told.endswith(f'{self.top}/tree/out/e1gw\n'))
        self.assertEqual(self.run_to_end(['build']), (0, f'{self.top}/tree/out/e1gw\n'))

    def test_library_refused(self) -> None:
        status, told = self.run_to_end(['build'], REFUSED='middle')
        self.assertEqual(status, 70)
        self.assertIn('middle is not proved', told)
        self.assertFalse(os.path.exists(f'{self.top}/tree/out/e1gw'))

    def test_program_refused(self) -> None:
        status, told = self.run_to_end(['build'], REFUSED='gateway_main')
        self.assertEqual(status, 70)
        self.assertIn('error: no proof of its goal', told)
