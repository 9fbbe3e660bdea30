"""The commands in Python: their programs in a clone and as a package of Python; and their options and words, as the
manual pages name them and bash offers them."""
from __future__ import annotations

import argparse
import os
import re
import shutil
import sys
import tomllib
import unittest
from pathlib import Path

from . import support
from .support import ran
from e1gw import ctl
from e1gw_common.start import COMMANDS
from e1gw.holder.options import FLAGS, TEXTS
from e1gw_picture import main as picture
from e1gw.watcher import commands as control, main as watcher
from e1gw_tie import main as tie

BIN, DRIVER = (os.path.join(support.TOP, name) for name in ('bin', 'driver'))
AROUND = os.environ | {'PYTHONPATH': DRIVER}
COMPLETION = os.path.join(support.TOP, 'dist', 'completions', 'e1gw-ctl.bash')
ASKS = '''. "$0"; cd "$1"; COMP_LINE=$2 COMP_POINT=${#2} COMP_TYPE=9; _python_argcomplete "./${2%% *}"
printf '%s\\n' "${COMPREPLY[@]}"'''
# What e1gw-trunk loads first, as signals come; it says which of them wait.
COMES_AT_IMPORT = '''import os, signal
for name in 'HUP', 'INT', 'TERM', 'USR1', 'USR2':
    os.kill(os.getpid(), getattr(signal, f'SIG{name}'))
def start(name):
    print(*sorted(signal.Signals(each).name for each in signal.sigpending()))
'''
DEBIAN = '/usr/bin:/bin'            # whose python3 has Debian's packages


class CommandNameTests(support.FolderCase):
    def test_one_text_finds_the_package(self) -> None:
        """The toolchain takes no links, so each folder with scripts has the same file."""
        found = [os.path.join(folder, 'paths.py') for folder, _, names in os.walk(support.TOP)
                 if 'paths.py' in names and os.sep + 'out' + os.sep not in folder + os.sep]
        self.assertGreater(len(found), 1)
        self.assertEqual(len({*map(support.text_of, found)}), 1)

    def test_each_command_has_a_program(self) -> None:
        project = tomllib.loads(support.text_of(os.path.join(support.TOP, 'pyproject.toml')))
        programs = sorted(name for name in os.listdir(BIN) if name != 'e1gw')
        self.assertEqual(programs, sorted(f'e1gw-{name}' for name in COMMANDS))
        self.assertEqual(project['tool']['setuptools']['script-files'], [f'bin/{name}' for name in programs])
        folders = {path[len(DRIVER) + 1:].replace('/', '.') for path, _, names in os.walk(DRIVER)
                   if '__init__.py' in names}
        self.assertEqual(set(project['tool']['setuptools']['packages']), folders - {'e1gw_testing', 'tests'})

    def test_each_program_runs_its_command(self) -> None:
        """Also by a link of another name."""
        for name in COMMANDS:
            self.assertIn(f"\nstart('{name}')\n", support.text_of(os.path.join(BIN, f'e1gw-{name}')))
        os.symlink(os.path.join(BIN, 'e1gw-ctl'), self.path('west'))
        status, said, _ = ran(self.path('west'), '--help')
        self.assertEqual((status, 'e1gw-ctl' in said), (0, True))

    def test_signals_that_come_as_e1gw_trunk_begins(self) -> None:
        """They wait, also while what it imports is loaded."""
        shutil.copytree(BIN, self.path('bin'))
        os.makedirs(self.path('driver/e1gw_common'))
        self.write('driver/e1gw_common/start.py', COMES_AT_IMPORT)
        self.assertEqual(ran(self.path('bin/e1gw-trunk')), (0, 'SIGHUP SIGINT SIGTERM SIGUSR1 SIGUSR2\n', ''))

    def test_a_package_that_is_not_there(self) -> None:
        """It is named."""
        for folder in BIN, DRIVER:
            shutil.copytree(folder, self.path(os.path.basename(folder)),
                            ignore=shutil.ignore_patterns('__pycache__', 'e1gw_picture', 'tests'))
        for name, *words in ('call', '1-2-3'), ('ctl', self.path('none'), 'why', '3'):
            self.assertEqual(ran(self.path(f'bin/e1gw-{name}'), *words),
                             (1, '', f'e1gw-{name}: it needs the package e1gw-picture\n'))


class ProgramBuiltTests(support.FolderCase):
    """A command of a clone whose program is not built yet."""

    def built(self, status: int, asked: str = 'program_of') -> tuple[int, str, str]:
        os.makedirs(self.path('scripts'), exist_ok=True)
        os.chmod(self.write('scripts/build', f'#!/bin/sh\necho "e1gw: proving gw_switch" >&2\necho /program$1\n'
                            f'exit {status}\n'), 0o755)
        code = f'from e1gw_common import programs; programs.TOP = {self.folder!r}; print(programs.{asked}(None))'
        return ran(sys.executable, '-c', code, env=AROUND | {'E1GW': ''})

    def test_what_is_built(self) -> None:
        """The progress is shown, and a build that fails ends it."""
        said = 'e1gw: proving gw_switch\n'
        self.assertEqual([self.built(0), self.built(70)], [(0, '/program\n', said), (70, '', said)])
        self.assertEqual(self.built(0, 'path_of_program')[:2], (0, '/program--unproved\n'))


def page(name: str) -> str:
    return support.text_of(f'{support.TOP}/dist/man/{name}')


def offered(*words: str) -> list[str]:
    """What completes the word behind these of e1gw-ctl."""
    return ctl.next_words(argparse.Namespace(all=False, path=words[0], command=[*words[1:]]))


class PagesTests(unittest.TestCase):
    def test_options(self) -> None:
        its = {'e1gw-trunk': {f'--{name}' for name in (*TEXTS, *FLAGS, 'help')}}
        for command, parser in (('e1gw-watch', watcher.parser()), ('e1gw-tie', tie.parser()),
                                ('e1gw-picture', picture.parser())):
            its[command] = {word for action in parser._actions for word in action.option_strings if word[:2] == '--'}
        for command, options in its.items():
            synopsis, described = page(f'{command}.1').split('.Sh DESCRIPTION')
            named = {f'--{word}' for word in re.findall(r'(?:Fl|\|) -([\w-]+)', synopsis)}
            items = {f'--{word}' for line in re.findall(r'^\.It Fl .*', described, re.M)
                     for word in re.findall(r'(?:Fl|,) -([\w-]+)', line)}
            self.assertEqual(items, options)
            self.assertLessEqual(named, options)

    def test_commands(self) -> None:
        commands = {*control.COMMANDS, 'codec', 'status', 'events', 'on-loss', 'role', 'promote', 'demote', 'move',
                    'reload', 'quit', 'help'}
        text = page('e1gw-watch.1').split('.Sh COMMANDS')[1].split('.Sh FILES')[0]
        named = {word for line in re.findall(r'^\.It Ic .*', text, re.M) for word in re.findall(r'Ic ([\w-]+)', line)}
        self.assertEqual(named, commands)
        own = {'calls', 'outages', 'wait', 'why', 'report'}               # (of e1gw-ctl itself)
        self.assertEqual({*offered('trunk1')}, commands - {'on-loss'} | own)
        self.assertEqual({word for word in commands if word in (control.__doc__ or '')}, commands - {'on-loss'})

    def test_words_of_parts_that_are_gone(self) -> None:
        for pattern in '*.md', 'docs/*', 'dist/**/*', 'driver/e1gw*/**/*.py':
            for path in filter(Path.is_file, Path(support.TOP).glob(pattern)):
                self.assertNotRegex(path.read_text('utf-8'), r'(?i)\b(shadow|follower|keeper)\b', path)

    def test_codecs(self) -> None:
        self.assertEqual({*offered('trunk1', 'codec', '3')}, set(control.CODECS))

    def test_where_the_socket_of_a_name_is(self) -> None:
        self.assertEqual(ctl.path_of('trunk1'), '/run/e1gw/trunk1/control')
        self.assertIn(ctl.path_of('NAME'), page('e1gw-ctl.1'))
        self.assertIn(' --control /run/e1gw/%i/control', support.text_of(
            f'{support.TOP}/dist/system/e1gw-watch@.service'))


class CompletionTests(unittest.TestCase):
    def offered(self, line: str, path: str = DEBIAN) -> tuple[list[str], str]:
        """The words that are offered for a line, and standard error."""
        _, found, said = support.ran('/bin/bash', '-c', ASKS, COMPLETION, BIN, line,
                                     env={'PATH': path})
        return sorted(each.strip() for each in found.splitlines()), said

    @unittest.skipUnless(shutil.which('register-python-argcomplete', path=DEBIAN), 'python3-argcomplete')
    def test_words(self) -> None:
        for line, words in (('e1gw-tie --congestion ', 'clear-back wait'),
                            ('e1gw-tie --co', '--congestion --connect --control'),
                            ('e1gw-watch --js', '--json'),
                            ('e1gw-config --role o', 'odd outgoing'), ('e1gw-picture --la', '--last'),
                            ('e1gw-ctl ./west cl', 'clear clear-back'), ('e1gw-ctl --all se', 'seize'),
                            ('e1gw-ctl ./west codec 3 g726-1', 'g726-16')):
            with self.subTest(line):
                self.assertEqual(self.offered(line), (sorted(words.split()), ''))

    def test_without_argcomplete(self) -> None:
        """A shell that cannot find it gets the package's name."""
        self.assertIn('python3-argcomplete', self.offered('e1gw-tie --', '/none')[1])
