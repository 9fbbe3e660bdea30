"""e1gw-ctl: several circuits, one row of the status, and all trunks of a machine."""
from __future__ import annotations

import argparse
import contextlib
import errno
import inspect
import io
import json
import os
import re
import shutil
import socket
import sys
import tarfile
import tempfile
import threading
import time
import unittest
from unittest import mock

from . import limits, support
from .limits import LONG
from .test_texts import STATUS
from e1gw import control_sockets, ctl, ctl_all
from e1gw_common.call_lines import FIELDS, CallLine, csv_line
from e1gw_common.fault_words import group_of, words_of_fault
from e1gw_common.plain import typed
from e1gw.outages import FIELDS as FIELDS_OF_OUTAGES
from e1gw.status import TrunkStatus


class CtlWordTests(unittest.TestCase):
    def test_several_circuits(self) -> None:
        for command, each in (('seize 1-3,7', ['seize 1', 'seize 2', 'seize 3', 'seize 7']),
                              ('codec 4-5 pcma 8', ['codec 4 pcma 8', 'codec 5 pcma 8']), ('seize 3', ['seize 3']),
                              ('seize x-3', ['seize x-3']), ('seize 1-999999', ['seize 1-999999']),
                              ('block 1-3,7 now', ['block 1-3 now', 'block 7 now']), ('unblock 3', ['unblock 3']),
                              ('block 1-2 auto', ['block 1 auto', 'block 2 auto']),
                              ('seize', ['seize']), ('status', ['status']), ('status json', ['status json']),
                              ('status 1-2,7', ['status 1', 'status 2', 'status 7']),
                              ('on-loss clear 3', ['on-loss clear 3'])):
            self.assertEqual(ctl.each_circuit(command), each)

        for word, circuits in (('1-3', 3), ('98-99', 2), ('1-999', 999), ('001-3', 3), ('1-9999', 1), ('12345', 1),
                               ('1,123456', 1), ('3-1', 1), ('3-3', 1), ('-3', 1), ('3-', 1), ('1--2', 1), ('', 1)):
            self.assertEqual(len(ctl.circuits_of(word)), circuits, word)
        for word in ('7,1,123456', '4,3-1', '4,-1'):        # (of which no circuit is meant)
            self.assertEqual(ctl.circuits_of(word), [word])

    def test_limits(self) -> None:
        """A command has as long as the manual says, which is longer than the watcher waits for what it asks."""
        has, last = control_sockets.LIMITS, limits.USUAL
        usual = inspect.signature(ctl.main).parameters['patience'].default
        self.assertIn(f'{usual:g} s, {has["reload"]:g} s for reload, {has["promote"]:g} s for promote, demote and move',
                      support.text_of(f'{support.TOP}/dist/man/e1gw-ctl.1'))
        self.assertGreater(usual, last['watcher.blocks.PATIENCE'])
        self.assertGreater(has['reload'], last['watcher.ask_holder.PATIENCE'])
        for word in 'promote', 'demote', 'move':
            self.assertEqual(has[word], has['promote'])
            self.assertGreater(has[word], last['watcher.pair.PATIENCE'] + last['watcher.feed.PATIENCE'])

    def test_paths(self) -> None:
        """The name of a trunk, unless it has a / or is that of a socket here."""
        with tempfile.TemporaryDirectory() as folder, contextlib.chdir(folder), support.listening('west'):
            self.assertEqual([ctl.path_of(word) for word in ('west', 'east', './east', '/east')],
                             ['west', f'{control_sockets.SOCKETS}/east/control', './east', '/east'])


class StandInTrunk:
    """Answers commands at a control socket by what a test gives; without an answer it closes the connection."""

    def __init__(self, path: str, answers: dict[str, str]) -> None:
        self.path, self.answers, self.asked = path, answers, list[str]()
        self.listener = support.listening(path)
        self.listener.listen(8)
        threading.Thread(target=self.serve, daemon=True).start()

    def serve(self) -> None:
        with contextlib.suppress(OSError):
            while True:
                line, _ = self.listener.accept()
                with line, line.makefile('r') as lines:
                    for command in map(str.strip, lines):
                        self.asked.append(command)
                        line.sendall(self.answers.get(command, '').encode())
                        if command in ('events', 'reload force') or command not in self.answers:
                            break


class Told(io.StringIO):
    """What is printed; `lines` has how many lines could be read each time that it was flushed."""

    def __init__(self) -> None:
        super().__init__()
        self.lines = list[int]()

    def flush(self) -> None:
        self.lines.append(self.getvalue().count('\n'))


class CtlAnswerCase(support.FolderCase):
    """Tests of what is printed of answers, and the status, by trunks that answer what a test gives."""

    def setUp(self) -> None:
        super().setUp()
        for name, folder in (('SOCKETS', 'run'), ('UNITS', 'etc')):
            for module in (ctl, control_sockets):
                patch = mock.patch.object(module, name, self.path(folder), create=True)
                patch.start()
                self.addCleanup(patch.stop)
        os.mkdir(self.path('run'))
        self.trunks = {name: self.trunk(name) for name in ('west', 'east')}

    def trunk(self, name: str) -> StandInTrunk:
        os.mkdir(self.path(f'run/{name}'))
        trunk = StandInTrunk(self.path(f'run/{name}/control'), {
            'seize 1': 'seize 1: done\n\n', 'seize 2': 'seize 2: refused: not idle\n\n',
            'status': f'trunk {name}\nrows\n\n',
            'status 40': 'status 40: refused: circuits are 1 to 30\n\n', 'help': 'seize 3: refused: x\nhelp\n\n',
            'clear 3': 'clear 3: unknown: no answer: done\n\n',
            'reload': 'a\nreload: done\n\n', 'reload force': 'reload: d', 'reload when-idle': 'reload: done\n\n',
            'unblock 3': 'unblock 3: done\n\n',
            'events': 'events: done\n\n{"event": 1}\n{"event": 2}\n'})
        self.addCleanup(trunk.listener.close)
        return trunk

    def ctl(self, *words: str, given: str = '', patience: float = LONG) -> tuple[int | str | None, list[str], str]:
        self.told, err = Told(), io.StringIO()
        with mock.patch.object(sys, 'argv', ['e1gw-ctl', *words]), contextlib.redirect_stdout(self.told), \
                contextlib.redirect_stderr(err), mock.patch.object(sys, 'stdin', io.StringIO(given)), \
                self.assertRaises(SystemExit) as ended:
            ctl.main(patience)
        return ended.exception.code, self.told.getvalue().splitlines(), err.getvalue()


class CtlAnswerTests(CtlAnswerCase):
    def test_one_trunk(self) -> None:
        """0 where all was done, 1 where something was refused or not answered; questions are done once answered. Half
        an answer is one."""
        for words, status, told in (
                ('seize 1', 0, ['seize 1: done']), ('seize 2', 1, ['seize 2: refused: not idle']),
                ('seize 1-2', 1, ['seize 1: done', 'seize 2: refused: not idle']),
                ('status', 0, ['trunk west', 'rows']),
                ('status 40', 1, ['status 40: refused: circuits are 1 to 30']),
                ('help', 0, ['seize 3: refused: x', 'help']), ('clear 3', 1, ['clear 3: unknown: no answer: done']),
                ('reload', 0, ['a', 'reload: done']), ('reload --when-idle', 0, ['reload: done']),
                ('reload force', 1, ['reload: d']),
                ('events', 0, ['{"event": 1}', '{"event": 2}']), ('unblock 3', 0, ['unblock 3: done'])):
            with self.subTest(words):
                self.assertEqual(self.ctl('west', *words.split()), (status, told, ''))
                self.assertEqual(self.ctl(self.path('run/west/control'), *words.split())[:2], (status, told))
        self.assertEqual(self.ctl('west', given='seize 1\n\n  seize 2 \nstatus\n'),
                         (1, ['seize 1: done', 'seize 2: refused: not idle', 'trunk west', 'rows'], ''))
        self.assertEqual(self.ctl('west', 'none'), (1, [], 'e1gw-ctl: the trunk has ended\n'))

    def test_a_trunk_that_is_not_in_service(self) -> None:
        """Where a folder has its name."""
        with contextlib.chdir(self.folder):
            os.mkdir('north')
            self.assertEqual(self.ctl('north', 'status'), (
                2, [], f'e1gw-ctl: {self.path("run/north/control")}: No such file or directory (systemctl status '
                'e1gw-watch@north e1gw-trunk@north; e1gw-ctl alone lists the trunks)\n'))
        self.assertEqual(ctl.unit_words('./west.control', FileNotFoundError()), '')

    def test_told_at_once(self) -> None:
        """Each answer can be read before the next one is waited for."""
        self.trunks['west'].answers['status json'] = json.dumps(STATUS) + '\n\n'
        del self.trunks['east'].answers['seize 1']
        for words, lines in (('west seize 1-2', [1, 2, 2]), ('west events', [1, 2, 2]), ('--all seize 1', [1, 2, 2]),
                             ('', [2, 3, 3])):
            self.ctl(*words.split())
            self.assertEqual(self.told.lines, lines, words)

    def test_all_trunks(self) -> None:
        self.assertEqual(self.ctl('--all', 'seize', '1'), (0, ['east: seize 1: done', 'west: seize 1: done'], ''))
        self.assertEqual(self.ctl('--all', 'seize', '1-2')[0], 1)
        self.trunks['east'].answers = {}
        status, told, _ = self.ctl('--all', 'seize', '1')
        self.assertEqual((status, told[1:]), (1, ['west: seize 1: done']))
        self.assertRegex(told[0], '^east: it does not answer: ')

    def test_trunks_that_do_not_answer(self) -> None:
        """Nobody is waited for longer than that: to be let in, or for an answer."""
        for trunk in self.trunks.values():
            trunk.answers |= {'seize 9': '', 'status json': ''}
        why = 'control: no answer within 0.05 s, it may still be done'
        status, told, _ = self.ctl('--all', 'seize', '9', patience=0.05)
        self.assertEqual((status, [line[-len(why):] for line in told]), (1, [why] * 2))
        status, told, said = self.ctl('west', 'seize', '9', patience=0.05)
        self.assertEqual((status, told, said[-len(why) - 1:]), (1, [], f'{why}\n'))
        status, told, _ = self.ctl(patience=0.05)
        self.assertEqual((status, [line.split()[1:] for line in told[1:]]), (1, [
            ['does', 'not', 'answer:', f'{self.trunks[name].path}:', 'timed', 'out'] for name in ('east', 'west')]))
        with support.listening(self.path('full')), contextlib.ExitStack() as waiting:
            with self.assertRaises(BlockingIOError):
                for _ in range(9):
                    waiting.enter_context(control_sockets.connected(self.path('full'), 0.05))

    def test_events_that_come_late(self) -> None:
        """Who follows them waits for each as long as it takes."""
        ours, trunk = socket.socketpair()
        trunk.sendall(b'events: done\n\n')

        def send_event() -> None:
            with trunk:
                self.assertEqual(trunk.recv(100), b'events\n')
                trunk.sendall(b'{"event": 1}\n')
        with mock.patch.object(ctl, 'connected', return_value=ours):
            threading.Timer(0.2, send_event).start()
            self.assertEqual(self.ctl('west', 'events', patience=0.05), (0, ['{"event": 1}'], ''))

    def test_who_may_not_command(self) -> None:
        """The words name the group whose members may."""
        path = self.trunks['west'].path
        fault = control_sockets.with_group(PermissionError(errno.EACCES, 'Permission denied'), path)
        self.assertEqual(words_of_fault(fault), f'{path}: Permission denied; it is for the group {group_of(path)}')

    def test_what_takes_longer(self) -> None:
        for trunk in self.trunks.values():
            trunk.answers['reload'] = ''
        with mock.patch.dict(control_sockets.LIMITS, reload=0.15):
            for words, told in (('--all reload', 'east: '), ('west reload', '')):
                status, lines, said = self.ctl(*words.split(), patience=0.05)
                self.assertEqual((status, 'no answer within 0.15 s' in ''.join([*lines, said])), (1, True), told)


class CtlOwnCommandTests(CtlAnswerCase):
    """What e1gw-ctl does by itself."""

    def test_calls(self) -> None:
        """Those that have ended, of a file and the one before it, whose last line may be torn, and then those that go
        on; as many as are asked for, in local time, with sums below."""
        self.enterContext(mock.patch.dict(os.environ, TZ='Asia/Kolkata'))
        time.tzset()
        self.addCleanup(time.tzset)
        self.addCleanup(os.environ.pop, 'TZ')
        ended = [CallLine('west', str(n % 2 + 1), 'outgoing', f'2027-01-15T08:{n:02}:00.000Z', '',
                          f'2027-01-15T08:{n:02}:30.500Z', 'gateway', 'pcma', '1', '2', '3', '4', f'1f-{n % 2 + 1}-{n}')
                 for n in range(30)]
        going = ended[0]._replace(seized='2027-01-15T09:00:00.000Z', ended='', by='', call='1f-1-99')
        for name, lines in ('calls.csv.1', ended[:15]), ('calls.csv', ended[15:]):
            self.write(name, ''.join(f'{csv_line(line)}\n' for line in (FIELDS, *lines)) + csv_line(ended[0])[:-2])
        self.trunks['west'].answers['status json'] = json.dumps(
            {'calls': [going._asdict()], 'calls_file': self.path('calls.csv')}) + '\n\n'
        for words, numbers in (('', range(10, 30)), ('--last 2', (28, 29)), ('--circuit 2 --last 2', (27, 29)),
                               ('--from 2027-01-15T08:27:30.5Z', (27, 28, 29)), ('--from 2027-01-16', ()),
                               ('--from 2027-01-15 --to 2027-01-15T13:31', (*range(2), None)),
                               ('--from 2027-01-15', range(30))):
            status, told, _ = self.ctl('west', 'calls', *words.split())
            goes = 'circuit' not in words and None not in numbers
            names = [ended[n].call for n in numbers if n is not None] + [going.call] * goes
            self.assertEqual((status, [line.split()[-1] for line in told[1:told.index('')]]), (0, names), words)
        told = self.ctl('west', 'calls', '--last', '1', '--to', '2027-01-15T13:59:00')[1]
        self.assertEqual(told, [
            'trunk         n role     seized (IST)            answered     ended        by               codec    '
            '   sent received   lost   late  discarded                   call',
            'west          2 outgoing 2027-01-15 13:59:00.000              13:59:30.500 gateway          pcma     '
            '      1        2      3      4                              1f-2-29',
            '', '1 calls, 0 answered: 0:00 on average, 0:00 in all; 1 at once at most'])
        self.assertEqual(self.ctl('west', 'calls', '--last', '1', '--to', '2027-01-15T13:59', '--csv')[1], [
            ','.join(FIELDS), csv_line(ended[29])])
        self.assertEqual(self.ctl('west', 'status', '--last', '2')[0], 2)
        self.trunks['east'].answers['status json'] = '{"calls": [], "calls_file": null}\n\n'
        status, told, _ = self.ctl('--all', 'calls', '--last', '1')
        self.assertEqual((status, told[1]), (1, 'east: it writes no --calls: there are no calls that have ended'))
        self.assertEqual(len(told), 6)

    def looks(self, name: str, *looks: dict[int, str]) -> None:
        """At each look a trunk has circuits in these states; 9 is idle, and blocked by the operator."""
        rows = iter(looks)

        def looked(_: float) -> None:
            self.trunks[name].answers['status json'] = json.dumps({'circuits': [
                {'circuit': n, 'state': state, 'blocked': 'blocking'} for n, state in next(rows).items()]
                + [{'circuit': 9, 'state': 'idle', 'blocked': 'blocked'}]}) + '\n\n'
        looked(0)
        self.enterContext(mock.patch('e1gw.ctl_wait.time.sleep', looked))

    def waited(self, *words: str) -> tuple[int | str | None, list[str]]:
        status, told, _ = self.ctl(*words)
        return status, [re.sub(r'^\d\d:\d\d:\d\d ', '', line) for line in told]

    def test_wait(self) -> None:
        """A line whenever states have changed, until all circuits are in the state, or the end of the time. An outgoing
        one that is blocked is not idle, though its line is; a trunk that does not answer, or is not open, is waited
        for."""
        both = {6: 'answered', 7: 'answered', 8: 'acked'}
        self.looks('west', both, both, {7: 'answered'}, {})
        self.assertEqual(self.waited('west', 'wait', '1-30', 'blocked'), (
            0, ['west: 6-7 answered, 8 acked', 'west: 7 answered', 'west: 9 blocked']))
        self.looks('west', both)
        self.assertEqual(self.waited('west', 'wait', '6,8', 'acked', '--for', '0'), (
            3, ['west: 6 answered', 'not all are acked after 0 s']))
        self.assertEqual(self.waited('west', 'wait', '6-8', 'blocking'), (0, ['west: 6-8 blocking']))
        self.assertEqual(self.waited('west', 'wait', '9', 'idle', '--for', '0')[0], 3)
        with mock.patch('e1gw.ctl_wait.time.sleep', side_effect=KeyboardInterrupt):
            self.assertEqual(self.waited('west', 'wait', '1', 'idle'), (3, ['west: it has no such circuit']))
        self.looks('west', {6: 'answered'}, {})
        self.trunks['east'].answers['status json'] = '{"fault": "not open yet", "circuits": []}\n\n'
        self.assertEqual(self.waited('--all', 'wait', '9', 'blocked', '--for', '0'), (
            3, ['east: not open yet', 'west: 9 blocked', 'not all are blocked after 0 s']))
        with contextlib.chdir(self.folder), mock.patch('e1gw.ctl_wait.time.sleep', lambda _: os.symlink(
                self.trunks['west'].path, 'later')):
            missing = self.path('run/later/control')
            self.assertEqual(self.waited('later', 'wait', '9', 'blocked'), (
                0, [f'later: no trunk yet, here or at {missing}', 'later: 9 blocked']))
            os.remove('later')
            self.assertEqual(self.waited('./later', 'wait', '9', 'blocked'), (
                0, ['./later: no trunk yet', './later: 9 blocked']))
        support.listening(left := self.path('left')).close()
        self.assertEqual(self.waited(left, 'wait', '9', 'blocked', '--for', '0'), (
            3, [f'{left}: no trunk listens yet', 'not all are blocked after 0 s']))
        for line in 'status --for 3', 'wait 7', 'wait 7 unheard', 'wait 31 idle', 'wait':
            self.assertEqual(self.ctl('west', *line.split())[0], 2)

    def test_why(self) -> None:
        """Of one circuit; a trunk that records nothing, or has not yet, says so."""
        for path, why in (None, 'west: it records nothing that could be looked at (--session)'), (
                self.folder, f'west: {self.folder} holds no session (files of NAME.e1gw)'):
            self.trunks['west'].answers['status json'] = json.dumps({'session_path': path}) + '\n\n'
            self.assertEqual(self.ctl('west', 'why', '7'), (1, [why], ''))
        for line in 'why', 'why 31', 'why 7 8':
            self.assertEqual(self.ctl('west', *line.split())[0], 2)

    def test_report(self) -> None:
        """A new file has what is known, also of a trunk that does not answer; without addresses if that is asked."""
        for folder in 'bin', 'etc':
            os.mkdir(self.path(folder))
        self.write('bin/journalctl', '#!/bin/sh\necho "$*" from 192.0.2.7:24002\n')
        os.chmod(self.path('bin/journalctl'), 0o755)
        self.write('etc/west.options', 'TRUNK="--satop box.example:5000,192.0.2.7:5000"\n')
        line = csv_line(['west', '1', *[''] * (len(FIELDS) - 2)])
        self.write('calls.csv', f'{line}\n')
        status = json.dumps(STATUS | {'calls_file': self.path('calls.csv')})
        self.trunks['west'].answers['status json'] = f'{status}\n\n'
        self.enterContext(mock.patch.dict(os.environ, PATH=self.path('bin')))
        self.enterContext(mock.patch('e1gw.ctl_report.UNITS', self.path('etc')))

        def parts(file: str, *words: str) -> dict[str, str]:
            status, told, _ = self.ctl('west', 'report', self.path(file), *words)
            with tarfile.open(self.path(file)) as tar:
                its = {each.name.partition('/')[2]: tar.extractfile(each) for each in tar}
                texts = {name: part.read().decode() for name, part in its.items() if part}
            self.assertEqual((status, told), (0, [f'{self.path(file)}: {", ".join(texts)}']))
            return texts
        shown = parts('shown.tar')
        self.assertEqual([*shown], ['about', 'status.json', 'status', 'calls.csv', 'west.options', 'journal'])
        self.assertRegex(shown['about'], '^e1gw [0-9.]+, trunk west, ')
        self.assertEqual(json.loads(shown['status.json'])['version'], '1.2')
        self.assertEqual(shown['calls.csv'].splitlines(), [','.join(FIELDS), line])
        self.assertRegex(shown['journal'], '-u e1gw-trunk@west -u e1gw-watch@west .* from 192.0.2.7:24002')
        hidden = parts('hidden.tar', '--no-addresses')
        both = hidden['west.options'] + hidden['journal']
        self.assertRegex(both, '(?s)--satop host1:5000,host2:5000.* from host2:24002')
        self.assertEqual(os.stat(self.path('hidden.tar')).st_mode & 0o777, 0o600)
        self.trunks['west'].answers = {'status json': '[]\n\n'}
        self.assertRegex(parts('dead.tar')['status'], 'it does not answer: ')
        self.assertEqual((self.ctl('west', 'report', self.path('dead.tar'))[0], self.ctl('west', 'report')[0]), (2, 2))

    def test_outages(self) -> None:
        """Of the file of a trunk; as text, as CSV, and as a page."""
        self.write('events', json.dumps({'time': 1.8e9, 'event': 'gap', 'seconds': 0.25, 'place': 7}) + '\n')
        self.trunks['west'].answers['status json'] = json.dumps({'events_file': self.path('events')}) + '\n\n'
        self.assertEqual(self.ctl('west', 'outages', '--csv', '--from', '2027-01-15')[1], [
            ','.join(FIELDS_OF_OUTAGES), 'west,slip,2027-01-15T07:59:59.750Z,2027-01-15T08:00:00.000Z,0.250,,'])
        self.assertEqual(self.ctl('west', 'outages')[1][1].split(), [
            'west', 'slip', '2027-01-15T07:59:59.750Z', '2027-01-15T08:00:00.000Z', '0.250'])
        self.assertEqual(len(self.ctl('west', 'outages', '--to', '2027-01-15')[1]), 1)
        page = '\n'.join(self.ctl('west', 'outages', '--page')[1])
        self.assertEqual(re.findall('<td>([^<]*)</td>', page), [
            'west', 'slip', '2027-01-15T07:59:59.750Z', '2027-01-15T08:00:00.000Z', '0.250', '', ''])
        self.assertEqual(len(re.findall('<th>', page)), len(FIELDS_OF_OUTAGES))
        self.trunks['east'].answers['status json'] = '{"events_file": null}\n\n'
        self.assertEqual(self.ctl('--all', 'outages')[:2][0], 1)

    def test_lines_of_trunks(self) -> None:
        os.mkdir(self.path('etc'))
        for name in ('west', 'north', 'example'):
            open(self.path(f'etc/{name}.options'), 'w', encoding='utf-8').close()
        open(self.path('etc/west.toml'), 'w', encoding='utf-8').close()
        self.trunks['west'].answers['status json'] = json.dumps(STATUS) + '\n\n'
        self.trunks['east'].answers['status json'] = '[]\n\n'
        self.assertEqual(self.ctl(), (1, [
            ctl_all.HEAD, f'east         does not answer: {self.trunks["east"].path}: its answer is no status',
            str(ctl_all.TrunkLine.from_status('west', typed(TrunkStatus, STATUS))),
            'north        not in service: systemctl status e1gw-trunk@north'], ''))
        self.trunks['east'].answers = self.trunks['west'].answers
        self.assertEqual(self.ctl()[0], 0)
        shutil.rmtree(self.path('run'))
        shutil.rmtree(self.path('etc'))
        self.assertEqual(self.ctl(), (0, [ctl_all.HEAD], ''))

    def test_other_ends(self) -> None:
        """Who reads no more is not told of it; nor is who ends it by a key."""
        for fault, status, said in ((BrokenPipeError, 1, ''), (KeyboardInterrupt, 0, ''),
                                    (UnicodeError, 2, 'e1gw-ctl: a command cannot be read\n')):
            with mock.patch.object(ctl, 'started', side_effect=fault), mock.patch('os.dup2') as put:
                self.assertEqual(self.ctl('west', 'status'), (status, [], said))
            for null, file in (each.args for each in put.call_args_list):
                self.assertEqual((os.path.samestat(os.fstat(null), os.stat(os.devnull)), file), (True, 1))
                os.close(null)
            self.assertEqual(put.call_count, fault is BrokenPipeError)

    def test_words_that_are_refused(self) -> None:
        """Before anything is asked."""
        for words, why in ((['west', 'seize', ' '], 'a word is empty, or cannot be printed'),
                           (['west', 'seize', 'a\nb'], 'a word is empty, or cannot be printed'),
                           (['west', 'seize', '\udcff'], 'a word is empty, or cannot be printed'),
                           (['', 'status'], 'a word is empty, or cannot be printed'),
                           (['--all'], '--all wants a command that is answered at once'),
                           (['--all', 'events'], '--all wants a command that is answered at once'),
                           (['seize', 'west'], 'west is a trunk: a command goes to one of them, and with --all to '
                            'each'),
                           (['west', 'east', '1'], 'east is a trunk: a command goes to one of them, and with --all to '
                            'each')):
            status, told, said = self.ctl(*words)
            self.assertEqual((status, told, said), (2, [], f'e1gw-ctl: error: {why}; see e1gw-ctl --help\n'), words)
        self.assertEqual([trunk.asked for trunk in self.trunks.values()], [[], []])

    def test_move(self) -> None:
        """Three steps of Pacemaker's; the worst of their statuses."""
        ran = list[list[str]]()

        def runs(words: list[str], check: bool) -> mock.Mock:
            self.assertFalse(check)         # (the next step is done, too)
            ran.append(words)
            return mock.Mock(returncode=len(ran) % 3)
        with mock.patch('e1gw.ctl.subprocess.run', runs):
            self.assertEqual(self.ctl('west', 'move', 'b')[0], 2)
        front = ['crm_resource', '--resource', 'west']
        self.assertEqual(ran, [[*front, *words] for words in (['--move', '--promoted', '--node', 'b'], ['--wait'],
                                                              ['--clear'])])

    def test_next_words(self) -> None:
        parser = argparse.Namespace
        for path, command, is_all, words in (
                (None, [], False, ['east', 'west']), ('west', [], False, ['seize', 'clear']),
                (None, [], True, ['seize', 'clear']), ('west', ['status'], False, ['json', '1']),
                ('status', [], True, ['json', '1']), ('west', ['reload'], False, ['force']),
                ('west', ['seize'], False, ['1', '2']),
                ('seize', [], True, ['1', '2']), ('west', ['codec', '1'], False, ['pcma', 'pcmu']),
                ('west', ['quit'], False, []), ('west', None, False, ['seize', 'clear'])):
            found = ctl.next_words(parser(path=path, command=command, all=is_all))
            self.assertEqual(found[:2], words, (path, command))
