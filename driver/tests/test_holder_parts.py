"""Parts of a holder, each by itself: what systemd keeps, the lock, the log's files, sockets, a card, the line."""
from __future__ import annotations

import contextlib
import fcntl
import functools
import glob
import os
import select
import shutil
import socket
import subprocess
import sys
import time
import unittest
from typing import Callable
from unittest import mock

from . import support
from .support import FolderCase
from .test_card import FakeChannel
from e1gw import holder_state, lock
from e1gw.holder import lifecycle, log
from e1gw.holder.decisions import Deaths, Decision, EndFault, NextAct
from e1gw.holder.holder import Holder
from e1gw.holder.journal import Severity, log_line
from e1gw.holder.line import Card, HeldLine, has_ended
from e1gw.holder.loop import Loop
from e1gw.holder.options import HELP, FLAGS, TEXTS, LineWants, options_of
from e1gw.holder.program import end_words, fault_in, counted_octets
from e1gw.holder.sockets import HeldSockets, address_in, name_of
from e1gw.holder.store import Store
from e1gw.holder.version import Tried, Versions, tried_in, version_of
from e1gw.memory import in_memory
from e1gw_testing.ports import free_ports
from e1gw.trunks import Stream

TRIED = Tried('law = "A"\n', {1: ('one', 'bare'), 2: ('two', 'two')}, {1: ('127.0.0.1', 5000)}, 'host', '0.1.0')


class ImportTests(unittest.TestCase):
    def test_what_it_loads(self) -> None:
        """Nothing of who watches, at any time, and nothing large: all of it is a part of a silence."""
        code = f'import sys; sys.path[:0] = ["{support.TOP}/driver"]; from e1gw.holder import main; print(*sys.modules)'
        done = subprocess.run([sys.executable, '-ISs', '-c', code], stdout=subprocess.PIPE, check=True, text=True)
        loaded = {*done.stdout.split()}
        self.assertEqual([name for name in loaded if name.startswith('e1gw.watcher')], [])
        for path in glob.glob(f'{support.TOP}/driver/e1gw/holder/*.py'):
            self.assertNotRegex(support.text_of(path), r'(from|import) [\w.]*\bwatcher\b')
        slow = {'argparse', 'asyncio', 'dataclasses', 'logging', 'tomllib', 'subprocess', 'ipaddress'}
        self.assertEqual(loaded & slow, set())


class StoreTests(FolderCase):
    def setUp(self) -> None:
        super().setUp()
        self.line = socket.socket(socket.AF_UNIX, socket.SOCK_DGRAM)
        self.line.bind(self.path('notify'))
        self.line.setblocking(False)
        self.addCleanup(self.line.close)
        with mock.patch.dict(os.environ, {'NOTIFY_SOCKET': self.path('notify')}):
            self.store = Store()
        self.addCleanup(self.store._line.close)
        self.files = {name: in_memory(name.encode()) for name in ('line-in', *map(str, range(40)))}
        for file in self.files.values():
            self.addCleanup(os.close, file)

    def take_lines(self) -> list[str]:
        """What systemd takes now."""
        found = list[str]()
        with contextlib.suppress(BlockingIOError):
            while True:
                octets, files, _, _ = socket.recv_fds(self.line, 4096, 4)
                found += octets.decode().split('\n')
                for file in files:
                    os.close(file)
        return found

    def test_all_is_told_in_the_end(self) -> None:
        """systemd lets ten messages wait: the line goes first, each turn tells more, and what is to be said is said."""
        self.store.keep(self.files)
        self.store.notify('READY=1')
        self.assertTrue(self.store.lags)
        told = self.take_lines()
        self.assertEqual(told[:2], ['FDSTORE=1', 'FDNAME=line-in'])
        while self.store.lags:
            self.store.send()
            told += self.take_lines()
        self.assertEqual([each[7:] for each in told if each.startswith('FDNAME=')], [*self.files])
        self.assertEqual(told.count('READY=1'), 1)
        self.store.send()
        self.assertEqual(self.take_lines(), [])

    def test_another_file_of_the_same_name(self) -> None:
        self.store.keep({'a': self.files['1'], 'b': self.files['2']})
        self.take_lines()
        self.store.keep({'a': self.files['3']})
        self.assertEqual(self.take_lines(), ['FDSTOREREMOVE=1', 'FDNAME=a', 'FDSTOREREMOVE=1', 'FDNAME=b',
                                       'FDSTORE=1', 'FDNAME=a', 'FDPOLL=0'])
        self.store.forget()
        self.assertEqual(self.take_lines(), ['FDSTOREREMOVE=1', 'FDNAME=a'])

    def test_closed_meanwhile(self) -> None:
        """It is not given, nor another file of its number; one that was given stays until others are to be kept."""
        first, second = (in_memory(name) for name in (b'first', b'second'))
        self.store.keep({'first': first})
        with mock.patch.object(self.store, 'send_message', return_value=False):
            self.store.keep({'first': first, 'second': second})
        os.close(first)
        os.dup2(self.files['1'], second)
        self.take_lines()
        self.store.notify('READY=1')
        self.assertEqual((self.take_lines(), self.store.lags), (['READY=1'], False))
        os.close(second)
        self.store.notify('READY=1')
        self.assertEqual((self.take_lines(), self.store.lags), (['READY=1'], False))
        self.store.keep({'first': first})
        self.assertEqual(self.take_lines(), ['FDSTOREREMOVE=1', 'FDNAME=first'])

    def test_nobody_listens(self) -> None:
        self.line.close()
        os.unlink(self.path('notify'))
        self.store.keep(self.files)
        self.assertFalse(self.store.lags)


class LockTests(FolderCase):
    def test_one_has_it(self) -> None:
        """The other is told who; one that has ended has let it go, and its file is removed."""
        path = self.path('lock')
        file = lock.take_lock(path)
        with self.assertRaisesRegex(lock.InUse, f'{os.getpid()}'):
            lock.take_lock(path)
        lock.release_lock(file, path)
        self.assertEqual(os.listdir(self.folder), [])
        os.close(lock.take_lock(path))
        os.close(lock.take_lock(path))

    def test_without_room(self) -> None:
        """Who cannot say his number has it all the same."""
        path = self.path('lock')
        with mock.patch('os.pwrite', side_effect=OSError(28, 'x')):
            file = lock.take_lock(path)
        with self.assertRaises(lock.InUse):
            lock.take_lock(path)
        os.close(file)

    def test_removed_meanwhile(self) -> None:
        """What is locked is the file that others find."""
        path, flock = self.path('lock'), fcntl.flock
        removed = list[str]()

        def removes(file: int, how: int) -> None:
            flock(file, how)
            if not removed:
                removed.append(path)
                os.unlink(path)
        with mock.patch('fcntl.flock', removes):
            file = lock.take_lock(path)
        self.assertTrue(lock.is_at(file, path))
        os.unlink(path)
        other = lock.take_lock(path)
        lock.release_lock(file, path)             # (it is another one's)
        self.assertTrue(lock.is_at(other, path))
        os.close(other)


class HeldLogTests(FolderCase):
    def setUp(self) -> None:
        super().setUp()
        self.log = self.path('log')
        self.made()

    def made(self, what: str = 'of') -> None:
        os.mkdir(self.log)
        for name in log.FILES:
            self.write(f'log/{name}', f'{what} {name}')

    def test_put_back(self) -> None:
        """Whatever is gone of it: the folder, a file, or one that another is in place of."""
        held = log.HeldLog({})
        held.hold(self.log)
        self.assertFalse(held.put_back(self.log))
        goes: tuple[Callable[[], None], ...] = (
            lambda: shutil.rmtree(self.log), lambda: os.unlink(f'{self.log}/records.1'),
            lambda: os.replace(f'{self.log}/state.0', f'{self.log}/state.1'))
        for gone in goes:
            held.hold(self.log)
            gone()
            again = log.HeldLog(held.files)     # (those that the next holder is given)
            self.assertTrue(again.put_back(self.log))
            self.assertEqual({name: support.text_of(f'{self.log}/{name}') for name in os.listdir(self.log)},
                             {name: f'of {name}' for name in log.FILES})
            # what a program writes there is not written over, if it ends before it is known to be up
            self.assertTrue(again.are_in(self.log))
            self.assertFalse(again.put_back(self.log))
            held = again
        self.assertFalse(os.path.exists(f'{self.log}.new'))

    def test_no_room_to_put_back(self) -> None:
        """No part is left, which would keep full what is full; there is room later."""
        held = log.HeldLog({})
        held.hold(self.log)
        shutil.rmtree(self.log)
        with mock.patch.object(log, 'copy', side_effect=[None, OSError(28, 'x')]), self.assertRaises(OSError):
            held.put_back(self.log)
        self.assertEqual(os.listdir(self.folder), [])
        self.assertTrue(held.put_back(self.log))
        held.close()

    def test_all_of_one_folder(self) -> None:
        """Another one takes its place meanwhile."""
        held, opens = log.HeldLog({}), os.open

        def open_then_exchange(path: str, flags: int, *, dir_fd: int | None = None) -> int:
            file = opens(path, flags, dir_fd=dir_fd)
            if path.endswith(log.FILES[0]):
                os.rename(self.log, f'{self.log}.before')
                self.made('another')
            return file
        with mock.patch('os.open', open_then_exchange):
            held.hold(self.log)
        self.assertEqual([os.pread(file, 100, 0).decode() for file in held.files.values()],
                         [f'of {name}' for name in log.FILES])
        held.close()

    def test_all_or_none(self) -> None:
        """A log of which a file is missing is not held."""
        held = log.HeldLog({'log-state.0': os.open(os.devnull, os.O_RDONLY)})
        self.assertEqual(held.files, {})
        os.unlink(f'{self.log}/state.1')
        with self.assertRaises(FileNotFoundError):
            held.hold(self.log)
        self.assertEqual((held.files, held.put_back(self.path('other'))), ({}, False))

    def test_who_has_it_locked(self) -> None:
        """By the kernel: what the file says may be of a process that has ended."""
        self.assertEqual(log.process_that_locks(self.log), 0)
        self.write('log/lock', '1\n')
        self.assertEqual(log.process_that_locks(self.log), 0)
        with open(f'{self.log}/lock', 'rb') as file:
            for how in fcntl.LOCK_EX, fcntl.LOCK_SH:
                fcntl.flock(file, how)
                self.assertEqual(log.process_that_locks(self.log), os.getpid())
            self.assertFalse(log.has_log(os.getpid(), self.log))
        with subprocess.Popen(['sh', '-c', 'read x', 'trunk', '--log', self.log], stdin=subprocess.PIPE) as process:
            support.until(lambda: log.has_log(process.pid, self.log))
            self.assertFalse(log.has_log(process.pid, f'{self.log}x'))
            process.communicate()
        self.assertIn('not seen from here', lifecycle.name_of(-1))


class HeldSocketsTests(unittest.TestCase):
    def test_names(self) -> None:
        for address in ('127.0.0.1', 5000), ('::1', 5001):
            self.assertEqual(address_in(name_of(address)), address)
            self.assertNotIn(':', name_of(address))

    def test_bound_once(self) -> None:
        """One that another process has is lacking until it is free; those of no circuit are let go."""
        ports = free_ports(2)
        wanted = {n: ('127.0.0.1', port) for n, port in enumerate(ports, 1)}
        with socket.socket(socket.AF_INET, socket.SOCK_DGRAM) as line:
            line.bind(wanted[2])
            sockets = HeldSockets({})
            self.assertFalse(sockets.bind(wanted))
            self.assertEqual(({*sockets.lacking}, len(sockets.program_descriptors(wanted))), ({2}, 1))
            self.assertFalse(sockets.bind(wanted))
        self.assertTrue(sockets.bind(wanted))
        self.assertFalse(sockets.bind(wanted))
        again = HeldSockets({**sockets.files, 'program': 7})
        self.assertEqual(again.program_descriptors(wanted), sockets.program_descriptors(wanted))
        again.close_others([wanted[1]])
        self.assertEqual([*again.files], [name_of(wanted[1])])
        again.close_others([])

    def test_old_speech(self) -> None:
        """It is taken, and what the network has said of what was sent."""
        (port,) = free_ports(1)
        sockets = HeldSockets({})
        sockets.bind({1: ('127.0.0.1', port)})
        (file,) = sockets.program_descriptors({1: ('127.0.0.1', port)})
        with socket.socket(socket.AF_INET, socket.SOCK_DGRAM) as line:
            for _ in range(5):
                line.sendto(b'x', ('127.0.0.1', port))
        sockets.drop_old()
        with self.assertRaises(BlockingIOError):
            os.read(file, 1)
        sockets.close_others([])


class VersionsTests(unittest.TestCase):
    def version(self) -> Versions:
        return Versions(version_of(os.open(os.devnull, os.O_RDONLY), TRIED))

    def test_text(self) -> None:
        """It comes back, and a circuit that lacks its socket has no port."""
        versions = self.version()
        assert versions.now
        self.assertEqual(tried_in(versions.now.its._asdict()), TRIED)
        self.assertEqual((TRIED.config(), TRIED.config([1])), ('law = "A"\nonetwo', 'law = "A"\nbaretwo'))
        versions.now.close()

    def test_which_the_next_holder_has(self) -> None:
        """That of now, once it was up."""
        versions = self.version()
        first, second = versions.now, self.version().now
        assert first and second
        versions.switch_to(second)
        self.assertEqual((versions.stored_version(), versions.addresses()), (first, {('127.0.0.1', 5000)}))
        versions.on_up(10.0)
        self.assertEqual(versions.stored_version(), second)
        versions.roll_back()
        self.assertEqual((versions.stored_version(), versions.before, versions.trial), (first, None, None))
        versions.confirm()
        first.close()


class HeldCardTests(unittest.TestCase):
    """A card whose events come; urgent data of a socket is seen as one."""

    def setUp(self) -> None:
        listener = socket.create_server(('127.0.0.1', 0))
        self.near, self.far = socket.create_connection(listener.getsockname()), listener.accept()[0]
        for each in listener, self.near, self.far:
            self.addCleanup(each.close)
        self.loop, self.channel = Loop(), FakeChannel(self.near.fileno())

    def line(self) -> HeldLine:
        """A line with this card, whose descriptors stay open."""
        file = self.near.fileno()
        wants = LineWants('x', lambda: Stream(os.dup(file), os.dup(file), 'x'), (), True, False, '', '')
        line = HeldLine(wants, {}, self.loop)
        with mock.patch('e1gw.holder.line.card_of', lambda file, loop: Card(self.channel, loop)):
            while not line.try_to_open(time.monotonic()):
                self.loop.wait(1.0)
        self.addCleanup(line.close)
        return line

    def test_events_are_taken(self) -> None:
        """As soon as one comes, and before a program starts: until then each read and each write fails."""
        line = self.line()
        self.channel.events = [4, 5, 30, 4]
        self.far.send(b'!', socket.MSG_OOB)
        while self.channel.events:
            self.loop.wait(1.0)
        self.near.recv(1, socket.MSG_OOB)
        self.channel.events = [4, 5]
        line.begin(0.0)
        self.assertEqual(self.channel.events, [])
        self.assertEqual(line.why_ended(1), '')

    def test_gone(self) -> None:
        """It says so, or each question fails; then nothing more is asked."""
        for events, is_away in ([4, 20], False), (list[int](), True):
            line = self.line()
            self.channel.events, self.channel.is_away = events, is_away
            self.assertEqual(line.why_ended(1), 'the card is gone')
            self.channel.events, self.channel.is_away = [4], False
            self.far.send(b'!', socket.MSG_OOB)
            self.loop.wait(0.0)
            self.assertEqual(self.channel.events, [4])
            line.close()


class HeldLineTests(FolderCase):
    def line(self, opens: Callable[[], Stream]) -> HeldLine:
        return HeldLine(LineWants('x', opens, (), True, False, '', ''), {}, Loop())

    def looks(self, line: HeldLine) -> None:
        support.until(lambda: line.try_to_open(time.monotonic()))

    def test_opened_again(self) -> None:
        """A failure is said once; it is tried until it is open, and the next holder has its descriptors."""
        path = self.path('fifo')
        line = self.line(lambda: Stream(os.open(path, os.O_RDONLY | os.O_NONBLOCK), os.dup(2), ''))
        self.enterContext(mock.patch.multiple('e1gw.holder.decisions', LINE_PAUSE=0.01, MOST_LINE_PAUSE=0.01))
        with mock.patch('e1gw.holder.line.log_line') as said:
            for _ in range(3):
                self.looks(line)
        self.assertEqual(len(said.mock_calls), 1)
        self.assertIn(f'{path}: No such file', line.fault)
        os.mkfifo(path)
        support.until(lambda: line.try_to_open(time.monotonic()) and line.files)
        self.assertEqual((line.fault, len({*line.program_files})), ('', 2))
        again = HeldLine(line.options, {**line.files, 'line-in': 99}, Loop())
        self.assertEqual(again.program_files, line.program_files)
        again.close()

    def test_ends(self) -> None:
        """Of each kind of line."""
        near, far = socket.socketpair()
        with near, far:
            self.assertFalse(has_ended(near.fileno(), 0))
            far.shutdown(socket.SHUT_WR)
            self.assertTrue(has_ended(near.fileno(), 5))
        with open(self.write('file', 'octets'), 'rb', 0) as file:
            self.assertFalse(has_ended(file.fileno(), 0))
            file.read()
            self.assertTrue(has_ended(file.fileno(), 0))
        with open(os.devnull, 'rb') as device:
            self.assertEqual([has_ended(device.fileno(), n) for n in (0, 1)], [True, False])


class WordsTests(unittest.TestCase):
    def test_what_a_program_says(self) -> None:
        for lines, fault in ((list[str](), EndFault.NONE), (['fault 5 Read'], EndFault.TRUNK),
                             (['fault 1 BadKind'], EndFault.NONE),
                             (['x', 'the log of the trunk has no state that can be loaded'], EndFault.LOG_LOST),
                             (['state 3 Sum at 5'], EndFault.LOG_LOST),
                             (['cannot write the log of the trunk'], EndFault.LOG_WRITE),
                             (['cannot open the log of the trunk'], EndFault.LOG_WRITE)):
            self.assertIs(fault_in(lines), fault, lines)
        self.assertEqual([*map(counted_octets, (['octets 12', 'x'], ['x octets 12'], list[str]()))], [12, None, None])
        self.assertEqual(end_words(-9, ['x']), 'ended by signal 9 (SIGKILL)')
        self.assertEqual(end_words(-40, ['x']), 'ended by signal 40')
        self.assertEqual(end_words(1, ['circuit 3 begins as new', 'fault 5 Read', 'octets 5']), 'says: fault 5 Read')
        self.assertEqual([end_words(n, ['octets 5']) for n in (0, 3)], ['ended with status 0', 'ended with status 3'])


class HolderOptionsTests(unittest.TestCase):
    def options(self, *words: str) -> list[str]:
        return ['--config', '/c/trunk.toml', '--program', '/bin/e1gw', *words]

    def test_help(self) -> None:
        """A page has all of them, and no others."""
        named = {word.removeprefix('--').rstrip(',') for word in HELP.split() if word.startswith('--')} - {''}
        self.assertEqual(named, {*TEXTS, *FLAGS})
        self.assertLessEqual(len(named), 20)
        self.assertLessEqual(max(map(len, HELP.splitlines())), 120)

    def test_what_is_asked_for(self) -> None:
        found = options_of(self.options('--unix', 'p', '--align', '--repeat=2', '--seizure-wait', '400'),
                           {'RUNTIME_DIRECTORY': '/run/x:/run/y'})
        self.assertEqual((found.name, found.folder), ('trunk', f'/run/x/trunk-{os.getuid()}'))
        self.assertEqual(found.words, ('--repeat', '2', '--align', '--seizure-wait', '400'))
        self.assertEqual((found.senders, found.line.trunk, found.line.reopens), ('host', 'p', False))
        found = options_of(self.options('--satop', '127.0.0.1:1,h:2,jitter=8,from=h:3', '--crc4', '--name', 'n'), {})
        self.assertEqual(found.line.satop,
                         ('127.0.0.1:1', 'h:2', '--size', '256', '--jitter', '8', '--from', 'h:3'))
        self.assertEqual((found.words, found.line.crc4), (('--crc4', '--live'), True))
        found = options_of(self.options('--in', 'a', '--out', 'a', '--', '--json', '-'), {})
        self.assertEqual((found.line.trunk, found.watch), ('a', ('--json', '-')))
        self.assertIsNone(options_of(self.options('--unix', 'a', '--alone'), {}).watch)

    def test_refused(self) -> None:
        for words, why in (
                (list[str](), 'a trunk is'), (['--unix', 'a', '--tcp', 'h:1'], 'a trunk is'),
                (['--in', 'a'], 'a trunk is'), (['--tcp', 'h'], '--tcp: h is no HOST:PORT'),
                (['--http', 'h:1'], '--http: no option of e1gw-trunk'),
                (['--unix'], 'wants a value'), (['--unix', 'a', '--repeat', '9'], '0 to 8'),
                (['--unix', 'a', '--senders', 'x'], 'any, first, host, peer'),
                (['--satop', 'a:1,b:2,from=b'], 'no HOST:PORT'),
                (['--satop', 'a:1,b:2,x=1'], 'x=1'), (['--satop', 'a:1'], '--satop lacks an address'),
                (['--satop', 'a:1,b:2,size=33'], 'multiple of 32'),
                (['--satop', 'a:1,b:2,rtp=128'], 'rtp= .* 0 to 127'),
                (['--satop', 'a:1,b:2,jitter=x'], '0 to 500'), (['--satop', 'a:1,b:2,clock=x'], 'packets or own'),
                (['--unix', 'a', '--name', 'x/y'], 'no name'),
                (['--unix', 'a', '--align', '--clear'], '--align'), (['--unix', 'a', '--blocks', '0,2'], '--blocks'),
                (['--unix', 'a', '--folder', 'x' * 100], '107 octets'),
                (['--unix', 'a', '--crc4', '--clear'], '--crc4')):
            with self.assertRaisesRegex(ValueError, why):
                options_of(self.options(*words), {})


class LoopTests(unittest.TestCase):
    def test_left_meanwhile(self) -> None:
        """One that was left by another that was ready with it is not called."""
        loop, called = Loop(), list[int]()
        pipes = [os.pipe() for _ in range(2)]
        for reads, writes in pipes:
            os.write(writes, b'x')

            def comes(file: int = reads) -> None:
                called.append(file)
                for each, _ in pipes:
                    loop.unwatch(each)
            loop.watch(reads, comes, select.POLLIN)
        loop.wait(1.0)
        loop.wait(0.0)
        self.assertEqual(len(called), 1)
        for file in (file for pipe in pipes for file in pipe):
            os.close(file)


class HeldFolderTests(FolderCase):
    def test_a_folder_that_cannot_be_written(self) -> None:
        """Another one is taken if that is for good; else it is tried again."""
        options = mock.Mock(folder=self.path('disk/trunk-0'))
        holder = mock.Mock(spec=['folder', 'options'], options=options, folder=options.folder)
        with mock.patch.object(holder_state, 'MEMORY', self.path('memory')), \
                mock.patch.object(lifecycle, 'log_line') as said:
            lifecycle.make_folder(holder)
            self.assertEqual(holder.folder, options.folder)
            with mock.patch('os.makedirs', side_effect=OSError(5, 'x')), self.assertRaises(OSError):
                lifecycle.make_folder(holder)
            with mock.patch('os.access', lambda path, how: path.startswith(self.path('memory'))):
                lifecycle.make_folder(holder)
            memory = holder_state.folder_in_memory(options.folder)
        self.assertEqual((holder.folder, len(said.mock_calls)), (memory, 1))
        self.assertTrue(os.path.isdir(f'{memory}/log'))

    def test_two_trunks_of_one_name(self) -> None:
        """Neither goes where the other is; and one that is in memory stays."""
        with mock.patch.object(holder_state, 'MEMORY', self.path('memory')):
            folders = [self.path('memory/trunk-0'), self.path('a/trunk-0'), self.path('b/trunk-0')]
            there = [*map(holder_state.folder_in_memory, folders)]
        self.assertEqual((len({*there}), there[0]), (3, folders[0]))
        self.assertEqual({os.path.dirname(each) for each in there}, {self.path('memory')})

    def test_a_log_that_has_no_room(self) -> None:
        """It is put back in memory, if its folder is not there already; else it is tried again."""
        options = mock.Mock(folder=self.path('disk/trunk-0'))
        holder = mock.Mock(spec=['folder', 'options', 'log', 'publish'], options=options, folder=options.folder)
        holder.log.put_back = mock.Mock(side_effect=[OSError(28, 'x'), True, OSError(28, 'x')])
        with mock.patch.object(holder_state, 'MEMORY', self.path('memory')), \
                mock.patch.object(lifecycle, 'log_line') as said:
            memory = holder_state.folder_in_memory(options.folder)
            lifecycle.put_back_log(holder)
            with self.assertRaises(OSError):
                lifecycle.put_back_log(holder)
        self.assertEqual([each.args[0] for each in holder.log.put_back.mock_calls],
                         [f'{options.folder}/log', f'{memory}/log', f'{memory}/log'])
        self.assertEqual((holder.folder, len(said.mock_calls)), (memory, 2))


class TurnTests(unittest.TestCase):
    def test_the_next_program_starts_at_once(self) -> None:
        """In the turn in which one has ended, or the line is open: no wait is between them."""
        holder = mock.Mock(spec=Holder, status=None, ending='', is_active=True, due=0.0, _ticked=5.0, folder='')
        for name in 'store', 'reloads', 'line', 'versions', 'program':
            setattr(holder, name, mock.Mock())
        holder.program.exit_status.return_value = -9
        holder._look_at, holder._go_on, holder._bring_up, holder._on_opening_end = (
            functools.partial(getattr(Holder, name), holder)
            for name in ('_look_at', '_go_on', '_bring_up', '_on_opening_end'))
        holder.line.files = {}
        holder.line.try_to_open.side_effect = lambda now: holder.line.files.update(line=1) or True
        ended = mock.Mock(side_effect=lambda held, *_: setattr(held, 'program', None))
        with mock.patch.multiple('e1gw.holder.holder', on_program_exit=ended, start_program=mock.DEFAULT) as its:
            Holder.turn(holder, 5.0)
        self.assertEqual((len(ended.mock_calls), len(its['start_program'].mock_calls)), (1, 1))


class HolderJournalTests(unittest.TestCase):
    def test_levels(self) -> None:
        """As sd-daemon(3) has them, where systemd's journal reads; elsewhere a line has the name of the command."""
        levels = {Severity.ERROR: '<3>', Severity.WARNING: '<4>', Severity.NOTICE: '<5>'}
        for around, fronts in ({'JOURNAL_STREAM': '7:7'}, [*levels.values()]), ({}, ['e1gw-trunk: '] * 3):
            with mock.patch.dict(os.environ, around, clear=True), mock.patch('os.write') as writes, \
                    mock.patch('select.select', lambda *_: ([], [2], [])):
                for level in levels:
                    log_line(level, 'x\ny')
            said = [call.args for call in writes.mock_calls]
            self.assertEqual(said, [(2, f'{front}x y\n'.encode()) for front in fronts])


class HolderAnswerTests(unittest.TestCase):
    def test_where_no_program_follows(self) -> None:
        """At once: of a line that is opened again who wants another program; of a trunk that is released whoever
        waits. systemd is told the end of a reload."""
        def reopens(holder: mock.Mock) -> None:
            lifecycle.carry_out(holder, Decision(NextAct.REOPEN, Deaths()), 'the trunk has ended', 5.0)
        for does, waits in (reopens, ['take']), (Holder.release, list[str]()):
            holder = mock.Mock(spec=Holder, status=None, is_active=False, folder='/none')
            for name in 'line', 'sockets', 'log', 'store':
                setattr(holder, name, mock.Mock())
            holder.answer_waiting = functools.partial(Holder.answer_waiting, holder)
            asked = [mock.Mock(word=word) for word in ('reload', 'take')]
            holder.requests = [*asked]
            does(holder)
            self.assertEqual([each.word for each in holder.requests], waits)
            self.assertEqual([len(each.answer_refused.mock_calls) for each in asked], [1, int(not waits)])
            self.assertEqual(holder.store.notify.mock_calls, [mock.call('READY=1')])


class RemovedFolderTests(FolderCase):
    def test_nobody_finds_it(self) -> None:
        """Who writes there while it is removed does not make it again."""
        os.makedirs(folder := self.path('trunk/log'))
        found = list[bool]()
        with mock.patch('shutil.rmtree', lambda *_, **__: found.append(os.path.exists(folder))):
            lifecycle.remove_whole(self.path('trunk'))
        self.assertEqual(found, [False])
        lifecycle.remove_whole(self.path('trunk.ended'))
        self.assertEqual(os.listdir(self.folder), [])
