"""Scenes of a holder with thirty calls and the real program: what dies, and what is asked of it. What is heard is what
one uncut replay gives."""
from __future__ import annotations

import contextlib
import fcntl
import os
import shutil
import signal
import socket
import sys
from unittest import mock

from . import support
from .holders import HolderCase, places_in_memory
from .support import SECONDS
from .world import children, words_of
from e1gw.holder_state import TrunkPlaces


class HolderDeathTests(HolderCase):
    def test_program_killed(self) -> None:
        """Another one goes on with all that was answered."""
        self.begins()
        for number in signal.SIGKILL, signal.SIGTERM, signal.SIGSTOP:
            self.dies(number)
        self.as_uncut()
        self.ends()

    def test_holder_killed(self) -> None:
        """Its program ends with it behind all that it has, and the next one goes on."""
        self.begins()
        before = self.program
        self.kill_holder()
        support.until(lambda: not os.path.exists(f'/proc/{before}') or support.state_of(before) == 'Z')
        self.starts_holder()
        self.goes_on_all()
        self.assertFalse(self.state().octets_lost)
        self.as_uncut()
        self.ends()

    def test_both_killed(self) -> None:
        self.begins()
        os.kill(self.keeper.pid, signal.SIGSTOP)
        os.kill(self.program, signal.SIGKILL)
        self.kill_holder()
        self.starts_holder()
        self.goes_on_all()
        self.as_uncut()
        self.ends()

    def test_folder_gone(self) -> None:
        """The folder, or its log, and then the holder, or both: systemd has the log's files."""
        self.begins()
        for path in self.places.folder, self.places.log, self.places.folder:
            os.kill(self.keeper.pid, signal.SIGSTOP)    # (else the program is renewed)
            shutil.rmtree(path)
            if path == self.places.log:
                os.kill(self.program, signal.SIGKILL)
            self.kill_holder()
            self.starts_holder()
            self.awaits('the log was gone, and is put back')
            self.goes_on_all()
            self.settles()
        self.as_uncut()
        self.ends()

    def test_by_hand(self) -> None:
        """Nobody keeps anything: the line is opened again, and the log is there."""
        self.begins()
        self.manager.forget()
        for _ in range(2):
            os.kill(self.program, signal.SIGKILL)
            self.kill_holder()
            self.starts_holder(is_by_hand=True)
            self.device.accept()
            self.goes_on_all()
        self.keeper.terminate()
        self.assertEqual(self.keeper.wait(SECONDS), 0)

    def test_options_edited(self) -> None:
        """The next one goes on with those of now, another line is opened."""
        self.begins()
        self.kill_holder()
        self.options += ['--repeat', '1']
        self.starts_holder()
        self.goes_on_all()
        self.assertIn('--repeat', words_of(self.program))
        self.kill_holder()
        with support.listening(self.path('other')) as self.device.listener:
            self.options += ['--unix', self.path('other')]
            self.starts_holder()
            self.device.accept()
            self.goes_on_all()
        self.ends()

    def test_sockets_of_another_cgroup(self) -> None:
        """With DSCP= they are bound anew: it marks those that the unit of now has opened."""
        self.begins()
        sockets = {os.readlink(f'/proc/self/fd/{file}') for name, file in self.manager.files.items() if 'rtp' in name}
        self.kill_holder()
        with mock.patch.dict(os.environ, {'DSCP': 'ef'}):
            self.starts_holder()
        self.goes_on_all()
        self.settles()
        now = {os.readlink(f'/proc/self/fd/{file}') for name, file in self.manager.files.items() if 'rtp' in name}
        self.assertEqual((len(now), now & sockets), (30, set()))
        self.as_uncut()
        self.ends()

    def test_its_watcher_dies(self) -> None:
        """By hand a holder starts one, and another one if it dies, also behind a replacement. With its holder it ends,
        and the next one has its own; one that was to end stays away."""
        self.options.remove('--alone')
        self.starts_holder(is_by_hand=True)
        self.device.accept()
        self.goes_on()
        before = 0
        for is_replaced in False, True:
            before = self.another_watcher(before)
            if is_replaced:
                self.replaces()
            os.kill(before, signal.SIGKILL)
            self.awaits('e1gw-watch ended by signal 9')
        before = self.another_watcher(before)
        self.kill_holder()
        support.until(lambda: support.state_of(before) in ('', 'Z'))
        self.starts_holder(is_by_hand=True)
        self.device.accept()
        self.goes_on()
        last = self.another_watcher(before)
        os.kill(last, signal.SIGTERM)
        support.until(lambda: support.state_of(last) == '')
        self.step(20)
        self.assertEqual(self.watcher(), 0)
        self.ends()

    def watcher(self) -> int:
        return next((pid for pid in children(self.keeper.pid) if 'e1gw-watch' in ' '.join(words_of(pid)[:3])), 0)

    def another_watcher(self, before: int) -> int:
        """Waits for one that watches."""
        path = self.places.watch_lock
        return support.until(lambda: (pid := self.watcher()) not in (0, before) and os.path.exists(path)
                             and str(pid) in support.text_of(path) and pid)

    def test_second_start(self) -> None:
        """It ends, and the first one notices nothing."""
        self.begins()
        status, _, said = support.ran(*self.words())
        self.assertEqual((status, f'process {self.keeper.pid} holds this trunk' in said), (2, True), said)
        self.step(20)
        self.as_uncut()
        self.ends()

    def test_what_is_gone_comes_back(self) -> None:
        """The folder, its log, or a socket, while a program is up: another one follows with all of it."""
        self.begins()
        for path in self.places.folder, self.places.log, self.places.control:
            shutil.rmtree(path) if os.path.isdir(path) else os.unlink(path)
            self.awaits('is to be had again')
            self.told_from = 0
            self.told_from = self.read_log().rindex('is to be had again')
            self.goes_on_all()
            support.until(lambda: os.path.exists(self.places.hold_path))
            self.assertEqual(self.state().program, self.program)
        self.as_uncut()
        self.ends()

    def test_a_crash_behind_a_death(self) -> None:
        """What the program before it may have lost is told by the one that is up."""
        bad = self.path('bad')
        self.options += ['--program', self.scripted(f'test "$1" = trunk -a -e {bad} && rm {bad} && kill -SEGV $$')]
        self.begins()
        self.write('bad', '')
        os.kill(self.program, signal.SIGKILL)
        self.assertIn('2048 octets', self.goes_on())
        self.ends()

    def test_five_crashes(self) -> None:
        """Of a log with which each program crashes none is to be had: it is put aside."""
        self.options += ['--program', self.scripted(f'test "$1" = trunk -a -e {self.path("bad")} && kill -SEGV $$')]
        self.begins()
        self.write('bad', '')
        os.kill(self.program, signal.SIGKILL)
        self.awaits('the log is put aside, and a new one begins')
        os.unlink(self.path('bad'))
        self.assertIn('; all calls begin anew', self.goes_on())
        self.assertTrue(os.path.isdir(f'{self.places.log}.damaged'))
        self.keeper.terminate()
        self.keeper.wait(SECONDS)

    def test_a_folder_that_takes_no_writes(self) -> None:
        """The next program goes on with the log in memory."""
        name = f'scene{os.getpid()}'
        self.places = TrunkPlaces(os.path.join(self.memory, f'{name}-{os.getuid()}'))
        other = places_in_memory(self.places)
        self.control = self.places.control
        refuses = f'case "$*" in *" {self.places.log} "*) echo cannot open the log of the trunk >&2; exit 1;; esac'
        program = self.scripted(f'if test -e {self.path("full")}; then {refuses}; fi')
        self.options += ['--name', name, '--program', program]
        self.begins()
        self.write('full', '')
        os.kill(self.program, signal.SIGKILL)
        self.awaits(f'the folder of the trunk is {other.folder} from now on')
        self.goes_on_all()
        self.assertTrue(os.path.exists(f'{other.log}/lock'))
        self.as_uncut()
        self.ends()

    def test_an_orphan(self) -> None:
        """A program that stands still as its holder is killed is killed by the next one."""
        self.within = {'holder.lifecycle.LEFT': 0.05}
        self.begins()
        before = self.program
        os.kill(before, signal.SIGSTOP)
        os.kill(self.keeper.pid, signal.SIGKILL)
        self.keeper.wait()
        self.starts_holder()
        self.awaits(f'program {before} goes on without a holder, and is killed')
        self.goes_on_all()
        self.ends()

    def test_a_log_that_somebody_locks(self) -> None:
        """It is waited for, and said who that is."""
        self.begins()
        with open(os.path.join(self.places.log, 'lock'), 'rb') as file:
            os.kill(self.keeper.pid, signal.SIGSTOP)
            os.kill(self.program, signal.SIGKILL)
            support.until(lambda: support.state_of(self.program) == 'Z')
            fcntl.flock(file, fcntl.LOCK_EX)
            os.kill(self.keeper.pid, signal.SIGCONT)
            self.awaits(f'the log is in use by process {os.getpid()} ')
        self.goes_on_all()
        self.as_uncut()
        self.ends()

    def test_a_port_of_another_process(self) -> None:
        """Its circuit has none until it is free, and all calls of others stay."""
        port = next(iter(self.peers.circuits))
        with socket.socket(socket.AF_INET, socket.SOCK_DGRAM) as line:
            line.bind(('127.0.0.1', port))
            self.starts_holder()
            self.awaits('circuit 1 has no port: .*in use; it is tried again each second')
            self.device.accept()
            self.goes_on()
            self.assertEqual(self.state().lacking, (1,))
        self.goes_on()
        self.assertEqual(self.state().lacking, ())
        self.keeper.terminate()
        self.keeper.wait(SECONDS)


class HolderAskedTests(HolderCase):
    def test_reload(self) -> None:
        """It is done, or refused; then the trunk goes on as it was. systemd is told its end."""
        self.begins()
        text = support.text_of(self.config)
        self.assertEqual(self.asks('reload'), 'reload: nothing to do: this program and this configuration run\n'
                         'reload: done')
        self.write('trunk.toml', f'x = 1\n{text}')
        self.assertRegex(self.asks('reload'), 'reload: refused: the trunk goes on as it was: .*: x is not a key here')
        os.unlink(self.config)
        self.assertRegex(self.asks('reload'), 'reload: refused: .*No such file')
        others = text.replace('"incoming"', '"x"').replace('"outgoing"', '"incoming"').replace('"x"', '"outgoing"')
        self.write('trunk.toml', others)
        self.assertRegex(self.asks('reload'), 'reload: refused: .*it would end 30 calls .*, reload force does')
        self.write('trunk.toml', text)
        os.kill(self.keeper.pid, signal.SIGHUP)
        self.goes_on_all()
        told = [each for each in self.manager.read_lines() if each in ('READY=1', 'RELOADING=1')]
        self.assertEqual(told, ['READY=1', *['RELOADING=1', 'READY=1'] * 5])
        self.as_uncut()
        self.write('trunk.toml', others)
        self.assertEqual(self.asks('reload force'), 'reload: circuits 1-30 are configured otherwise\nreload: done')
        self.awaits('reload: it ends 30 calls')
        self.keeper.terminate()
        self.keeper.wait(SECONDS)

    def test_reload_in_a_death(self) -> None:
        """A program of the new version follows."""
        self.begins()
        with support.stopped(self.keeper.pid):
            os.kill(self.program, signal.SIGKILL)
            os.kill(self.keeper.pid, signal.SIGHUP)
        self.awaits('reload: (?=program)')
        self.goes_on_all()
        self.as_uncut()
        self.ends()

    def test_a_version_that_does_not_come_up(self) -> None:
        """The one before comes back."""
        self.within = {'holder.lifecycle.RELOADED': 1.0}
        self.options += ['--program', self.scripted()]
        self.begins()
        self.scripted('test "$1" = trunk && exec sleep 900')
        self.assertEqual(self.asks('reload'), 'reload: refused: the version before comes back: the program hangs, '
                         'and was killed')
        self.goes_on_all()
        self.as_uncut()
        self.assertFalse(self.state().trial)
        self.ends()

    def test_a_version_that_dies_twice(self) -> None:
        """The one before comes back, also behind the next death and another reload."""
        self.begins()
        for _ in range(2):
            self.assertEqual(self.asks('reload force'), 'reload: done')
            self.goes_on_all()
            self.dies()
            os.kill(self.program, signal.SIGKILL)
            self.awaits('reload: refused, the version before comes back: ')
            self.goes_on_all()
            self.dies()
            self.settles()
        self.as_uncut()
        self.ends()

    def test_replace(self) -> None:
        """Another holder has the same program and descriptors; a second one has them, too."""
        self.begins()
        before = self.program
        for _ in range(2):
            self.replaces()
            self.assertEqual(self.state().program, before)
            self.step(20)
        self.dies()
        self.kill_holder()
        self.starts_holder()
        self.goes_on_all()
        self.as_uncut()
        self.ends()

    def test_release_and_take(self) -> None:
        self.begins()
        self.assertEqual(self.asks('release'), 'release: done')
        self.assertEqual((self.device.line.recv(10), self.state().role, self.state().program), (b'', 'standby', 0))
        support.until(lambda: self.manager.read_lines() and not self.manager.files)
        self.kill_holder()                      # (it stands by still)
        self.starts_holder()
        support.until(lambda: self.state().holder == self.keeper.pid)
        line = self.asking('take')
        self.device.accept()
        self.assertEqual(line.makefile('r').read(), 'take: done\n')
        line.close()
        self.goes_on_all()
        self.assertEqual(self.state().role, 'active')
        self.ends()

    def test_a_line_that_is_not_whole(self) -> None:
        """It asks nothing, nor does a long one."""
        self.begins()
        for octets in b'quit', b'quit' * 17 + b'\n', b'q\n':
            with support.connected(self.places.hold_path) as line:
                line.sendall(octets)
                line.shutdown(socket.SHUT_WR)
                with contextlib.suppress(ConnectionResetError):
                    self.assertEqual(line.recv(100), b'unknown\n' if octets == b'q\n' else b'')
        self.assertEqual(self.asks('quit'), 'quit: done')
        self.assertEqual(self.keeper.wait(SECONDS), 0)


class NoLineTests(HolderCase):
    """A line that cannot be opened yet."""

    line_options = '--unix', '@/away'

    def test_reload(self) -> None:
        """It is done, and its trial has ended; the next one may come."""
        self.starts_holder()
        self.awaits('the trunk cannot be opened')
        for _ in range(2):
            self.assertEqual(self.asks('reload force'), 'reload: done')
            self.assertFalse(self.state().trial)
        told = [each for each in self.manager.read_lines() if each in ('READY=1', 'RELOADING=1')]
        self.assertEqual(told[-4:], ['RELOADING=1', 'READY=1'] * 2)
        self.ends()

    def test_no_reopen(self) -> None:
        self.options.remove('--reopen')
        self.starts_holder()
        self.assertEqual(self.keeper.wait(SECONDS), 1)
        self.assertIn('No such file', self.read_log())

    def test_configurations(self) -> None:
        """One that is refused ends it with status 2; one that is away is waited for."""
        text = support.text_of(self.config)
        self.write('trunk.toml', 'x = 1')
        self.starts_holder()
        self.assertEqual(self.keeper.wait(SECONDS), 2)
        os.unlink(self.config)
        os.mkdir(self.config)
        self.write(self.places.folder, 'in its place')
        self.starts_holder()
        self.awaits('File exists')
        self.assertEqual(self.keeper.wait(SECONDS), 1)
        os.unlink(self.places.folder)
        self.starts_holder()
        self.awaits('it is tried again')
        os.rmdir(self.config)
        self.write('trunk.toml', text)
        self.awaits('the trunk cannot be opened')
        self.ends()


# A holder in which each of these fails once, as the file `fails` says.
FAULTY = '''
import errno, os, sys
sys.path[:0] = [{driver!r}]
from e1gw.holder import main
from tests import limits
limits.put_given()

def fails_once(name):
    real = getattr(os, name)
    def does(*words, **more):
        try:
            with open({path!r}) as file:
                what, number = file.read().split()
        except (OSError, ValueError):
            what = ''
        if what == name:
            os.unlink({path!r})
            raise OSError(getattr(errno, number), os.strerror(getattr(errno, number)))
        return real(*words, **more)
    setattr(os, name, does)

for name in {names!r}:
    fails_once(name)
main.main()
'''


class HolderFaultTests(HolderCase):
    faults = (('posix_spawn', 'EAGAIN'), ('memfd_create', 'EMFILE'), ('pipe', 'EMFILE'), ('pidfd_open', 'EMFILE'),
              ('replace', 'ENOSPC'), ('makedirs', 'EIO'), ('waitpid', 'EIO'))

    def words(self) -> list[str]:
        text = FAULTY.format(driver=os.path.join(support.TOP, 'driver'), path=self.path('fails'),
                             names=[name for name, _ in self.faults])
        return [sys.executable, '-B', self.write('faulty', text), *self.options]

    def test_what_fails_at_a_start(self) -> None:
        """The next turn does it: all calls go on."""
        self.begins()
        files = f'/proc/{self.keeper.pid}/fd'
        before = len(os.listdir(files))
        for name, number in self.faults:
            with support.stopped(self.keeper.pid):
                self.write('fails', f'{name} {number}')
                os.kill(self.program, signal.SIGKILL)
            self.goes_on_all()
            self.assertFalse(os.path.exists(self.path('fails')), name)
        self.settles()
        self.assertEqual(len(os.listdir(files)), before)
        self.as_uncut()
        self.ends()


class HolderStateTests(HolderCase):
    def test_saved_and_loaded(self) -> None:
        """All calls go on from one start to the next; one that cannot be saved leaves its log."""
        self.begins('--state', self.path('state'))
        self.ends()
        self.assertTrue(os.path.exists(self.path('state')))
        self.starts_holder()
        self.device.accept()
        self.goes_on_all()
        self.settles()
        self.assertFalse(os.path.exists(self.path('state')))
        os.mkdir(self.path('state.new'))
        self.keeper.terminate()
        self.assertEqual(self.keeper.wait(SECONDS), 1)
        self.assertIn('the state is not saved, and the log stays', self.read_log())
        self.manager.forget()
        self.starts_holder()
        self.device.accept()
        self.goes_on_all()
        self.keeper.terminate()
        self.keeper.wait(SECONDS)

    def test_not_loaded(self) -> None:
        """One line names the file and the reason."""
        os.mkdir(self.path('state'))
        self.options += '--state', self.path('state')
        self.starts_holder()
        self.assertEqual(self.keeper.wait(SECONDS), 1)
        self.assertEqual(self.read_log(), f'e1gw-trunk: ends: the state is not loaded: {self.path("state")}: '
                                      'Is a directory\n')
