"""A watcher beside a holder with thirty calls and the real program, in lock step: what it shows, what it takes, and
that neither its death nor its faults are heard."""
from __future__ import annotations

import contextlib
import csv
import json
import os
import shlex
import signal
import subprocess
import sys
import time
import urllib.request
from typing import Any, Callable

from . import limits, support
from .holders import HolderCase, places_in_memory
from .keepers import CIRCUITS
from .support import SECONDS, octets_in
from e1gw_tools.far_exchange import IDLE
from e1gw.holder_state import STARTED_BY, TrunkPlaces
from e1gw_common.session import Command, Packet
from e1gw_testing.ports import free_port
from e1gw_testing.service import ask
from e1gw_testing.waits import not_within
from e1gw.watcher.memo import WatchNote, note_in
from e1gw.watcher.note import NoteFiles


class WatcherCase(HolderCase):
    """Such a watcher. Its control socket is `ctl`."""

    def setUp(self) -> None:
        super().setUp()
        self.watchers = list[subprocess.Popen[bytes]]()
        self.addCleanup(self.end_watchers)

    def end_watchers(self) -> None:
        for each in self.watchers:
            if each.poll() is None:
                each.kill()
                each.wait()

    def shows(self) -> list[str]:
        """What an operator has of the trunk."""
        return ['--control', self.path('ctl'), '--json', self.path('events'), '--calls', self.path('calls.csv')]

    def watcher_words(self) -> list[str]:
        return [sys.executable, '-B', support.launcher('watch')]

    def watches(self, *options: str, **within: Any) -> subprocess.Popen[bytes]:
        """Starts a watcher."""
        words = [*self.watcher_words(), '--config', self.config, '--folder', self.memory, '--program',
                 support.program(), *self.shows(), *options]
        with open(self.path('watched'), 'ab') as told:
            self.watchers.append(process := subprocess.Popen(words, stderr=told, stdin=subprocess.DEVNULL, env={
                **os.environ, **limits.around(limits.TELLS | within)}))
        return process

    def note(self) -> WatchNote | None:
        """What the watcher has noted."""
        return note_in(NoteFiles(self.places.watch).read())

    def ask(self, words: str) -> str:
        return ask(self.path('ctl'), words.encode())

    def called(self) -> list[list[str]]:
        """The lines of calls, without the head."""
        with open(self.path('calls.csv'), encoding='utf-8', newline='') as file:
            return [*csv.reader(file)][1:]

    def known(self, holds: Callable[[dict[str, Any]], object] = lambda status: True) -> dict[str, Any]:
        """The status, once this holds of it. The program tells at the next octets."""
        pause, end = 0.001, time.monotonic() + SECONDS
        while time.monotonic() < end:
            with contextlib.suppress(OSError, EOFError):
                status: dict[str, Any] = json.loads(self.ask('status json'))
                if status['program'] and holds(status):
                    return status
            self.step()
            time.sleep(pause := min(2 * pause, 0.02))
        raise AssertionError(not_within(holds))


def events_in(path: str, *without: str) -> list[dict[str, Any]]:
    """The events of a file, without some kinds."""
    return [found for line in support.whole_lines(path) if (found := json.loads(line))['event'] not in without]


class WatcherShowsTests(WatcherCase):
    def session(self) -> None:
        """Thirty calls, and the end of one."""
        self.calls()
        self.known(lambda status: {row['state'] for row in status['circuits']} == {'answered'})
        self.assertEqual(self.ask('clear 2'), 'clear 2: done')
        self.device.exchange.pairs[2] = IDLE
        self.known(lambda status: status['circuits'][1]['state'] == 'idle')

    def test_a_session(self) -> None:
        """Each change of each line is told once, each call has a line, and all octets are kept."""
        self.starts_holder()
        self.watches('--session', self.path('session'))
        self.device.accept()
        self.goes_on()
        self.session()
        self.assertEqual(self.ask('quit'), 'quit: done')
        self.assertEqual([self.keeper.wait(SECONDS), self.watchers[0].wait(SECONDS)], [0, 0])
        told = events_in(self.path('events'))
        for circuit in CIRCUITS:
            states = [each['state'] for each in told if each['event'] == 'state' and each['circuit'] == circuit]
            way = ['acked', 'answered'] if circuit % 2 else ['seized', 'acked', 'answered']
            self.assertEqual([each for each in states[:-2 if circuit == 2 else None] if each not in ('fault', 'idle')],
                             way)
            self.assertEqual(states[-2:] == ['releasing', 'idle'], circuit == 2)
        self.assertIn({'circuit': 2, 'command': 'clear', 'answer': 'done'}, [
            {key: each[key] for key in ('circuit', 'command', 'answer')} for each in told
            if each['event'] == 'command'])
        rows = self.called()
        self.assertEqual(sorted(int(row[1]) for row in rows), [*CIRCUITS])
        self.assertEqual([(row[1], row[6]) for row in rows if row[6] != 'stop'], [('2', 'gateway')])
        self.assertEqual(octets_in(support.octets_of(self.path('session'))), octets_in(b''.join(self.given)))
        self.assertEqual(os.listdir(self.memory), [])

    def test_commands(self) -> None:
        """They are done through it, and each has an answer; pages and metrics are served beside."""
        self.starts_holder()
        port = free_port('127.0.0.1')
        self.watches('--http', f'127.0.0.1:{port}')
        self.device.accept()
        self.goes_on()
        self.step(40)
        self.known(lambda status: {row['state'] for row in status['circuits']} == {'idle'})
        self.assertEqual(self.ask('seize 2'), 'seize 2: done')
        self.assertEqual(self.ask('block 1'), 'block 1: done')
        self.known(lambda status: [row['state'] for row in status['circuits'][:2]] == ['blocked', 'seized'])
        self.assertEqual(self.ask('unblock 1'), 'unblock 1: done')
        self.assertEqual(self.ask('block 3 auto'), 'block 3: done')
        self.assertEqual(self.ask('unblock 3 auto'), 'unblock 3: done')
        self.assertEqual(self.ask('clear 2'), 'clear 2: done')
        self.assertIn(' 2 outgoing', self.ask('status 2'))
        for path, words in ('metrics', 'e1gw_trunk_up{trunk="trunk"} 1\n'), ('', 'trunk trunk, e1gw '):
            with urllib.request.urlopen(f'http://127.0.0.1:{port}/{path}', timeout=SECONDS) as page:
                self.assertIn(words, page.read().decode())
        self.assertEqual(self.ask('role'), 'role: refused: there is no other machine (--feed, --fed-from)')
        self.assertEqual(self.ask('reload force'), 'reload: done')
        self.goes_on()
        self.write('trunk.toml', 'x = 1\n')
        self.assertRegex(self.ask('reload'), '^reload: refused: the trunk goes on as it was: ')
        self.known()
        self.assertEqual(self.ask('quit'), 'quit: done')
        self.assertEqual([self.keeper.wait(SECONDS), self.watchers[0].wait(SECONDS)], [0, 0])

    def test_a_second_one(self) -> None:
        """It refuses, and names the first."""
        self.starts_holder()
        first = self.watches()
        support.until(lambda: os.path.exists(self.path('ctl')))
        self.assertEqual(self.watches().wait(SECONDS), 2)
        self.assertIn(f'process {first.pid} watches this trunk', support.text_of(self.path('watched')))
        first.kill()
        first.wait()
        os.unlink(self.path('ctl'))
        self.watches()
        support.until(lambda: os.path.exists(self.path('ctl')))

    def test_without_a_trunk(self) -> None:
        """It says what it waits for."""
        self.watches()
        support.until(lambda: os.path.getsize(self.path('watched')))
        self.assertRegex(support.text_of(self.path('watched')),
                         f'no trunk at {self.places.folder}: e1gw-trunk is waited for\n$')

    def test_whose_holder_has_ended_at_once(self) -> None:
        """It does not wait for another one."""
        words = [*self.watcher_words(), '--config', self.config, '--folder', self.memory, '--program',
                 support.program()]
        with subprocess.Popen(['sh', '-c', f'{STARTED_BY}=$$ {shlex.join(words)} & echo $!; exec sleep 900'],
                              stdout=subprocess.PIPE, env={**os.environ, 'NOTIFY_SOCKET': self.manager.path}) as holder:
            assert holder.stdout
            watcher = int(holder.stdout.readline())
            try:
                support.until(lambda: 'WATCHDOG=1' in self.manager.read_lines())
            finally:
                holder.kill()
        support.until(lambda: support.state_of(watcher) in ('', 'Z'))

    def test_in_a_folder_that_is_made_again(self) -> None:
        """A second one is refused there, too."""
        self.starts_holder()
        first = self.watches()
        support.until(lambda: os.path.exists(self.places.watch_lock))
        self.device.accept()
        self.goes_on()
        before = os.stat(self.places.watch_lock).st_ino
        support.remove(self.places.folder)
        self.awaits('is to be had again')
        self.goes_on()
        path = self.places.watch_lock
        support.until(lambda: os.path.exists(path) and os.stat(path).st_ino != before)
        self.assertEqual(self.watches().wait(SECONDS), 2)
        self.assertIsNone(first.poll())


    def test_of_a_folder_that_moves(self) -> None:
        """It ends, and the next one is where the holder is; it ends with that, too."""
        name = f'moves{os.getpid()}'
        self.places = usual = TrunkPlaces(os.path.join(self.memory, f'{name}-{os.getuid()}'))
        self.control, other = usual.control, places_in_memory(usual)
        refuses = f'case "$*" in *" {usual.log} "*) echo cannot open the log of the trunk >&2; exit 1;; esac'
        program = self.scripted(f'if test -e {self.path("full")}; then {refuses}; fi')
        self.begins('--name', name, '--program', program)
        first = self.watches('--name', name)
        self.known()
        self.write('full', '')
        os.kill(self.program, signal.SIGKILL)
        self.awaits('from now on')
        self.goes_on_all()
        self.assertEqual(first.wait(SECONDS), 1)
        self.assertIn(f'the folder of the trunk is {other.folder} from now on', support.text_of(self.path('watched')))
        self.watches('--name', name)
        self.known(lambda status: {row['state'] for row in status['circuits']} == {'answered'})
        self.as_uncut()
        self.ends()
        self.assertEqual(self.watchers[-1].wait(SECONDS), 0)


# A watcher each of whose reads of the log fails while a file `fails` is there, and waits while there is one `hangs`.
FAILING = '''
import errno, os, sys, time
sys.path[:0] = [{driver!r}]
from e1gw.watcher import main
from tests import limits
limits.put_given()
real = os.pread
def fails(file, *words):
    if '/log/' in os.readlink(f'/proc/self/fd/{{file}}'):
        while os.path.exists({hangs!r}):
            time.sleep(0.01)
        if os.path.exists({fails!r}):
            raise OSError(errno.EIO, os.strerror(errno.EIO))
    return real(file, *words)
os.pread = fails
main.main()
'''


class WatcherUnheardTests(WatcherCase):
    """Whatever becomes of the watcher, what is heard is what one uncut replay gives, and another program follows."""

    def watcher_words(self) -> list[str]:
        text = FAILING.format(driver=os.path.join(support.TOP, 'driver'), fails=self.path('fails'),
                              hangs=self.path('hangs'))
        return [sys.executable, '-B', self.write('failing', text)]

    def begins_trunk(self) -> None:
        self.within = {'holder.decisions.DEATHS': 1 << 30}      # (no program waits)
        self.begins('--program', self.scripted())

    def begins_to_be_watched(self) -> None:
        self.begins_trunk()
        self.watches()
        self.knows_calls()

    def knows_calls(self) -> None:
        self.known(lambda status: {row['state'] for row in status['circuits']} == {'answered'})

    def ten_deaths(self) -> None:
        """Of the program, a reload, and an update: of the program, and another holder in place of this one."""
        for number in (signal.SIGKILL, signal.SIGTERM) * 5:
            self.dies(number)
        for words in 'reload force', 'reload', '':
            self.scripted()
            if words:
                self.assertEqual(self.asks(words).splitlines()[-1], 'reload: done')
            else:
                os.kill(self.keeper.pid, signal.SIGUSR2)
            self.goes_on_all()
        self.as_uncut()

    def ends_watched(self) -> None:
        """The last one knows all calls, and ends with the trunk."""
        self.knows_calls()
        self.dies()
        self.as_uncut()
        self.ends()
        self.assertEqual(self.watchers[-1].wait(SECONDS), 0)

    def test_absent(self) -> None:
        self.begins_trunk()
        self.ten_deaths()
        self.ends()

    def test_there(self) -> None:
        self.begins_to_be_watched()
        self.ten_deaths()
        self.ends_watched()

    def test_killed(self) -> None:
        self.begins_to_be_watched()
        self.watchers[-1].kill()
        self.ten_deaths()
        self.watches()
        self.ends_watched()

    def test_stopped(self) -> None:
        self.begins_to_be_watched()
        with support.stopped(self.watchers[-1].pid):
            self.ten_deaths()
        self.ends_watched()

    def test_hung(self) -> None:
        """In a read of the log that does not return."""
        self.begins_to_be_watched()
        self.write('hangs', '')
        self.ten_deaths()
        os.unlink(self.path('hangs'))
        self.ends_watched()

    def test_each_read_of_the_log_fails(self) -> None:
        """It is told once, and what the program tells is shown; once they do all is as it was."""
        self.write('fails', '')
        self.begins_to_be_watched()
        self.ten_deaths()
        self.knows_calls()
        self.assertEqual(support.text_of(self.path('watched')).count('the log cannot be read'), 1)
        os.unlink(self.path('fails'))
        support.until(lambda: 'the log is read again' in support.text_of(self.path('watched')))
        self.ends_watched()


class WatcherAgainTests(WatcherCase):
    def test_nothing_twice_and_nothing_missed(self) -> None:
        """Of calls that end while nobody watches, beside the deaths of a program."""
        self.starts_holder()
        first = self.watches()
        self.device.accept()
        self.goes_on()
        self.calls()
        self.known(lambda status: {row['state'] for row in status['circuits']} == {'answered'})
        support.until(self.is_noted)            # (what is told in the moment of a death is told again)
        before = events_in(self.path('events'))
        first.kill()
        first.wait()
        self.ends_call(2)
        os.kill(self.program, signal.SIGKILL)
        self.goes_on()
        self.step(20)
        self.ends_call(4)
        self.watches()
        status = self.known(lambda status: [row['state'] for row in status['circuits'][:4:2]] == ['answered'] * 2)
        self.assertEqual([row['state'] for row in status['circuits'][1:4:2]], ['idle'] * 2)
        self.assertEqual(self.ask('clear 6'), 'clear 6: done')
        self.device.exchange.pairs[6] = IDLE
        self.known(lambda status: status['circuits'][5]['state'] == 'idle')
        self.assertEqual(sorted((row[1], row[6]) for row in self.called()),
                         [(n, 'gateway') for n in ('2', '4', '6')])
        after = events_in(self.path('events'), 'command')[len(before):]
        self.assertEqual(sorted((each['circuit'], each['was'], each['state']) for each in after
                                if each['event'] == 'state'),
                         [(n, *each) for n in (2, 4, 6) for each in (('answered', 'releasing'), ('releasing', 'idle'))])
        self.assertEqual([each['event'] for each in after if each['event'] != 'state'], [])
        self.assertEqual(len({row[12] for row in self.called()}), 3)
        told, lines = len(events_in(self.path('events'))), self.called()
        self.watchers[-1].terminate()           # (its end is that of no call)
        self.assertEqual(self.watchers[-1].wait(SECONDS), 0)
        self.watches()
        self.known()
        self.assertEqual((len(events_in(self.path('events'))), self.called()), (told, lines))

    def counts(self, status: dict[str, Any]) -> dict[str, Any]:
        """All that is counted of the trunk and of each circuit, but what goes on rising."""
        numbers = 'circuit', 'seizures', 'answers', 'unacknowledged', 'faults', 'lost'
        rows = [{key: row[key] for key in numbers} | row['datagrams'] | {'sent': 0} for row in status['circuits']]
        clock = {key: status['clock'][key] for key in ('stalls', 'gaps', 'gap_seconds')}
        return {key: status[key] for key in ('losses', 'renewed', 'commands', 'log_losses')} | clock | {'rows': rows}

    def test_counts_go_on(self) -> None:
        """All of them, behind a watcher that was killed and one that was ended: none begins anew beside others."""
        self.starts_holder()
        self.watches()
        self.device.accept()
        self.goes_on()
        self.calls()
        self.known(lambda status: {row['state'] for row in status['circuits']} == {'answered'})
        self.speech_to = '127.0.0.1'
        self.step(100)
        self.now = 10 * (self._spoken + 6)      # (of each circuit five packets are lost)
        self.step(30)
        self.speech_to = ''
        wrong = Packet(13, self._spoken + 1, 0, 4, bytes(160)).encode()
        ports = {n: port for port, n in self.peers.circuits.items()}
        self.peers.socket.sendto(wrong, ('127.0.0.1', ports[4]))
        self.step(150)
        self.assertEqual(self.ask('clear 2'), 'clear 2: done')
        self.device.exchange.pairs[2] = IDLE
        before = self.known(lambda status: status['circuits'][1]['state'] == 'idle' and status['circuits'][3][
            'datagrams'].get('PayloadType'))
        for row in before['circuits']:
            self.assertEqual((row['lost'], row['seizures'], row['answers'] > 0), (5, 1, True))
        for ends in subprocess.Popen.kill, subprocess.Popen.terminate:
            support.until(lambda: (note := self.note()) and note.read.octets == self.known()['octets'])
            ends(self.watchers[-1])
            self.watchers[-1].wait(SECONDS)
            self.step(20)
            self.watches()
            status = self.known()
            self.assertEqual(self.counts(status), self.counts(before))
            self.assertTrue(all(now['open'] > row['open'] - 0.5 for now, row in zip(
                status['circuits'], before['circuits'])))

    def is_noted(self) -> bool:
        """Whether it was told, and noted, that the trunk is open."""
        note = self.note()
        return bool(note and note.held.holder and note.held.holder.open) and \
            'trunk' in {each['event'] for each in events_in(self.path('events'))}

    def ends_call(self, circuit: int) -> None:
        """A client of the program ends a call."""
        self.commands(range(circuit, circuit + 1), Command.CLEAR)
        self.device.exchange.pairs[circuit] = IDLE
        self.step(40)
