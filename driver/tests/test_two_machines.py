"""A trunk that two machines have: one dies with thirty calls up; a standby dies, or is replaced. Both are on this one,
which has all of 127.0.0.0/8: the addresses that move, too."""
from __future__ import annotations

import json
import os
import re
import select
import signal
import socket
import struct
import subprocess
import time
from contextlib import suppress
from typing import Any, Callable

from . import limits, support
from .hand_clock import HandClock
from .holders import LONG
from .keepers import CIRCUITS, KeeperCase
from .logs import LogCopy
from .support import SECONDS
from .world import children, trunk_command, words_of
from e1gw.holder_state import TrunkPlaces
from e1gw.log_folder import FolderReader, LogFiles
from e1gw_common.session import MULTIFRAME, OCTETS_A_SECOND, packet_of
from e1gw_testing.ports import free_port
from e1gw_testing.service import answer_of, ask
from e1gw.watcher.feed import TICK
from e1gw_testing.waits import turns

ADDRESSES = {'a': '127.0.0.11', 'b': '127.0.0.12'}      # of the machines
TRUNK, SPEECH = '127.0.0.100', '127.0.0.101'            # of the trunk, wherever it is: SAToP and RTP
OTHER_SPEECH = '127.0.0.102'                            # of a machine that has another one
SILENCE = 1.0               # seconds: more than the jitter buffers have room for
WAITS = 100                 # milliseconds that a takeover takes, besides what its processes have to do
SIZE, MANY = 1248, 16       # octets of a packet of SAToP; packets: few


class FollowedLog(LogCopy):
    """The copy of a log that becomes that of a trunk."""

    def goes_on(self, folder: str) -> None:
        """The rest of it is in this folder."""
        self.look()
        files = LogFiles(folder)
        self._test.addCleanup(files.close)
        self._reader = FolderReader(files, self._reader.place)

    def __init__(self, test: PairCase, folder: str) -> None:
        super().__init__(test, folder)
        self._test = test


class Machine:
    """A machine, whose control is `ask`."""

    def __init__(self, case: PairCase, name: str, ports: dict[str, int], *words: str, **around: str) -> None:
        self.name, self._case, memory = name, case, support.in_memory()
        case.addCleanup(memory.cleanup)
        case.addCleanup(self.power_off)
        self.places = TrunkPlaces(os.path.join(memory.name, f'trunk-{os.getuid()}'))
        self.control, self._told, self._from = case.path(f'{name}.control'), case.path(f'{name}.told'), 0
        feed, fed_from = (f'{ADDRESSES[each]}:{ports[each]}' for each in (name, 'ab'.replace(name, '')))
        words += '--name', 'trunk', '--standby', '--control', self.control, '--folder', memory.name, '--feed', feed, \
            '--fed-from', fed_from
        self._around, self._others = {**os.environ, **around}, list[subprocess.Popen[bytes]]()
        with open(self._told, 'ab') as told:
            self.process = subprocess.Popen(trunk_command(*words), stderr=told, stdin=subprocess.DEVNULL,
                                            env=self._around)
        self.answers()
        self._words = words_of(self.watcher())

    def answers(self) -> None:
        """Until its watcher stands by. (One before it may have left its socket.)"""
        def stands_by() -> bool:
            with suppress(OSError):
                return self.ask('role').startswith('standby')
            return False
        support.until(stands_by)

    def watcher(self) -> int:
        """Its watcher: the last one that was started."""
        for each in self._others[-1:]:
            return each.pid
        (found,) = (pid for pid in children(self.process.pid) if 'e1gw-watch' in ' '.join(words_of(pid)[:2]))
        return found

    def pids(self) -> list[int]:
        """Those that go by the clock."""
        return [self.process.pid, self.watcher()]

    def kill_watcher(self) -> None:
        """It has none then (see `machine`)."""
        os.kill(pid := self.watcher(), signal.SIGKILL)
        support.until(lambda: not words_of(pid))
        os.unlink(self.control)

    def watches_again(self) -> None:
        """Another watcher in its place."""
        with open(self._told, 'ab') as told:
            self._others.append(subprocess.Popen(self._words, stderr=told, stdin=subprocess.DEVNULL, env=self._around))

    def log(self, folder: str = '') -> FollowedLog:
        """The log of its program, or another one."""
        copy = FollowedLog(self._case, folder or self.places.log)
        copy.look()
        return copy

    def fed_log(self) -> FollowedLog:
        """The log that it is fed."""
        return self.log(self.places.fed)

    def read_log(self) -> str:
        return support.text_of(self._told)

    def awaits(self, pattern: str) -> re.Match[str]:
        """What it says next that is so."""
        found = support.said_by(self.process, self._told, pattern, self._from)
        self._from = found.end()
        return found

    def ask(self, command: str) -> str:
        return ask(self.control, command.encode())

    def asks(self, word: str, path: str = '') -> Callable[[], str]:
        """Asks it, or its holder, and goes on; returns what waits for the answer."""
        self.socket = line = support.connected(path or self.control)
        self._case.addCleanup(line.close)
        line.sendall(f'{word}\n'.encode())
        return lambda: line.makefile('r').readline().strip() if path else answer_of(line)

    def power_off(self, link_down: bool = False) -> None:
        """Nothing of it goes on. With its link down its connections end for nobody."""
        if self.process.poll() is None:
            self.process.send_signal(signal.SIGSTOP)
            support.until(lambda: support.state_of(self.process.pid) in 'TZ')       # (it starts no other one)
            pids = {*children(self.process.pid), *(each.pid for each in self._others)}
            if link_down:
                os.kill(watcher := self.watcher(), signal.SIGSTOP)
                pids -= {watcher}
            for pid in pids:
                os.kill(pid, signal.SIGKILL)
            support.until(lambda: not any(words_of(pid) for pid in pids))
            if not link_down:
                self.process.kill()
                self.process.wait(SECONDS)
        for each in self._others if not link_down else []:
            each.wait(SECONDS)


class PairCase(KeeperCase):
    """A trunk in lock step with thirty calls, whose peers speak by the trunk's time, and two machines."""

    copy: FollowedLog           # of the log of the one that carries it

    def setUp(self) -> None:
        super().setUp()
        self.trunk = ['--unix', self.device.path]
        self.device.listener.listen(8)
        self.text = f'host = "{SPEECH}"\n' + self.peers.config().replace(']]\n', ']]\nprefill = 1200\n')
        self.config, self.speech_to = self.write('trunk.toml', self.text), SPEECH
        # Where the link of a machine is down its holder stands still here, and has its sockets.
        self.other_config = self.write('other.toml', self.text.replace(SPEECH, OTHER_SPEECH))
        self.ports = {name: free_port(address) for name, address in ADDRESSES.items()}
        self.clock = HandClock(self.path('clock'))

    def machine(self, name: str, config: str = '', *more: str, **within: Any) -> Machine:
        words = '--config', config or self.config, *self.trunk
        alone = {'holder.watcher_child.REFUSED': (0, 2, -signal.SIGKILL)}       # (no other one follows what is killed)
        around = limits.around(LONG | limits.TELLS | alone | {'holder.roles.MOST_AGE': limits.LONG} | within)
        return Machine(self, name, self.ports, *words, *more, **around, **self.clock.around)

    def promoted(self, machine: Machine) -> None:
        """It carries the trunk from now on."""
        self.control = machine.places.control
        self.assertEqual(machine.ask('promote'), 'promote: done', machine.read_log())
        self.device.accept()

    def calls_with_standby(self, **given: Machine) -> tuple[Machine, Machine]:
        """Thirty calls at machine a, for which machine b stands by."""
        a, b = (given.get(name) or self.machine(name) for name in 'ab')
        self.promoted(a)
        self.calls()
        self.fed(b)
        log, copy = a.log(), b.fed_log()
        support.until(lambda: copy.look() == log.look())        # (it may have been fed before the calls)
        return a, b

    def fed(self, machine: Machine) -> None:
        """The trunk goes on until a machine is fed."""
        for _ in turns('it is fed'):
            if machine.ask('role') == 'standby, fed':
                break
            self.step(4)

    def up_again(self) -> None:
        """Within 16 ms of the trunk the other end has alignment again, and no call has ended."""
        self.step(8)
        self.assertFalse(self.device.exchange.remote_alarms)
        self.step(60)
        self.assertEqual(self.device.exchange.signals, self.up())

    def takes_over(self, machine: Machine, since: float, until: float, by: Machine | None = None) -> None:
        """A machine takes over, as it is asked to, or `by` another one that is asked to hand over. Octets came last
        between these times, and it gets ones for as long. Up to its first octet services wait for WAITS at most."""
        began, self.control = self.clock.now(), machine.places.control
        answer = by.asks('move') if by else machine.asks('promote')
        services = [pid for each in (machine, by) if each for pid in each.pids()]

        def come(line: socket.socket) -> int:
            return self.clock.steps(lambda: select.select([line], [], [], 0)[0], *services)
        waits = come(self.device.listener)
        self.device.accept()
        self.peers.take()
        self.last, self.peers.packets = self.peers.packets, {n: [] for n in CIRCUITS}
        self.heard.clear()
        self.send()
        self.assertLessEqual(waits + come(self.device.line), WAITS)
        now = self.clock.now()
        self.clock.goes_on(*services)
        self.take(1)
        ones = int(machine.awaits(r'the trunk is taken: behind octet \d+, (\d+) of them ones')[1])
        self.copy.goes_on(machine.places.log)
        self.assertGreaterEqual(ones, (began - until) * OCTETS_A_SECOND - MULTIFRAME)
        self.assertLessEqual(ones, (now - since) * OCTETS_A_SECOND + MULTIFRAME)
        self.now += ones // MULTIFRAME          # (the peers speak by the trunk's time)
        self.goes_on_behind_all()
        if by:
            self.fed(by)
        self.assertEqual(answer(), 'move: done' if by else 'promote: done')

    def goes_on_behind_all(self) -> None:
        """The calls go on, and a second later each peer is heard. All that was heard and sent is the end of one replay,
        whose packets go on in each circuit."""
        self.up_again()
        for _ in range(6):
            self.step(100)
            self.copy.look()
        self.assertEqual(self.peers_heard(100), {*CIRCUITS})
        self.copy.look()
        octets, packets = self.uncut('--load', self.write('state', self.copy.state), given=self.copy.records)
        heard = b''.join(each or b'' for each in self.heard)
        self.assertTrue(b''.join(octets).endswith(heard))
        for n, its in self.peers.packets.items():
            self.assertEqual(its, packets[n][len(packets[n]) - len(its):], f'circuit {n}')
            last, first = packet_of(self.last[n][-1]), packet_of(its[0])
            time = last.timestamp + 160 * (first.sequence - last.sequence & 0xffff) & 0xffffffff
            self.assertEqual((first.ssrc, first.timestamp), (last.ssrc, time))

    def is_fed(self, log: LogCopy, *pids: int) -> None:
        """Octets come at the time at which the clock stands, and are fed."""
        self.step(4)
        self.clock.steps(lambda: self.copy.look() == log.look(), *pids)


class TwoMachinesTests(PairCase):
    """One that dies ends no call, and the other one sends what one uncut program would have sent."""

    def test_a_machine_dies_and_comes_back(self) -> None:
        """What came last has waited for a standby that stood still, and is as old as it is. (It came behind the word
        that was said of octets before it, which are of no time before the clock stood.)"""
        a, b = self.calls_with_standby(b=self.machine('b', self.other_config))
        self.copy, log = b.fed_log(), a.log()
        self.step(60)
        since = self.clock.stops()
        self.is_fed(log, *a.pids(), *b.pids())
        os.kill(b.watcher(), signal.SIGSTOP)
        self.step(4)
        fed, until = log.look(), self.clock.now() + 3 * TICK
        self.clock.steps(lambda: self.clock.now() > until - 0.001, *a.pids())
        os.kill(a.watcher(), signal.SIGSTOP)
        support.until(lambda: support.state_of(a.watcher()) == 'T')
        self.step(2)                    # (these are lost)
        a.power_off(link_down=True)
        self.clock.stops(SILENCE)
        os.kill(b.watcher(), signal.SIGCONT)
        support.until(lambda: self.copy.look() == fed)
        self.speech_to = OTHER_SPEECH
        self.takes_over(b, since, until)
        # it comes back, is fed behind a state, and the trunk is moved back in order
        a.power_off()
        a, log = self.machine('a'), self.copy
        self.fed(a)
        self.copy = a.fed_log()
        self.assertTrue(self.copy.state)
        support.until(lambda: b.ask('role') == 'active, fed')       # (it hears of that later than the standby)
        since = self.clock.stops()
        for _ in range(2):
            self.is_fed(log, *a.pids(), *b.pids())
        self.speech_to = SPEECH
        self.takes_over(a, since, self.clock.now(), by=b)
        log.look()
        self.assertIn(log.records[-20_000:], self.copy.records)

    def test_a_move_to_nobody(self) -> None:
        """A standby that stands still is found before anything is given up; of one that dies when it has taken the
        trunk, and cannot open it, that is taken back."""
        a = self.machine('a')
        b = self.machine('b', '', '--unix', self.path('nowhere'))
        self.calls_with_standby(a=a, b=b)
        with support.stopped(b.watcher()):
            self.assertEqual(a.ask('move'), 'move: refused: no standby is fed here')
            self.up_again()
        self.fed(b)
        support.until(lambda: a.ask('role') == 'active, fed')
        answer = a.asks('move')
        b.awaits('is to be active')
        b.power_off()
        self.device.accept()
        self.assertEqual(answer(), 'move: refused: the standby did not take the trunk, and this machine carries it '
                         'again')
        self.goes_on_unaligned()

    def blocked(self, machine: Machine) -> list[str | None]:
        """What it says of circuits 7 and 8."""
        return [row['blocked'] for row in json.loads(machine.ask('status json'))['circuits'][6:8]]

    def test_a_standby_is_replaced(self) -> None:
        """Another watcher in the place of its one is fed, can take over, and has what the operator has blocked."""
        a, b = self.calls_with_standby()
        self.assertRegex(a.ask('block 7-8'), 'blocking, until their calls have ended: circuits 7-8\nblock 7-8: done')
        self.assertEqual(b.ask('block 9'), 'block 9: refused: the other machine is to carry the trunk')
        support.until(lambda: self.blocked(b) == ['blocking', 'blocking'])
        b.kill_watcher()
        b.watches_again()
        b.answers()
        self.assertEqual(a.ask('unblock 8'), 'unblock 8: done')
        self.fed(b)
        support.until(lambda: self.blocked(b) == ['blocking', None])
        a.power_off()
        self.promoted(b)
        self.assertEqual(self.blocked(b), ['blocking', None])
        self.goes_on_unaligned()

    def goes_on_unaligned(self) -> None:
        """The far end finds alignment again, and no call has ended."""
        self.device.exchange.aligned = False
        self.step(68)
        self.assertEqual(self.device.exchange.signals, self.up())

    def test_a_watcher_that_is_dead(self) -> None:
        """Who says it to the holder itself has the trunk with what was fed up to then."""
        a, b = self.calls_with_standby()
        b.kill_watcher()
        a.power_off()
        answer = b.asks('take', b.places.hold_path)
        self.device.accept()
        self.control = b.places.control
        self.assertEqual(answer(), 'take: done')
        self.assertNotIn('begin anew', b.read_log())
        self.goes_on_unaligned()

    def test_watchers_killed_on_both_sides(self) -> None:
        """The next ones feed, and are fed, and the trunk is moved."""
        a, b = self.calls_with_standby()
        for each in b, a:
            each.kill_watcher()
            self.step(20)
            each.watches_again()
        b.answers()
        support.until(lambda: os.path.exists(a.control))
        self.fed(b)
        support.until(lambda: a.ask('role') == 'active, fed')
        answer = a.asks('move')
        self.device.accept()
        self.control = b.places.control
        self.assertEqual(answer(), 'move: done')
        self.goes_on_unaligned()


class SatopNumberTests(PairCase):
    """Over SAToP, with a socket as the far end: the numbers of packets go on at the other machine. (By the time, which
    a machine that stalls does not keep: so what is reckoned is tried elsewhere.)"""

    def setUp(self) -> None:
        super().setUp()
        self.packets, self.line = list[int](), socket.socket(socket.AF_INET, socket.SOCK_DGRAM)
        self.addCleanup(self.line.close)
        self.line.bind(('127.0.0.1', 0))
        self.near, self.due, self.waits = (TRUNK, free_port(TRUNK, socket.SOCK_DGRAM)), 0.0, 0
        self.trunk = ['--satop', f'{TRUNK}:{self.near[1]},127.0.0.1:{self.line.getsockname()[1]},size={SIZE},jitter=0']

    def come(self) -> None:
        """Takes the packets that have come, and sends one that is due, unless none has come for MANY: more do not wait
        there."""
        self.waits += 1
        while select.select([self.line], [], [], 0)[0]:
            self.packets.append(int.from_bytes(self.line.recv(2048)[2:4], 'big'))
            self.waits = 0
        if time.monotonic() >= self.due and (self.waits < MANY or not self.waits % 256):
            self.line.sendto(struct.pack('>HH', 0, self.now & 0xffff) + bytes(SIZE), self.near)
            self.now, self.due = self.now + 1, time.monotonic() + SIZE / OCTETS_A_SECOND

    def exchange_until(self, holds: Callable[[], object]) -> None:
        """Packets come and go until something holds."""
        def held() -> object:
            self.come()
            return holds()
        support.until(held, 0.001)

    def does(self, machine: Machine, word: str, taker: Machine) -> None:
        """Does it, and packets of the one that takes the trunk come."""
        count = taker.read_log().count('the trunk is taken: ')
        answer = machine.asks(word)
        self.exchange_until(lambda: taker.read_log().count('the trunk is taken: ') > count)
        self.exchange_until(lambda: select.select([machine.socket], [], [], 0)[0])
        self.assertEqual(answer(), f'{word}: done')
        count = len(self.packets) + MANY
        self.exchange_until(lambda: len(self.packets) > count)

    def goes_on_at(self, machine: Machine) -> None:
        """The packets of a machine begin with the number that was reckoned."""
        first = int(machine.awaits(r'the trunk is taken: behind octet .*, packet (\d+) next')[1])
        begun = json.loads(support.text_of(f'{machine.places.satop}.ends'))
        self.assertEqual(begun['first'], first)
        self.assertIn(first, self.packets)

    def test_packets_go_on(self) -> None:
        """In a move, and when a machine has died, which has other numbers than this one by itself."""
        a, b = (self.machine(*each) for each in {'a': self.config, 'b': self.other_config}.items())
        self.does(a, 'promote', a)
        self.exchange_until(lambda: b.ask('role') == 'standby, fed' and a.ask('role') == 'active, fed')
        self.does(a, 'move', b)
        self.goes_on_at(b)
        self.exchange_until(lambda: a.ask('role') == 'standby, fed')
        for path in a.places.satop, f'{a.places.satop}.ends':       # (so it knows none itself)
            os.unlink(path)
        b.power_off(link_down=True)
        self.does(a, 'promote', a)
        self.goes_on_at(a)
