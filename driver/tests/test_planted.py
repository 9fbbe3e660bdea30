"""Figures of faults that a test plants: each is as large wherever it is shown, and as what was planted says."""
from __future__ import annotations

import asyncio
import json
import re
import socket
import unittest
from dataclasses import dataclass
from types import SimpleNamespace
from typing import Mapping
from unittest import mock

from .test_clock import ClockedTrunk
from .test_tell_lines import BEGIN, IDLE, row
from .test_watch import TrunkWatchCase
from e1gw.crc4 import COUNTS, Crc4, counts_in
from e1gw.metrics import exposition, table
from e1gw.status import CircuitStatus, TrunkStatus
from e1gw.udp_tables import sockets_of
from e1gw.watcher import feed, flow
from e1gw.watcher.flow import Flow
from e1gw.watcher.pair import TrunkPair
from e1gw_common.lines import Line, LineStatus
from e1gw_common.plain import plain_of

OPEN = 'acked', 'answered', 'clearedback'           # by ITU-T Q.421: speech goes through
# Seconds, and the states that lines get behind them. The path of circuit 3 opens twice, and is open at the end.
LINES: list[tuple[float, dict[int, str]]] = [
    (1.0, {3: 'seized', 4: 'seized'}), (0.25, {3: 'acked', 4: 'fault'}), (0.5, {3: 'answered'}),
    (7.0, {3: 'clearedback', 4: 'idle'}), (2.0, {3: 'releasing', 4: 'fault', 5: 'fault'}), (0.5, {3: 'idle'}),
    (40.0, {3: 'seized', 4: 'blocked'}), (0.25, {3: 'acked'}), (0.125, {3: 'fault'}), (3.0, {3: 'idle'}),
    (1.0, {3: 'seized'}), (0.25, {3: 'acked'}), (4.0, {3: 'answered'}), (1.5, {})]
# Seconds in which octets come, seconds in which none do, and for how many seconds octets come at once behind them.
PAUSES = [(3.0, 0.5, 0.0), (3.0, 0.9, 0.9), (3.0, 1.5, 0.0), (3.0, 5.0, 5.0), (3.0, 0.3, 0.0), (3.0, 0.0, 0.4),
          (3.0, 0.0, 0.0)]
# What each program on each device has counted of CRC-4 at the end of each second.
CRC4 = [[[(100, 0, 0, 1, 0, 0), (1100, 3, 0, 1, 0, 0), (2100, 3, 5, 2, 1, 0)], [(988, 7, 0, 1, 0, 0)]],
        [[(500, 0, 1, 1, 0, 0), (1000, 0, 1, 3, 3, 1)], [(0, 0, 0, 0, 0, 0), (900, 2, 0, 1, 0, 0)]]]


def open_seconds() -> Mapping[int, float]:
    """By LINES."""
    states, found = dict[int, str](), dict.fromkeys((3, 4, 5), 0.0)
    for seconds, changes in LINES:
        for n in found:
            found[n] += seconds * (states.get(n) in OPEN)
        states |= changes
    return found


def faults() -> Mapping[int, int]:
    """By LINES."""
    return {n: sum(changes.get(n) == 'fault' for _, changes in LINES) for n in (3, 4, 5)}


def crc4_sums() -> list[int]:
    """The counts of each program at its end, one with the other: by CRC4."""
    return [sum(each) for each in zip(*(counts[-1] for device in CRC4 for counts in device))]


@dataclass(frozen=True)
class Shown:
    """What a status has, and the pages that are made of it."""

    status: TrunkStatus

    def metric(self, name: str, labels: str = '') -> float:
        """The value of a metric with these labels; there is one."""
        (value,) = re.findall(rf'(?m)^e1gw_{name}(?:\{{{labels}\}})? (\S+)$', exposition(self.status))
        return float(value)

    def text(self, words: str) -> tuple[float, ...]:
        """The numbers in the first place of the table that these words describe."""
        found = re.search(words, table(self.status))
        assert found, (words, table(self.status))
        return tuple(map(float, found.groups()))

    def json(self) -> dict[str, object]:
        found: dict[str, object] = json.loads(json.dumps(plain_of(self.status)))
        return found


class PlantedLineTests(TrunkWatchCase):
    """What lines do by LINES, and how often calls are resynchronised."""
    now = 100.0

    async def asyncSetUp(self) -> None:
        await super().asyncSetUp()
        self.its = self.watched()
        self.state = self.its._state
        setattr(self.state, '_clock', lambda: self.now)
        self.its.blocks = mock.Mock(**{'kept.now.word.return_value': None})
        self.state.begin(4096)
        self.state.take('\n'.join([*BEGIN, 'now', '']).encode())

    def tell(self, changes: Mapping[int, str]) -> None:
        self.state.take(''.join(f'{row(n, state)}\n' for n, state in changes.items()).encode())

    async def test_lines(self) -> None:
        """Also behind another program, which tells the state of now."""
        for number, (seconds, changes) in enumerate(LINES):
            self.now += seconds
            self.tell(changes)
            if number == 3:                 # (the call of circuit 3 is in its last state, and others are idle)
                self.state.on_disconnect()
                self.state.begin(8192)
                rows = [*IDLE[:2], row(3, 'clearedback')[5:], *IDLE[3:]]
                self.state.take('\n'.join([*BEGIN[:3], *(f'line {each}' for each in rows), 'now', '']).encode())
        shown = Shown(self.its.known_status())
        for n, seconds in open_seconds().items():
            its = shown.status.circuits[n - 1].line
            self.assertEqual((its.open, its.faults), (seconds, faults()[n]), n)
            self.assertEqual((shown.metric('circuit_open_seconds_total', f'circuit="{n}"'),
                              shown.metric('circuit_faults_total', f'circuit="{n}"')), (seconds, faults()[n]))
            self.assertAlmostEqual(shown.text(rf'(?m)^ {n} outgoing .*? \d+ +\d+ +(\d+\.\d)  pcma')[0], seconds,
                                   delta=0.051)

    async def test_resyncs(self) -> None:
        """As many as codecs were given that calls had, behind two slips that come soon and one that comes later."""
        for n, state in (3, 'answered'), (4, 'acked'), (5, 'seized'), (6, 'answered'):
            self.tell({n: state})
        for seconds in 0.0, 3.0, 20.0:
            self.now += seconds
            self.its._restarts.request(self.state.open_circuits(), 'gap of 0.250 s')
            self.its._restarts.restart_due(self.now, 0, self.state.open_circuits(), True)
            self.tell({6: 'idle'})
        await asyncio.sleep(0)
        given = [record for record in self.given if record[:1] == b'K']
        self.assertEqual([record[1] for record in given], [3, 4, 6, 3, 4])
        shown = Shown(self.its.known_status())
        self.assertEqual((shown.status.renewed, shown.json()['renewed'], shown.metric('jitter_buffer_resyncs_total')),
                         (len(given),) * 3)


class PlantedFlowTests(unittest.TestCase):
    """How octets flow, by PAUSES, and at another rate."""

    def test_pauses(self) -> None:
        """A second without octets is a stall; what was lost and is more than 0.1 s is a slip."""
        trunk, its = ClockedTrunk(), Flow(0, 1000.0)
        self.enterContext(mock.patch.object(flow, 'QUIET', 1.0))
        for goes, quiet, late in PAUSES:
            for seconds, comes in (goes, True), (quiet, False):
                for _ in range(round(10 * seconds)):
                    trunk.go(0.1) if comes else trunk.quiet(0.1)
                    its, _ = its.update(trunk.clock.octets, trunk.now, True)
            trunk.at_once(late)
        lost = [quiet - late for _, quiet, late in PAUSES if quiet - late > 0.1]
        stalls, clock = sum(quiet > 1.0 for _, quiet, _ in PAUSES), its.status(trunk.clock.status())
        shown = Shown(TrunkStatus(clock=clock))
        self.assertEqual((clock.stalls, shown.metric('trunk_stalls_total')), (stalls, stalls))
        self.assertEqual((clock.gaps, shown.metric('trunk_gaps_total')), (len(lost), len(lost)))
        self.assertEqual(shown.text(r'stalls (\d+), slips (\d+) '), (stalls, len(lost)))
        for seconds in clock.gap_seconds, *shown.text(r'slips \d+ \((\S+) s\)'):
            self.assertAlmostEqual(seconds, sum(lost), delta=0.06)

    def test_rates(self) -> None:
        for rate in 0.8, 1.25:
            trunk = ClockedTrunk()
            trunk.go(25 * rate, rate)
            shown = Shown(TrunkStatus(clock=trunk.clock.status()))
            for found in shown.status.clock.rate, shown.metric('trunk_rate_ratio'):
                self.assertAlmostEqual(found or 0.0, rate, delta=0.002)
            self.assertAlmostEqual(shown.text(r'wrong rate (\S+) %')[0], 100 * rate, delta=0.2)


class PlantedCountTests(TrunkWatchCase):
    """What others count: the kernel, the standby, and programs that look at CRC-4."""
    now = 100.0

    def test_datagrams_without_room(self) -> None:
        """As many as were sent and do not wait in the socket."""
        with socket.socket(socket.AF_INET, socket.SOCK_DGRAM) as line:
            line.bind(('127.0.0.1', 0))
            line.setblocking(False)
            sent = 2 * line.getsockopt(socket.SOL_SOCKET, socket.SO_RCVBUF) // 1000
            for _ in range(sent):
                line.sendto(bytes(1000), line.getsockname())
            found, came = sockets_of([Line(7, port=line.getsockname()[1])])[7], 0
            with self.assertRaises(BlockingIOError):
                while line.recv(1000):
                    came += 1
        shown = Shown(TrunkStatus(circuits=(CircuitStatus(line=LineStatus(7), socket=found),)))
        self.assertEqual((found.dropped, shown.metric('socket_dropped_total', 'circuit="7"')), (sent - came,) * 2)
        self.assertGreater(min(came, found.dropped), 0)

    async def test_the_age_of_a_feed(self) -> None:
        """Since the newest piece of which the standby has said that it has all; one of later on was not sent yet."""
        its, standby = feed.FeedServer('192.0.2.2', mock.Mock()), asyncio.StreamReader()
        with mock.patch.object(feed, 'time', SimpleNamespace(monotonic=lambda: self.now)):
            reads = asyncio.ensure_future(its._read_standby(standby))
            ages = list[float | None]()
            for self.now, says, looked in (101.0, 100.5, 103.0), (104.0, 103.5, 104.0), (105.0, 102.0, 106.0), (
                    107.0, 0.0, 108.0), (109.0, 150.0, 112.0):
                standby.feed_data(feed.MARK.pack(says))
                await self.until(lambda: its._said == self.now)
                self.now = looked
                ages.append(TrunkPair.facts(mock.Mock(_feed=its, _is_standby=lambda: False)).feed_age)
            shown = Shown(TrunkStatus(pair=TrunkPair.facts(mock.Mock(_feed=its, _is_standby=lambda: False))))
            standby.feed_eof()
            await reads
        self.assertEqual(ages, [2.5, 0.5, 2.5, 4.5, 3.0])
        self.assertEqual((shown.json()['feed_age'], shown.metric('feed_age_seconds')), (3.0, 3.0))

    def test_crc4(self) -> None:
        """Over all programs, one behind another on a device, and over all devices."""
        known = Crc4()
        for device in CRC4:
            for number, program in enumerate(device):
                if number:
                    known.on_next_program()
                for counts in program:
                    known.take(counts_in(f'live {" ".join(f"{name} {n}" for name, n in zip(COUNTS, counts))}'))
            last = known.status()
            known.reset()
        checked, errored, far, _, lost, given_up = crc4_sums()
        for shown in Shown(TrunkStatus(crc4=last)), Shown(TrunkStatus(crc4=known.status())):
            self.assertEqual([shown.metric(f'crc4_{name}', labels) for name, labels in (
                ('submultiframes_total', ''), ('errored_total', 'end="this"'), ('errored_total', 'end="other"'),
                ('alignment_losses_total', ''))], [checked, errored, far, lost])
            self.assertEqual(shown.text(r'CRC-4: .*lost (\d+), of it (\d+) .*errored (\d+) of (\d+) submultiframes, '
                                        r'the other end reports (\d+)'), (lost, given_up, errored, checked, far))
        self.assertEqual(Shown(TrunkStatus(crc4=last)).metric('crc4_aligned'), 1)
        self.assertNotRegex(exposition(TrunkStatus(crc4=known.status())), '(?m)^e1gw_crc4_aligned ')
