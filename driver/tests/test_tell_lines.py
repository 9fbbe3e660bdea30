"""What a follower tells, in the words of the manual, and what is known by it."""
from __future__ import annotations

import asyncio
import unittest
from typing import Any
from unittest import mock

from . import support
from e1gw.counts import DatagramCounts
from e1gw.events import Disconnected, Event, LineChanged
from e1gw.watcher.tell_lines import BadTelling, TrunkState
from e1gw_common.lines import CircuitConfig, State, TrunkConfig
from e1gw_common.plain import plain_of
from e1gw_common.session import DatagramRefusal
from e1gw.watcher import tell_client
from e1gw.watcher.trunk import TrunkFacts

IDLE = [f'{n:2} outgoing idle        10 10          0          0          0 pcma      8' for n in range(1, 31)]
BEGIN = ['e1gw tell 1 A', 'at 512', 'alarms 0 0 0 0', *(f'line {each}' for each in IDLE)]


def counts(circuit: int, accepted: int, *rest: int, **refused: int) -> str:
    """The line of a circuit's counts; `rest` are lost packets and jitter."""
    lost, jitter = rest or (0, 0)
    reasons = [refused.get(reason.label, 0) for reason in DatagramRefusal]
    return ' '.join(['counts', *map(str, [circuit, accepted, lost, jitter, *reasons])])


def row(circuit: int, state: str, bits: str = '10 10', counts: tuple[int, int, int] = (0, 0, 0),
        role: str = 'outgoing', codec: str = 'pcma      8') -> str:
    sent, admitted, refused = counts
    return f'line {circuit:2} {role:8} {state:11} {bits} {sent:10} {admitted:10} {refused:10} {codec}'


class ToldTests(unittest.TestCase):
    def setUp(self) -> None:
        self.now, self.events = 100.0, list[dict[str, Any]]()
        self.counted: list[tuple[int, ...]] = []
        self.counts = DatagramCounts(lambda *answer: self.counted.append(answer))
        self.told = TrunkState(TrunkConfig(circuit=(CircuitConfig(1, prefill=320),)), self.hears,
                               self.counts, lambda: self.now)
        self.told.begin()
        self.take(*BEGIN, 'now')

    def take(self, *lines: str) -> None:
        """Lines that come in pieces."""
        text = ('\n'.join(lines) + '\n').encode()
        for at in range(0, len(text), 29):
            self.told.take(text[at:at + 29])

    def again(self, *changed: str, place: int = 512, begun: int | None = None) -> None:
        """Another connection; the whole state has these lines. (Of a line before it half has come.)"""
        self.told.take(b'line  1 outgo')
        self.told.on_disconnect()
        self.told.begin(begun)
        rows = {line[5:7]: line for line in (*BEGIN[3:], *changed) if line.startswith('line')}
        counted = [line for line in changed if line.startswith('counts')]
        alarms = [line for line in changed if line.startswith('alarms')] or [BEGIN[2]]
        self.take(BEGIN[0], f'at {place}', *alarms, *rows.values(), *counted, 'now')

    def circuit(self, number: int = 1) -> dict[str, Any]:
        found: dict[str, Any] = plain_of(self.told.rows()[number - 1])
        return found

    def hears(self, event: Event) -> None:
        self.events.append(event.plain())

    def names(self) -> list[tuple[Any, ...]]:
        """What was told: the event, and what, or the state."""
        return [(event['event'], *(event[key] for key in ('what', 'on', 'was', 'state', 'codec') if key in event))
                for event in self.events]

    def test_a_whole_state_tells_no_change(self) -> None:
        self.assertEqual(self.events, [])
        self.assertEqual((self.told.law, self.told.place, self.told.outage()), ('A', 512, None))
        self.assertEqual({row.line.state for row in self.told.rows()}, {State.IDLE})
        self.assertEqual(self.circuit()['jitter_buffer_ms'], 40)
        self.take('weather fine', '', 'end')            # (words of a later version)
        self.assertEqual(self.events, [])

    def test_nothing_was_told_yet(self) -> None:
        """No circuit is in fault for that."""
        told = TrunkState(TrunkConfig(), self.hears, self.counts)
        self.assertEqual({row.line.state for row in told.rows()}, {State.UNKNOWN})

    def test_a_row_of_the_manual(self) -> None:
        self.take('line  1 outgoing idle        10 10        101        100          0 pcma      8')
        found = self.circuit()
        self.assertEqual([found[key] for key in ('sent', 'recognised', 'codec', 'payload', 'datagrams')],
                         ['10', '10', 'pcma', 8, {'sent': 101, 'admitted': 100}])
        self.take('line 16 incoming fault       11 --          0          0          0 g726-32  96')
        found = self.circuit(16)
        self.assertEqual([found[key] for key in ('role', 'state', 'recognised', 'codec', 'payload')],
                         ['incoming', 'fault', '--', 'g726-32', 96])
        self.assertEqual(self.names(), [('codec', 'g726-32'), ('state', 'idle', 'fault')])

    def test_a_call(self) -> None:
        self.take('at 1024', 'command 1 1 0', row(1, 'seized', '00 10'))
        for state in 'acked', 'answered':
            self.now += 1
            self.take('at 2048', row(1, state, '00 11'))
        self.now += 3
        self.take('command 1 2 0', row(1, 'releasing'))
        self.take(row(1, 'idle'))
        found = self.circuit()
        self.assertEqual([found[key] for key in ('seizures', 'answers', 'unacknowledged', 'open', 'for')],
                         [1, 1, 0, 4, 0])
        self.assertEqual(self.names(), [('state', 'idle', 'seized'), ('state', 'seized', 'acked'),
                                        ('state', 'acked', 'answered'), ('state', 'answered', 'releasing'),
                                        ('state', 'releasing', 'idle')])
        self.assertEqual(self.events[-1], {'event': 'state', 'circuit': 1, 'role': 'outgoing', 'was': 'releasing',
                                           'state': 'idle', 'place': 2048})

    def test_a_seizure_that_nobody_acknowledges(self) -> None:
        for last in 'releasing', 'idle':
            self.take('command 1 1 0', row(1, 'seized', '00 10'), row(1, last))
        self.take(row(1, 'idle'), 'command 1 1 0', row(1, 'seized', '00 10'), 'command 1 2 0', row(1, 'releasing'))
        self.assertEqual([self.circuit()[key] for key in ('seizures', 'unacknowledged')], [3, 2])

    def test_a_refused_command_counts_nothing(self) -> None:
        given: list[bytes] = []
        self.told.on_command_told = given.append
        self.take('command 1 1 2', 'command 16 3 1', 'codec 1 2 95 31')
        self.assertEqual(given, [b'C\1\0\1\1', b'C\x10\0\1\3', b'K\1\0\2\2\x5f'])
        self.assertEqual((self.circuit()['seizures'], self.circuit(16)['answers'], self.events), (0, 0, []))

    def test_an_incoming_call(self) -> None:
        self.take('command 2 3 0', row(2, 'acked', '11 00', role='incoming'))
        self.take('command 2 3 0', row(2, 'answered', '01 00', role='incoming'))
        self.assertEqual([self.circuit(2)[key] for key in ('seizures', 'answers')], [1, 2])

    def test_alarms(self) -> None:
        self.take('alarms 1 1 0 0')
        self.assertEqual(self.told.outage(), 'no alignment')
        self.take('alarms 0 0 1 0')
        self.assertEqual(self.told.outage(), 'the other end has no alignment')
        self.assertEqual(self.told.status().losses, {'frame': 1, 'multiframe': 1})
        self.assertEqual(self.names(), [
            ('lost', 'frame'), ('alarm', 'frame', True), ('lost', 'multiframe'), ('alarm', 'multiframe', True),
            ('aligned', 'frame'), ('alarm', 'frame', False), ('aligned', 'multiframe'), ('alarm', 'multiframe', False),
            ('remote alarm', 'frame', True)])

    def test_datagrams(self) -> None:
        self.take('at 65536', row(1, 'idle', counts=(4, 1, 1)), counts(1, 1, Late=1))
        self.take('at 131072', row(1, 'idle', counts=(9, 3, 3)), counts(1, 3, 2, 5, Late=1, PayloadType=2))
        found = self.circuit()
        self.assertEqual(found['datagrams'], {'sent': 9, 'admitted': 3, 'Late': 1, 'PayloadType': 2})
        self.assertEqual([found[key] for key in ('lost', 'jitter_ms', 'stale')], [0, 0.62, False])
        self.assertEqual(self.counted, [(1, 0, 65536, 1), (1, 14, 65536, 1), (1, 0, 131072, 2), (1, 11, 131072, 2)])
        self.take(row(2, 'blocked', '11 10', counts=(0, 0, 3)))         # (a row is told before its counts)
        self.assertEqual(self.circuit(2)['datagrams'], {'sent': 0, 'admitted': 0})
        self.take(counts(2, 0, NotOpen=3))
        self.assertEqual(self.circuit(2)['datagrams'], {'sent': 0, 'admitted': 0, 'NotOpen': 3})

    def test_a_new_gateway(self) -> None:
        """It has refused fewer than were refused before: those were of another one."""
        self.take(counts(1, 0, Late=1))
        self.again(row(1, 'idle', counts=(5, 2, 8)))
        self.assertEqual(self.circuit()['datagrams'], {'sent': 5, 'admitted': 2, 'Late': 1})
        self.again(row(1, 'idle', counts=(1, 0, 2)))
        self.assertEqual(self.circuit()['datagrams'], {'sent': 1, 'admitted': 0})

    def test_counts_of_one_session_and_of_two(self) -> None:
        self.again(begun=0)
        self.take(counts(1, 4, 2, 16, Late=1))
        self.counted.clear()
        self.again(row(1, 'idle', counts=(0, 7, 1)), counts(1, 7, 3, 24, Late=1), begun=0)
        found = self.circuit()
        self.assertEqual((found['datagrams'], found['jitter_ms']), ({'sent': 0, 'admitted': 7, 'Late': 1}, 3.0))
        self.again(row(1, 'idle', counts=(0, 8, 2)), counts(1, 1, 1, 8, Late=1), begun=4096)
        found = self.circuit()
        self.assertEqual((found['datagrams'], found['jitter_ms']), ({'sent': 0, 'admitted': 8, 'Late': 2}, 1.0))
        self.assertEqual(self.counted, [])      # (of none of these is it known when it came)

    def test_changes_that_nobody_was_told(self) -> None:
        self.take(row(1, 'answered', '00 01'))
        self.events.clear()
        self.again('alarms 1 0 0 0', row(2, 'acked', '11 00', role='incoming'))
        self.assertEqual(self.names(), [('lost', 'frame'), ('alarm', 'frame', True), ('state', 'answered', 'idle'),
                                        ('state', 'idle', 'acked')])
        self.assertEqual([event.get('unwatched') for event in self.events], [None, None, True, True])

    def test_the_place_goes_on(self) -> None:
        self.take('at 4096')
        self.again()
        self.assertEqual(self.told.place, 4096 + 512)
        self.take('at 1024')
        self.again(place=2048, begun=4096)      # the same follower as before
        self.assertEqual(self.told.place, 4096 + 2048)

    def test_counts_are_stale_while_nobody_tells(self) -> None:
        self.told.on_disconnect()
        self.assertTrue(self.circuit()['stale'])
        self.told.begin()
        self.take(*BEGIN)
        self.assertTrue(self.circuit()['stale'])
        self.take('now')
        self.assertFalse(self.circuit()['stale'])

    def test_what_is_not_understood(self) -> None:
        for line in ('line 1', row(1, 'asleep'), row(31, 'idle'), 'alarms 1 1', 'alarms a b c d', 'at x',
                     'counts 1 0', counts(1, 0) + ' 0', counts(99, 0), 'command 1 9 0'):
            with self.subTest(line), self.assertRaises(BadTelling):
                self.told.begin()
                self.take(*BEGIN[:1], line)
        with self.assertRaises(BadTelling) as fault:
            self.told.begin()
            self.take('e1gw tell 2 A')
        self.assertEqual(str(fault.exception), 'it speaks version 2, and 1 is known')
        with self.assertRaises(BadTelling):
            self.told.begin()
            self.take('at 512')
        with self.assertRaises(BadTelling):
            self.told.take(b'x' * 5000)


class ReportReadingTests(support.LoopCase):
    async def test_a_change_while_the_state_is_asked_for(self) -> None:
        """It was taken before the one that the loop had read and not taken yet: a line was in a state of long ago, or
        two halves of lines were none. What is not understood ends the connection."""
        events, config = list[Event](), self.write('trunk.toml', 'law = "A"\n[[circuit]]\nnumber = 1\n')
        tell = self.path('tell')
        trunk = mock.Mock(**{
            'places.return_value.tell_path': tell, 'config_path.return_value': config,
            'facts.return_value': TrunkFacts(),
            'session.return_value': '', 'start_octet.return_value': 0,
            'missed_reports': mock.AsyncMock(return_value=None), 'know_place': mock.AsyncMock()})
        with support.listening(tell) as listener, mock.patch.object(tell_client, 'REST', 0.001):
            its = tell_client.TellClient(trunk, 'west', events.append, DatagramCounts(), lambda line: None)
            its.set_connected('control', True)
            follows = asyncio.create_task(its.run())
            await asyncio.sleep(0)
            with listener.accept()[0] as line:
                line.sendall('\n'.join([*BEGIN, 'now', '']).encode())
                await self.until(lambda: its.state.live)
                await asyncio.sleep(0.01)           # (it waits for more)
                line.sendall(f'{row(1, "seized", "00 10")}\n'.encode())
                await asyncio.sleep(0)
                await asyncio.sleep(0)              # (the loop has seen it, and nobody was woken yet)
                line.sendall(f'{row(1, "acked", "00 11")}\n'.encode())
                its.take_now()
                await self.until(lambda: its.state.lines[1].state == 'acked')
                line.sendall(b'alarms perhaps\n')
                await self.until(lambda: not its.state.live)
            follows.cancel()
            await asyncio.wait([follows])
        self.assertEqual([each.state for each in events if isinstance(each, LineChanged)], ['seized', 'acked'])
        self.assertEqual(events[-1], Disconnected('program', f'{tell}: not understood: alarms perhaps'))
