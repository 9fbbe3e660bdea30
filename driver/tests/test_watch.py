"""What an operator has of a trunk, by what the test plays for it: no program, no process and no clock."""
from __future__ import annotations

import asyncio
import json
import logging
import os
import time
import unittest
from dataclasses import replace
from types import SimpleNamespace
from typing import Any
from unittest import mock

from . import support
from .test_tell_lines import BEGIN, counts, row
from e1gw.call_names import CallNames
from e1gw.calls import CallLog, CallsNote
from e1gw.clock import ClockFinding, ClockStatus
from e1gw.events import (Burst, CallsCleared, Event, FlowChanged, Flows, RateChanged, ReadEvents, Slip, Stalled,
                         WatchEnded)
from e1gw_common import line_files
from e1gw_common.answers import CommandCount
from e1gw_common.lines import Line, LineStatus, Role, State
from e1gw.resyncs import Resyncs
from e1gw.status import MachineRole, PairStatus
from e1gw.trunk_rate import TrunkRate
from e1gw.watcher import flow, tell_client, watch
from e1gw.watcher.commands import MOST_HELD, ControlPeer, choose_evicted
from e1gw.watcher.connection import ProgramConnection
from e1gw.watcher.journal import NOTICE, LineFormatter
from e1gw.watcher.missed import MissedReports
from e1gw.watcher.page import PageNotes, body_of, parts_of
from e1gw_common.plain import typed
from e1gw_common.web import MOST_VISITORS, WebServer
from e1gw.watcher.http_pages import TrunkPages
from e1gw.watcher.trunk import TrunkFacts
from e1gw_common.session import CIRCUITS, OCTETS_A_SECOND, Command, command_record


def counted(line: Line | LineStatus) -> list[int]:
    return [line.seizures, line.answers, line.unacknowledged, line.faults]


class TrunkWatchCase(support.LoopCase):
    """A trunk without a program; `facts` are what is known of it. `given` has the records for the program, `told` the
    events."""

    def watched(self, **facts: Any) -> watch.TrunkWatch:
        config = self.write('trunk.toml', 'law = "A"\n')
        its = mock.Mock(flow=ClockStatus, **{
            'places.return_value.tell_path': config, 'config_path.return_value': config, 'place.return_value': 0,
            'outage.return_value': None, 'facts.return_value': TrunkFacts(**facts), 'program_starts.return_value': (),
            'start_octet.return_value': 0})
        found = watch.TrunkWatch(watch.WatchWants(name='west', calls=self.path('calls')), its)
        self.addCleanup(found._close)
        self.given, self.told = list[bytes](), list[Event]()
        setattr(found._program, 'ask', self.ask)
        setattr(found.client, 'report_event', self.told.append)
        return found

    async def ask(self, record: bytes, *_: object, **__: object) -> SimpleNamespace:
        self.given.append(record)
        return SimpleNamespace(refusal=None)


class WatchEdgeTests(TrunkWatchCase):
    now = 100.0

    async def test_a_slip_restarts_open_calls(self) -> None:
        """Not of another rate, and not of those that are not open; what is counted shows how many."""
        rows: list[tuple[str, Event, list[bytes]]] = [
            ('gap', Slip(0.25), [b'K\x03']), ('ahead', Burst(0.25), [b'K\x03']), ('rate', RateChanged(0.2), [])]
        for what, event, given in rows:
            found = self.watched()
            for n, state in ((3, State.ANSWERED), (4, State.SEIZED)):
                found._state.lines[n].begin(state, 0.0)
            with mock.patch.object(found, 'report_event') as tells:
                found.on_clock_finding(ClockFinding(what, 0.25))
            self.assertEqual(tells.mock_calls, [mock.call(event)])
            found._restarts.restart_due(100.0, 0, found._state.open_circuits(), True)
            await asyncio.sleep(0)
            self.assertEqual([record[:2] for record in self.given], given)
            self.assertEqual(found.known_status().renewed, len(given))

    async def test_since_when_octets_were_lost(self) -> None:
        """By the time of day."""
        found, told = self.watched(), list[Event]()
        clock = SimpleNamespace(time=lambda: 1e9, monotonic=lambda: 100.0)
        with mock.patch.object(watch, 'time', clock), mock.patch.object(found, 'report_event', told.append):
            found.on_clock_finding(ClockFinding('gap', 0.25, 97.5))
        self.assertEqual(told, [Slip(0.25, 1e9 - 2.5)])

    async def test_counts_go_on(self) -> None:
        """Behind another watcher, and behind one that has no note but of how calls are named."""
        found, commands = self.watched(), ('command 3 1 0', 'command 4 1 0')
        change = [row(3, 'seized', '00 10'), row(4, 'seized', '00 10'), row(3, 'acked', '00 11'), row(4, 'idle'),
                  row(3, 'answered', '00 01'), row(5, 'fault'), counts(3, 9, Late=2)]
        setattr(found.client, 'report_event', found.report_event)
        found.blocks = mock.Mock(**{'kept.now.word.return_value': None})
        found._state.begin(4096)
        found._state.take('\n'.join([*BEGIN, 'now', *commands, *change, '']).encode())
        found.counts.circuits[3].numbers.before = 5
        found.count(3, 'seize', 'done')
        found._resyncs = 4
        found._state.lines[3].opened = time.monotonic() - 5.0
        calls, shown, wanted = found.client.calls_note(), found.page_notes(), found.known_status()
        assert calls
        found._state.take('\n'.join([row(3, 'fault'), row(5, 'idle'), row(4, 'answered'), '']).encode())
        later = self.watched()
        later.blocks = found.blocks
        later.restore_shown(typed(watch.ShownNote, json.loads(json.dumps(shown, default=vars))))
        later.restore_note(typed(CallsNote, json.loads(json.dumps(calls, default=vars))))
        its = later.known_status()
        self.assertEqual((its.renewed, its.commands), (4, (CommandCount('seize', 'done', 1),)))
        for n in 3, 4, 5:
            before, after = wanted.circuits[n - 1], its.circuits[n - 1]
            self.assertEqual((counted(after.line), replace(after.packets, stale=False)),
                             (counted(before.line), before.packets), n)
            self.assertGreaterEqual(after.line.open, before.line.open)
        self.assertGreaterEqual(wanted.circuits[2].line.open, 5.0)
        self.assertEqual([counted(row.line) for row in its.circuits[2:5]],
                         [[1, 1, 0, 0], [1, 0, 1, 0], [0, 0, 0, 1]])
        self.assertEqual((its.circuits[2].packets.lost, its.circuits[2].packets.datagrams['Late']), (5, 2))
        naming, lines = CallNames(self.path('trunk.toml.calls')), {n: Line(n) for n in CIRCUITS}
        naming.begin('another', {n: 0 for n in CIRCUITS}, lines)
        self.assertEqual([counted(lines[n]) for n in (3, 4, 5)], [counted(found._state.lines[n]) for n in (3, 4, 5)])
        for begun, late, all_late in (4096, 2, 2), (8192, 1, 3):        # (the same session, and then another one)
            later._state.begin(begun)
            later._state.take('\n'.join([*BEGIN, row(3, 'answered', '00 01', (0, 9, all_late)), counts(
                3, 9, Late=late), 'now', '']).encode())
            self.assertEqual(later.known_status().circuits[2].packets.datagrams['Late'], all_late)

    async def test_a_wrong_rate(self) -> None:
        """It is an alarm, and red in the first line, up to the right one, also behind another watcher."""
        found = self.watched()
        setattr(found.trunk.reader.clock, 'rate', rate := TrunkRate())
        found.restore_shown(found.page_notes())
        self.assertFalse(rate.is_wrong)
        found.on_clock_finding(ClockFinding('wrong rate', 0.2))
        later = self.watched()
        later.blocks = mock.Mock(**{'kept.now.word.return_value': None})
        setattr(later.trunk.reader.clock, 'rate', rate)
        later.restore_shown(found.page_notes())
        self.assertTrue(rate.is_wrong)
        for what, is_bad in ('wrong rate', True), ('right rate', False):
            later.on_clock_finding(ClockFinding(what, 0.9985))
            self.assertEqual(len(later.known_status().alarms), is_bad)
            clock = ClockStatus(rate=0.9985, rate_wrong=is_bad)
            parts = parts_of(replace(later.known_status(), clock=clock), PageNotes((), (), None))
            self.assertEqual('class="bad"' in body_of('state', parts['state'][:1]), is_bad)
            self.assertIn(f'{what.replace("right ", "")} 99.85 %', parts['state'][0].cells[0])

    async def test_who_fails_when_told(self) -> None:
        """It is reported where that was, the program is not blamed, and all others are told."""
        change = '\n'.join([row(3, 'seized', '00 10'), 'command 3 1 0', counts(3, 1), 'alarms 1 0 0 0', ''])
        for kind, what in ((CallLog, 'on_state_change'), (CallNames, 'note_states'), (ReadEvents, 'take'),
                           (TrunkPages, 'mark_stale'), (ProgramConnection, 'on_command_told'),
                           (Resyncs, 'count_answers')):
            with self.subTest(what), mock.patch.object(kind, what, side_effect=KeyError('odd')):
                found = self.watched()
                found.blocks, follower = mock.Mock(), mock.Mock()
                setattr(found.client, 'report_event', found.report_event)
                setattr(found._server, 'followers', lambda: [follower])
                found._state.begin(0)
                found._state.take('\n'.join([*BEGIN, 'now', '']).encode())
                with self.assertLogs(level='DEBUG') as logs:
                    found._state.take(change.encode())
                told = [json.loads(call.args[0])['event'] for call in follower.send_line.mock_calls]
                self.assertEqual(told, ['state', 'lost', 'alarm'])
                self.assertIn("the watch of the trunk goes on: KeyError: 'odd' (", ''.join(logs.output))

    async def test_refused_datagrams_restart_their_call(self) -> None:
        """By what the program tells of them."""
        found = self.watched()
        found.blocks = mock.Mock()
        lines = [*BEGIN, row(3, 'answered', '00 11'), 'now']
        lines += [each for n in range(1, 5) for each in (f'at {30_000 * n}', counts(3, 0, Full=n))]
        found._state.begin(0)
        found._state.take('\n'.join([*lines, '']).encode())
        found._check()
        await self.until(lambda: self.given)
        self.assertEqual([record[:2] for record in self.given], [b'K\x03'])

    async def test_a_standby_writes_no_calls(self) -> None:
        for role, lines in (MachineRole.STANDBY, 0), (MachineRole.ACTIVE, 1):
            found = self.watched(pair=PairStatus(role, True, 0.0))
            assert found._calls
            with mock.patch.object(found._calls, 'write_line') as put:
                found._put_call('a line')
            self.assertEqual(put.call_count, lines)

    async def test_lines_that_the_service_before_may_have_written(self) -> None:
        """Each is in the file once."""
        self.write('calls', 'a line\n')
        found = self.watched()
        found.restore_note(CallsNote(0, 0, 0.0, {}, (), {}, ('a line', 'another line')))
        found._close()
        self.assertEqual(support.text_of(self.path('calls')), 'a line\nanother line\n')

    async def test_a_log_that_does_not_reach(self) -> None:
        """For how long nothing is known is told, if how the lines stood before is."""
        text = '\n'.join([*BEGIN, 'now', 'at 1024', 'end', '']).encode()
        for is_known in True, False:
            its = self.watched().client
            if is_known:
                its.restore_note(CallsNote(OCTETS_A_SECOND, 0, 0.0, {}, (), {}, ()))
            missed = MissedReports(OCTETS_A_SECOND, False, 3 * OCTETS_A_SECOND, 3 * OCTETS_A_SECOND + 1024, text)
            with mock.patch.object(its._trunk, 'missed_reports', mock.AsyncMock(return_value=missed)), \
                    mock.patch.object(tell_client, 'logger') as told:
                await its._catch_up(missed.last)
            self.assertEqual([call.args[1] for call in told.warning.call_args_list], [2.0] * is_known)
            self.assertEqual(its.state.place, missed.last * is_known)

    async def test_circuits_that_are_configured_otherwise(self) -> None:
        """Of those a reload has ended the calls."""
        its = self.watched().client
        self.write('trunk.toml', 'law = "A"\n[[circuit]]\nnumber = 3\n')
        with mock.patch.object(its._trunk, 'missed_reports', mock.AsyncMock(return_value=None)):
            for changed in {3}, set():
                await its.on_connect(mock.Mock(), 'session', 0)
                self.assertEqual(its.calls.changed, changed)

    def test_who_takes_too_little(self) -> None:
        """He is closed; who is gone is told nothing."""
        for held, is_gone, calls in ((MOST_HELD, False, (1, 0)), (MOST_HELD + 1, False, (1, 1)), (0, True, (0, 0))):
            writer = mock.Mock()
            writer.transport.get_write_buffer_size.return_value = held
            writer.transport.is_closing.return_value = is_gone
            with mock.patch('time.monotonic', lambda: 0.0):
                ControlPeer(writer).send_line('words')
            self.assertEqual((writer.write.call_count, writer.transport.abort.call_count), calls)

    def test_who_gives_way(self) -> None:
        """The one idle for longest; one that follows events behind the others, and one that holds calls last."""
        idle, busy, follows, old, holds, front = (
            ControlPeer(mock.Mock(), are_held, its, last) for its, last, are_held in (
                (False, 5.0, False), (False, 9.0, False), (True, 1.0, False), (True, 0.0, False), (False, 0.0, True),
                (True, 0.0, True)))
        for peers, gone in (([busy, idle, follows, old], idle), ([follows, busy], busy), ([follows, old], old),
                            ([holds, follows], follows), ([front, busy, holds], busy), ([front, holds], holds)):
            self.assertIs(choose_evicted(peers), gone)

    async def test_who_is_cleared(self) -> None:
        """What this end can end; and idle incoming circuits are blocked if that is wanted."""
        out, come = Role.OUTGOING, Role.INCOMING
        commands = {(out, State.SEIZED): Command.CLEAR, (out, State.ACKED): Command.CLEAR,
                    (out, State.ANSWERED): Command.CLEAR, (out, State.CLEAREDBACK): Command.CLEAR,
                    (come, State.ANSWERED): Command.CLEAR_BACK}
        for blocks in False, True:
            found = self.watched()
            kinds = [(role, state) for role in (out, come) for state in State if str(state) != 'unknown']
            wanted = commands | ({(come, State.IDLE): Command.BLOCK} if blocks else {})
            for n, line in found._state.lines.items():
                line.role, state = kinds[n - 1] if n <= len(kinds) else (out, State.FAULT)
                line.begin(state, 0.0)
            with mock.patch.object(found, 'report_event') as tell:
                found.clear_all('it is dark', blocks)
            await asyncio.sleep(0.01)
            self.assertEqual(self.given, [command_record(n, wanted[kind]) for n, kind in enumerate(kinds, 1)
                                          if kind in wanted])
            tell.assert_any_call(CallsCleared('it is dark', tuple(
                n for n, kind in enumerate(kinds, 1) if kind in commands)))

    async def test_one_control_socket(self) -> None:
        """Nobody listens any more at the one before."""
        found, servers = self.watched(), [mock.Mock(), mock.Mock()]
        with mock.patch.object(watch, 'unix_listener'), mock.patch('asyncio.start_unix_server', side_effect=servers):
            for _ in servers:
                await found._listen('control')
        self.assertEqual([each.close.call_count for each in servers], [1, 0])

    async def test_what_has_ended_and_goes_on(self) -> None:
        found = self.watched()
        with mock.patch.object(found, 'report_event') as tell, self.assertLogs(watch.__name__) as logs:
            for why in 'no room', None:
                found.set_ended('json', why)
                self.assertEqual(found.known_status().ended, {'json': why, 'calls': None, 'session': None})
        tell.assert_called_once_with(WatchEnded('json', 'no room'))
        self.assertEqual([each.getMessage() for each in logs.records], ['json: written again'])

    async def test_lines_that_are_not_written_are_noted(self) -> None:
        """Up to a thousand, the first ones."""
        with mock.patch.object(line_files, 'append_line', side_effect=OSError(28, 'full')):
            found = self.watched()
            for number in range(1002):
                found._put_call(f'{number}')
            await self.until(lambda: found.ended['calls'])
            self.assertEqual(found.client.waiting(), [f'{number}' for number in range(1000)])

    async def test_stalls(self) -> None:
        """They are counted; octets that are counted anew, by another machine, are no stall."""
        its = self.watched().client
        its._line = mock.Mock()
        with mock.patch.object(flow, 'QUIET', 1.0):
            for place in 1000, 1000, 1000, 1000, 1, 2:
                self.now += 0.6
                with mock.patch.object(its._trunk, 'place', lambda: place):
                    its.look_at_flow(self.now)
        with mock.patch.object(its._trunk, 'place', lambda: 2):
            self.assertEqual(its.flow.status(ClockStatus()), ClockStatus(stalls=1))
        self.assertTrue(its._connected['reports'])      # (a program that tells nothing since nothing comes is there)
        self.assertEqual([each for each in self.told if isinstance(each, FlowChanged)], [Stalled(1.0), Flows(2.4)])


class WatchPartTests(unittest.IsolatedAsyncioTestCase):
    now = 1.0

    def test_levels_of_syslog(self) -> None:
        """Each line has its level; elsewhere the name of the program."""
        about = os.fstat(2)
        levels = {logging.ERROR: 3, logging.WARNING: 4, NOTICE: 5, logging.INFO: 6, logging.DEBUG: 7}
        for stream, fronts in ((f'{about.st_dev}:{about.st_ino}', [f'<{n}>' for n in levels.values()]),
                               ('7:7', ['e1gw-trunk: '] * 5)):
            with mock.patch.dict(os.environ, {'JOURNAL_STREAM': stream}):
                form = LineFormatter('e1gw-trunk')
            said = [form.format(logging.LogRecord('', level, '', 0, 'x\ny', None, None)) for level in levels]
            self.assertEqual(said, [f'{front}x\n{front}y' for front in fronts])

    async def test_the_oldest_visitor_goes(self) -> None:
        server, lines = WebServer(mock.AsyncMock()), list[asyncio.StreamReader]()
        tasks = []
        for _ in range(MOST_VISITORS + 2):
            lines.append(asyncio.StreamReader())
            tasks.append(asyncio.create_task(server.on_connect(lines[-1], mock.Mock())))
            await asyncio.sleep(0)
            await asyncio.sleep(0)
        self.assertEqual([n for n, task in enumerate(tasks) if task.done()], [0, 1])
        for task in tasks:
            task.cancel()
        await asyncio.wait(tasks)
