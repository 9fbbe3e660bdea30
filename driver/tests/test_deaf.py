"""Calls that hear nothing: from when on, with which cause, and where it is shown."""
from __future__ import annotations

import csv
import json
import unittest
from typing import Any
from unittest import mock

from . import support
from .test_tell_lines import BEGIN, counts, row
from .test_watch import TrunkWatchCase
from e1gw_common.call_lines import FIELDS, CallLine, csv_line, read_calls
from e1gw.counts import ToldCounts
from e1gw.ctl_all import TrunkLine
from e1gw.ctl_calls import row_of
from e1gw.deaf import DEAF_AFTER, DeafCalls, Hearing, words_of_call
from e1gw.events import CallsDeaf, Event
from e1gw.metrics import circuit_table, exposition, table
from e1gw_common.session import OCTETS_A_SECOND, DatagramRefusal
from e1gw_common.line_files import LineFile
from e1gw.watcher.page import body_of, ended_row, parts_of

SECOND = OCTETS_A_SECOND


def told_counts(accepted: int = 0, **refused: int) -> ToldCounts:
    return ToldCounts(accepted, refused=tuple(refused.get(reason.label, 0) for reason in DatagramRefusal))


class HearingTests(unittest.TestCase):
    """Answered at second 10 of the trunk."""

    def why(self, at: float, *seen: tuple[float, ToldCounts]) -> str:
        hearing = Hearing(told_counts(7), 10 * SECOND)
        for second, each in seen:
            hearing = hearing.updated(each, round(second * SECOND))
        return hearing.why_deaf(round(at * SECOND))

    def test_from_when_on(self) -> None:
        """Two seconds of the trunk behind the answer, or behind the last packet that was accepted."""
        self.assertEqual([self.why(at) for at in (11.99, 12)], ['', 'no packets'])
        self.assertEqual([self.why(at, (11, told_counts(8)), (13, told_counts(8))) for at in (12.99, 13)],
                         ['', 'no packets'])
        self.assertEqual(self.why(14, (11, told_counts(7, Late=50)), (13.9, told_counts(8, Late=60))), '')

    def test_causes(self) -> None:
        """That of the discards in these two seconds; what came before the answer is of no call."""
        wrong = told_counts(7, PayloadType=3)
        rows: list[tuple[float, list[tuple[float, ToldCounts]], str]] = [
                (13.9, [(12, wrong)], 'PayloadType'), (14, [(12, wrong)], 'no packets'),
                (13, [(12, wrong), (12.5, told_counts(7, PayloadType=3, WrongSource=1))], 'WrongSource'),
                (13, [(12, told_counts(7, Late=2, Full=9))], 'Full'),
                (12, [(10.2, told_counts(7, NotOpen=9))], 'no packets'),
                (13, [(12, told_counts(7, PayloadType=1)), (12.5, told_counts(7))], 'PayloadType')]
        for at, seen, cause in rows:
            self.assertEqual(self.why(at, *seen), cause, seen)

    def test_what_is_told(self) -> None:
        """That it begins and that it ends, once, for all circuits of one cause; also if the call ends; another watcher
        tells nothing of it again."""
        events = list[Event]()
        calls, late = DeafCalls(events.append), told_counts(0, Late=9)
        for second in range(4):
            calls.update_hearings(second * SECOND, {1: told_counts(), 2: told_counts(second), 3: told_counts(),
                                                    4: told_counts(0, Late=second)})
        begun = [CallsDeaf(True, (4,), 'Late'), CallsDeaf(True, (1, 3), 'no packets')]
        self.assertEqual((events, calls.causes), (begun, {1: 'no packets', 3: 'no packets', 4: 'Late'}))
        events.clear()
        later = DeafCalls(events.append)
        later.restore_causes(calls.causes)
        for second in 9, 10:
            later.update_hearings(second * SECOND, {1: told_counts(), 2: told_counts(), 3: told_counts(), 4: late})
        self.assertEqual((events, later.causes), ([], calls.causes))
        later.forget(1)
        later.forget(2)
        later.update_hearings(11 * SECOND, {1: told_counts(), 3: told_counts(5), 4: late})
        self.assertEqual(events, [CallsDeaf(False, (1,)), CallsDeaf(False, (3,))])
        self.assertEqual([each.words() for each in (*begun, *events)], [
            'circuits 4 hear nothing: Late', 'circuits 1, 3 hear nothing: no packets', 'circuits 1 hear nothing: over',
            'circuits 3 hear nothing: over'])


class DeafTrunkCase(TrunkWatchCase):
    """A trunk with a good call, one whose packets are refused, and one to which none come."""

    async def deaf(self) -> Any:
        found = self.watched()
        found.blocks = mock.Mock(**{'kept.now.word.return_value': None})
        setattr(found._deaf, '_tell', self.told.append)
        found._state.begin(0)
        lines = [*BEGIN, *(row(n, 'answered', '00 11') for n in (3, 5, 7)), 'now']
        found._state.take('\n'.join([*lines, '']).encode())
        for place in range(1, 10):
            more = f'at {place * DEAF_AFTER // 8}', counts(3, place), counts(7, 0, PayloadType=place)
            found._state.take('\n'.join([*more, '']).encode())
            found._check()
        return found


class DeafTrunkTests(DeafTrunkCase):
    async def test_where_it_is_shown(self) -> None:
        found = await self.deaf()
        status = found.known_status()
        words = 'hears nothing: 5 (no packets), 7 (PayloadType)'
        self.assertEqual({row.line.circuit: row.deaf for row in status.circuits if row.deaf},
                         {5: 'no packets', 7: 'PayloadType'})
        self.assertIn(f'\n{words}\n', table(status))
        self.assertTrue(circuit_table(status, 7).endswith('  9 PayloadType; hears nothing: PayloadType'))
        self.assertTrue(circuit_table(status, 5).endswith('  hears nothing: no packets'))
        self.assertIn(f'; {words}', str(TrunkLine.from_status('west', status)))
        self.assertEqual([n for n in range(1, 31) if f'e1gw_circuit_deaf{{circuit="{n}"}} 1\n' in exposition(status)],
                         [5, 7])
        parts = parts_of(status, mock.Mock(events=(), ended=()))
        tiles = [body_of('c', parts[f'c{n}']) for n in (3, 7)]
        self.assertEqual([('class="bad"' in each, 'data-s="answered, hears nothing: PayloadType"' in each)
                          for each in tiles], [(False, False), (True, True)])
        self.assertEqual([json.loads(json.dumps(each.plain())) for each in self.told if isinstance(each, CallsDeaf)], [
            {'event': 'deaf', 'on': True, 'circuits': [7], 'cause': 'PayloadType'},
            {'event': 'deaf', 'on': True, 'circuits': [5], 'cause': 'no packets'}])

    async def test_its_line(self) -> None:
        """The first cause, also if another one comes behind it, and the call goes on behind a program and a watcher."""
        found = await self.deaf()
        found._state.take(f'{counts(7, 0, PayloadType=9, Late=30)}\n'.encode())
        found.client.calls.on_disconnect()
        note = found.client.calls.note(0, 0, 0.0, ())
        self.assertEqual([note.circuits[n].packets.cause for n in (3, 5, 7)], ['', '', 'PayloadType'])
        later = self.watched()
        later.client.calls.restore_note(note)
        later._state.begin(0)
        lines = [*BEGIN, row(7, 'answered', '00 11'), counts(7, 0, PayloadType=9, Late=30), 'now']
        later._state.take('\n'.join([*lines, counts(7, 0, PayloadType=9, Late=40), '']).encode())
        self.assertEqual(self.discarded(later), ('0', '49', 'PayloadType'))

    async def test_the_next_call(self) -> None:
        """Each call begins its count at 0, also if nobody has looked between two calls. Packets that came between them
        are in neither."""
        found, calls = await self.deaf(), list[Event]()
        setattr(found.client, 'report_event', found.report_event)
        setattr(found._deaf, '_tell', calls.append)
        states = [row(7, state, '00 11') for state in ('releasing', 'idle', 'seized', 'acked', 'answered')]
        found._state.take('\n'.join([*states[:2], counts(7, 0, PayloadType=9, NotOpen=5), *states[2:], '']).encode())
        self.assertEqual((calls, self.discarded(found)), ([CallsDeaf(False, (7,))], ('0', '0', '')))
        for late in 0, 1:
            found._state.take(f'{counts(7, 0, PayloadType=9, Late=late, NotOpen=6)}\n'.encode())
        self.assertEqual(self.discarded(found), ('0', '1', 'Late'))

    def discarded(self, found: Any) -> tuple[str, ...]:
        """What was received in the call of circuit 7, and discarded."""
        line = next(each for each in found.client.calls.open_calls() if each.circuit == '7')
        return line.received, line.discarded, line.cause


class DeafCallTests(support.FolderCase):
    """Lines of calls."""

    def line(self, received: str, seconds: int, **more: str) -> CallLine:
        its = CallLine('west', '7', 'outgoing', '', '2026-12-01T10:00:00.000Z', f'2026-12-01T10:00:0{seconds}.000Z',
                       'gateway', 'pcma', '5', received, '0', '0', 'id-7-1')
        return its._replace(**more)

    def test_words(self) -> None:
        """It is red if it heard nothing for as long as makes a call deaf."""
        for line, words in ((self.line('0', 3), 'hears nothing: no packets'), (self.line('0', 1), ''),
                            (self.line('0', 3, discarded='9', cause='Late'), 'hears nothing: Late'),
                            (self.line('5', 3, discarded='9', cause='Late'), '9 Late'), (self.line('', 3), ''),
                            (self.line('0', 3, answered=''), ''), (self.line('5', 3, discarded='0'), '')):
            self.assertEqual(words_of_call(line), words, line)
            shown = ended_row(csv_line(line), None)
            self.assertEqual((shown.cells[-2], 'class="bad"' in body_of('calls', [shown])),
                             (words, words.startswith('hears')), line)
            self.assertTrue(row_of(line).endswith(f'  {words:27} id-7-1'), line)

    def test_a_file_of_an_older_version(self) -> None:
        """Its lines are read; it is FILE.1 from now on, and one with all columns begins."""
        path, old, new = self.path('calls.csv'), self.line('8', 3), self.line('0', 3, discarded='9', cause='Late')
        self.write('calls.csv', f'{",".join(FIELDS[:-2])}\n{csv_line(old[:-2])}\n')
        for line in new, new:
            file = LineFile(path, ','.join(FIELDS), False)
            file.append(csv_line(line))
            file.close()
        self.assertEqual([*read_calls(path)], [new, new, old])
        self.assertEqual([*csv.reader(support.whole_lines(path))], [[*FIELDS], [*new], [*new]])
