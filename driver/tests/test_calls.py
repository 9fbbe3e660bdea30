"""A line for each call, whatever was not there meanwhile: who ended it, its packets and its name."""
from __future__ import annotations

import csv
import json
import unittest
from typing import Any

from . import support
from .properties import PropertyCase
from e1gw.call_names import CallNames
from e1gw_common.call_lines import FIELDS, moment
from e1gw.calls import CallLog, is_another_gateway
from e1gw.counts import REASONS, CircuitCounts, DatagramCounts, ToldCounts
from e1gw.events import LineChanged
from e1gw_common.lines import IN_CALL, Line, Role, State
from e1gw.watcher.missed import MissedReports


class CallEndTests(unittest.TestCase):
    def test_a_seizure_that_is_not_acknowledged(self) -> None:
        rows, lines, moments = list[str](), {1: Line(1)}, iter((1_000_000_000.0, 1_000_000_001.9996))
        calls = CallLog('west', lines, DatagramCounts(), rows.append, lambda: next(moments))
        for was, state in ((State.IDLE, State.SEIZED), (State.SEIZED, State.RELEASING), (State.RELEASING, State.IDLE)):
            calls.on_state_change(LineChanged(1, Role.OUTGOING, was, state, 100))
            lines[1].unacknowledged += state is State.SEIZED
        self.assertEqual(rows, [])                  # (they are noted first)
        calls.put_lines()
        self.assertEqual(rows, ['west,1,outgoing,2001-09-09T01:46:40.000Z,,2001-09-09T01:46:41.999Z,not acknowledged,'
                                'pcma,0,0,0,0,-1-0,0,'])

    def test_another_gateway(self) -> None:
        before = {'sent': 5, 'admitted': 0, 'Late': 1}
        for now, found in (({'sent': 0, 'admitted': 0}, True), (before, False), ({**before, 'admitted': 1}, False),
                           ({**before, 'sent': 4}, True), ({'sent': 6, 'admitted': 1}, True),
                           ({'sent': 5, 'admitted': 0, 'Late': 1, 'Full': 1}, False)):
            self.assertEqual(is_another_gateway(before, now), found, now)
        self.assertEqual([is_another_gateway({}, {'sent': n}) for n in (0, 1)], [True, False])

    def test_what_was_missed(self) -> None:
        """The state where it begins, and what was told behind that, up to an octet."""
        state, more = b'e1gw tell 1 A\nat 8\n', b'at 512\nline  1 c\nat 1024\ncounts 1 9\nalarms 1\nend\n'
        text = state + b'alarms 0\nline  1 a\nline  2 b\ncounts 1 5\nseizures 0\nnow\n' + more
        first, then = b'line  1 a\nline  2 b\ncounts 1 5\n', b'line  1 c\nline  2 b\ncounts 1 5\n'
        for since, last, at, circuits, changes in (
                (108, 108, 8, first, b''), (100, 700, 8, first, more[:17]), (50, 5000, 8, first, more),
                (612, 611, 512, then, b''), (700, 2000, 600, then, more[17:])):
            self.assertEqual(MissedReports(since, False, 100, 1124, text).messages_for(last), (
                b'e1gw tell 1 A\nat %d\nalarms 0\n' % at, circuits, b'now\n' + changes), (since, last))


class CalledTrunk:
    """Two lines that come into any states, packets, and one who tells of them and is away now and then. Each call is
    to be a line behind its end, in their order: `wanted` has those that are still to come."""

    def __init__(self, states: tuple[State, State]) -> None:
        self.lines = {n: Line(n, role, state=state, seizures=int(state in IN_CALL))
                      for n, role, state in zip((1, 2), [*Role], states)}
        self.counts, self.day = DatagramCounts(), 1_000_000_000.25
        self.open, self.wanted = dict[int, dict[str, str]](), list[dict[str, str]]()
        self.numbered = set[int]()              # circuits of whose calls it is known which they are
        self.calls = CallLog('west', self.lines, self.counts, self.write_line, lambda: self.day)
        self.takes(1, 4)
        self.calls.on_session_start('life')
        self.since = {n: self.numbers(n) for n in self.lines}
        for n, line in self.lines.items():
            self.begins(n, '') if line.state in IN_CALL else None

    def numbers(self, n: int) -> list[int]:
        its = self.counts.circuits[n]
        return [its.sent, its.admitted, its.numbers.count_lost, its.counts().get('Late', 0), its.discarded()]

    def write_line(self, line: str) -> None:
        row = dict(zip(FIELDS, next(csv.reader([line]))))
        n, by = int(row['circuit']), row['by']
        found = self.before[n] if by == 'reload' else self.numbers(n)
        told = [str(max(0, new - old)) for new, old in zip(found, self.since[n])]
        if by != 'reload' and self.counts.ended:
            told = [''] * 5
        told[2:] = [''] * 3 if by == 'unwatched' else told[2:]
        self.since[n] = self.numbers(n)
        assert row == {**self.wanted.pop(0), **dict(zip((*FIELDS[8:12], 'discarded'), told)), 'cause': ''}, (row, told)

    def begins(self, n: int, seized: str) -> None:
        line = self.lines[n]
        self.numbered = self.numbered | {n} if seized else self.numbered - {n}
        self.open[n] = {'trunk': 'west', 'circuit': str(n), 'direction': str(line.role), 'seized': seized,
                        'answered': moment(self.day) if line.state is State.ANSWERED else ''}

    def ends(self, n: int, by: str, codec: str) -> None:
        self.wanted.append({**self.open.pop(n), 'ended': moment(self.day), 'by': by, 'codec': codec,
                            'call': f'life-{n}-{self.lines[n].seizures}'})

    def moves(self, n: int, state: State, away: str = '') -> None:
        """A line comes into a state; `away`: who has ended its call where nobody saw it."""
        line, was = self.lines[n], self.lines[n].state
        line.state, first = state, was not in IN_CALL and state in IN_CALL
        line.seizures += first
        if first:
            self.begins(n, '' if away else moment(self.day))
        elif state is State.ANSWERED and n in self.open:
            self.open[n]['answered'] = self.open[n]['answered'] or moment(self.day)
        is_refused = was is State.SEIZED and state in (State.RELEASING, State.IDLE) and not away
        line.unacknowledged += is_refused
        if n in self.open and state not in IN_CALL:
            ours = (n == 1) is (was is not State.CLEAREDBACK)
            self.ends(n, away or ('fault' if state is State.FAULT else 'not acknowledged' if is_refused else
                                  'gateway' if ours else 'exchange'), 'before' if away else line.codec)
        self.calls.on_state_change(LineChanged(n, Role.OUTGOING, was, state, 0, True if away else None))
        self.calls.put_lines()

    def leaves(self, states: tuple[State, State], is_reload: bool) -> None:
        """Nobody tells, and then one does. With a reload circuit 1 is begun as new meanwhile."""
        for line in self.lines.values():
            line.codec = 'before'
        self.takes(1, 9)
        self.counts.ended, self.before = 'nobody tells', {n: self.numbers(n) for n in self.lines}
        self.calls.on_disconnect()
        self.takes(2, 3)
        if is_reload:
            self.counts.circuits[1], self.calls.changed = CircuitCounts(), frozenset((1,))
            self.takes(1, 1)
        for line, state in zip(self.lines.values(), (State.IDLE, states[1]) if is_reload else states):
            line.codec = 'after'
            if state is not line.state:
                self.moves(line.circuit, state, 'reload' if is_reload and line.circuit == 1 else 'unwatched')
        self.counts.ended, self.calls.changed = None, frozenset()
        self.calls.on_session_start('life')
        self.numbered = {*self.open}
        self.since = {n: [min(each) for each in zip(its, self.numbers(n))] for n, its in self.since.items()}

    def replaced(self, states: tuple[State, State], is_another: bool) -> None:
        """Another service goes on with what this one has noted. Nobody tells it how the lines came to stand; behind a
        call there may be another one."""
        note = self.calls.note(0, 0, self.day, ())
        codecs, begun = {call.circuit: call.codec for call in note.calls}, set[int]()
        self.calls = CallLog('west', self.lines, self.counts, self.write_line, lambda: self.day)
        self.calls.restore_note(note)
        for (n, line), state in zip(self.lines.items(), states):
            was, line.state = line.state, state
            is_new = state in IN_CALL and (was not in IN_CALL or is_another and n in self.numbered)
            if n in self.open and (is_new or state not in IN_CALL):
                self.ends(n, 'unwatched', codecs[n] or line.codec)
            line.seizures += is_new
            if is_new:
                self.begins(n, '')
                begun.add(n)
        self.calls.on_session_start('life')
        self.calls.put_lines()
        self.numbered = {*self.open} - begun

    def takes(self, n: int, count: int) -> None:
        its = self.counts.circuits[n]
        late = tuple(2 * (reason.label == 'Late') for reason in REASONS)
        its.sent, its.admitted = its.sent + count, its.admitted + 1
        its.numbers.before += count // 2
        its.told = ToldCounts(refused=late).added_to(its.told)

    def stops(self) -> None:
        for n in [*self.open]:
            self.ends(n, 'stop', self.lines[n].codec)
        self.calls.finish()
        assert not self.wanted


class CallPropertyTests(PropertyCase):
    def test_each_call_is_one_line(self) -> None:
        state, circuit, st = self.st.sampled_from(list(State)), self.st.sampled_from((1, 2)), self.st
        states = st.tuples(state, state)

        def check(first: tuple[State, State], steps: list[tuple[str, Any]]) -> None:
            trunk = CalledTrunk(first)
            for what, words in steps:
                trunk.day += 1
                getattr(trunk, what)(*words)
                going = {f'life-{n}-{trunk.lines[n].seizures}' for n in trunk.open}
                assert {line.call for line in trunk.calls.open_calls()} == going
            trunk.stops()
        self.holds(check, states, st.lists(st.one_of(
            st.tuples(st.just('moves'), st.tuples(circuit, state)),
            st.tuples(st.just('takes'), st.tuples(circuit, st.integers(0, 9))),
            st.tuples(st.sampled_from(('leaves', 'replaced')), st.tuples(states, st.booleans()))), max_size=40))


class NamingTests(support.FolderCase):
    """The count goes on over watchers and sessions."""

    def naming(self) -> CallNames:
        return CallNames(self.path('calls'))

    def counts(self, naming: CallNames, session: str, told: int, state: State = State.IDLE) -> int:
        """How often a line was seized of which a follower tells this."""
        lines = {1: Line(1, state=state)}
        naming.begin(session, {1: told}, lines)
        return lines[1].seizures

    def test_sessions(self) -> None:
        """One after another, as two services are told of them. Of the seizures that nobody has told only one is known,
        of a line that is in a call."""
        first = self.naming()
        self.assertEqual(self.counts(first, 'a', 5), 5)
        first.note_states({1: Line(1, seizures=7, state=State.ACKED)})
        self.assertEqual(self.counts(first, 'b', 0, State.ANSWERED), 7)
        self.assertEqual(self.counts(first, 'b', 2), 9)
        for session, told, state, count in (
                ('b', 3, State.IDLE, 10), ('c', 0, State.IDLE, 10), ('d', 0, State.ACKED, 11),
                ('e', 0, State.ANSWERED, 11), ('f', 1, State.ACKED, 12), ('f', 1, State.IDLE, 12),
                ('g', 1, State.ACKED, 13)):
            with self.subTest(session=session):
                naming = self.naming()
                self.assertEqual((self.counts(naming, session, told, state), naming.life), (count, first.life))

    def test_a_note_that_is_none(self) -> None:
        for text in ('', '[]', '{"life": 1}', '{"life": "x", "session": "a", "base": {"1": 5}}',
                     '{"life": "x", "session": "a", "base": {"x": 1}, "last": {}, "in_call": []}'):
            self.write('calls', text)
            naming = self.naming()
            self.assertEqual(self.counts(naming, 'a', 2), 2)
            self.assertEqual(json.loads(support.text_of(self.path('calls')))['life'], naming.life)
