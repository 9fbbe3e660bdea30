"""The lines of calls, whatever dies in whatever order: a trunk in service in one process, by its own time. Its calls,
and what its programs tell of them, are by chance; the service, its notes and the log are those of e1gw-trunk, which is
killed between any two of its writes."""
from __future__ import annotations

import contextlib
import csv
import os
import pickle
import random
from dataclasses import dataclass
from datetime import datetime
from types import SimpleNamespace
from typing import Any, Coroutine
from unittest import mock

from . import support
from .plain_trunk import PlainTrunk
from .properties import PropertyCase
from e1gw import call_names, log_folder
from e1gw_common.call_lines import FIELDS
from e1gw.counts import DatagramCounts
from e1gw.events import Event, LineChanged
from e1gw_common.lines import IN_CALL, CircuitConfig, Role, State, TrunkConfig
from e1gw.log_folder import LogPair, LogWriter
from e1gw.watcher import reader as readers, tell_client as statuses, trunk as trunks
from e1gw.watcher.reader import ReadingNote
from e1gw.watcher.tell_client import TellClient
from e1gw_common.session import CIRCUITS, MULTIFRAME, Command, trunk_record
from e1gw_common.writers import put_file

BEGIN, STEP = 1_000_000_000.0, 0.002        # the time of day at octet 0; seconds of a multiframe
LONG, LOOK = 600, 20        # multiframes of the session, and from one look of the service to the next
ALIGNED, LATE = 20, 3       # multiframes in which alignment is found; by which a line may be early or late
CALLED = range(11, 21)      # circuits with calls
FAR, RECORD = 1 << 60, trunk_record(bytes(MULTIFRAME))
QUIET = 60                  # multiframes at the end without a change
EXAMPLES = 120              # sequences: with another --seed of scripts/test others
ACKED, ANSWERED, BACK, IDLE = (State.ACKED, None), (State.ANSWERED, None), (State.CLEAREDBACK, None), (State.IDLE, None)
SEIZED, CLEAR = (State.SEIZED, Command.SEIZE), (State.RELEASING, Command.CLEAR)
# How calls go (Q.421): the states of the line, and the commands that led there.
Step = tuple[State, Command | None]
WAYS: dict[Role, tuple[tuple[Step, ...], ...]] = {
    Role.INCOMING: ((ACKED, IDLE), (ACKED, (State.ANSWERED, Command.ANSWER), IDLE),
                    (ACKED, (State.ANSWERED, Command.ANSWER), (State.CLEAREDBACK, Command.CLEAR_BACK), IDLE)),
    Role.OUTGOING: ((SEIZED, ACKED, CLEAR, IDLE), (SEIZED, ACKED, ANSWERED, CLEAR, IDLE),
                    (SEIZED, ACKED, ANSWERED, BACK, CLEAR, IDLE), (SEIZED, (State.RELEASING, None), IDLE))}
# Who ended a call, by the state that it had last; else the gateway an outgoing one, the exchange an incoming one.
ENDED_BY = {(Role.OUTGOING, State.SEIZED): 'not acknowledged', (Role.OUTGOING, State.CLEAREDBACK): 'exchange',
            (Role.INCOMING, State.CLEAREDBACK): 'gateway'}


class Died(BaseException):
    """The service was killed."""


@dataclass
class PlayedCall:
    """A call: the multiframes with which it began, was answered and ended; how many packets there were of it."""

    circuit: int
    number: int
    seized: int
    answered: int | None = None
    ended: int | None = None
    by: str = 'stop'
    packets: int = 0


@dataclass
class ToldMultiframe:
    """What a trunk is told to be at a multiframe: the alarms, the rows of its circuits, and how often each was seized
    since octet 0; and the lines of what has changed."""

    alarms: bytes
    rows: dict[int, bytes]
    seizures: dict[int, int]
    changes: bytes = b''


class CalledSession:
    """A session with calls, and all that is told of it."""

    def __init__(self) -> None:
        dice = random.Random(7)
        self.roles = {n: Role.INCOMING if n % 2 else Role.OUTGOING for n in CIRCUITS}
        self.config = TrunkConfig(circuit=tuple(CircuitConfig(n, role) for n, role in self.roles.items()))
        self.calls, self._going = list[PlayedCall](), dict[int, PlayedCall]()
        self._steps = {n: self._planned(self.roles[n], dice) for n in CALLED}
        self._packets = dict.fromkeys(CIRCUITS, 0)
        first = ToldMultiframe(b'alarms 1 1 0 0', {n: self._row(n, State.FAULT) for n in CIRCUITS},
                               dict.fromkeys(CIRCUITS, 0))
        self.told = [first]
        for m in range(1, LONG + 1):
            self.told.append(self._next(m, self.told[-1]))

    def _planned(self, role: Role, dice: random.Random) -> dict[int, Step]:
        """The states of a line, and the multiframes with which they begin."""
        found, m = dict[int, Step](), 30 + dice.randrange(60)
        while m < LONG:
            for step in dice.choice(WAYS[role]):
                found[m] = step
                m += dice.randrange(12, 100)
        return {m: step for m, step in found.items() if m < LONG - QUIET}

    def _row(self, n: int, state: State) -> bytes:
        packets = self._packets[n]
        return f'line {n:2} {self.roles[n]:8} {state:11} 10 10 {packets:10} {packets:10} {0:10} pcma      8'.encode()

    def _next(self, m: int, before: ToldMultiframe) -> ToldMultiframe:
        """Another multiframe."""
        now = ToldMultiframe(before.alarms, {**before.rows}, {**before.seizures})
        changed = dict[int, Step](dict.fromkeys(CIRCUITS, IDLE)) if m == ALIGNED else \
            {n: steps[m] for n, steps in self._steps.items() if m in steps}
        if m == ALIGNED:
            now.alarms, now.changes = b'alarms 0 0 0 0', b'alarms 0 0 0 0\n'
        for n, call in self._going.items():
            call.packets += m % 10 == n % 10
            self._packets[n] += m % 10 == n % 10
        for n, (state, command) in changed.items():
            now.changes += b'command %d %d 0\n' % (n, command) if command is not None else b''
            if state in IN_CALL and n not in self._going:
                now.seizures[n] += 1
                self.calls.append(PlayedCall(n, now.seizures[n], m))
                self._going[n] = self.calls[-1]
            elif state not in IN_CALL and (over := self._going.pop(n, None)):
                was = State(before.rows[n].split()[3].decode())
                over.ended, role = m, self.roles[n]
                over.by = ENDED_BY.get((role, was), 'gateway' if role is Role.OUTGOING else 'exchange')
            if state is State.ANSWERED:
                self._going[n].answered = m
            now.rows[n] = self._row(n, state)
            now.changes += now.rows[n] + b'\n'
        return now

    def changed(self, n: int, last: int) -> int:
        """The multiframe up to this one in which the state of a line changed last."""
        found: int = max(m for m in (ALIGNED, *self._steps.get(n, ())) if m <= last)
        return found


def now(work: Coroutine[Any, Any, Any]) -> None:
    """Does what waits for nothing."""
    with contextlib.suppress(StopIteration):
        work.send(None)
        raise AssertionError('it waits')


@dataclass
class Program:
    """A program that carries the trunk from an octet on, and what it told that was not heard yet. `begun` is what the
    service takes for that octet."""

    start: int
    pid: int
    unheard: bytes = b''
    lives: bool = True
    is_up: bool = True

    def __post_init__(self) -> None:
        self.begun = self.start

    @property
    def process(self) -> SimpleNamespace:
        return SimpleNamespace(pid=self.pid, started=1)

    def recv(self, most: int, flags: int = 0) -> bytes:
        if not self.unheard and self.lives:
            raise BlockingIOError
        found, self.unheard = self.unheard[:most], self.unheard[most:]
        return found


class BilledTrunk:
    """A trunk with its programs and services, one after another."""

    def __init__(self, session: CalledSession, folder: str) -> None:
        self.session, self.folder = session, folder
        self.kept, self.file = b'', list[str]()     # what stays when a service is killed: its note, and lines
        self.m, self.now, self.when = 0, BEGIN, list[float]()      # (of multiframes: how many; when)
        self.log, self.places = LogWriter(self.path('log')), [0]
        self.unlogged = b''             # of it, which nobody looks at yet
        self.pids, self.program = iter(range(1, 1000)), Program(0, 0, lives=False)
        self.status: TellClient | None = None
        self.waiting, self.left = list[str](), FAR  # lines that are not written; writes before the service is killed
        self.connected: Program | None = None
        self.end = LONG - 4 * LOOK                  # up to where something may die
        self.unheard = 0        # programs that were started since one was heard: the log has what two of them did

    def path(self, name: str) -> str:
        return os.path.join(self.folder, name)

    # ---- the service ----

    def logs(self) -> None:
        self.log.append(self.unlogged)
        self.unlogged = b''

    def serves(self) -> None:
        """A service begins."""
        self.logs()
        reader = readers.LogReader(self.path('log'), 0.1, None, lambda: None, lambda: b'')
        self.trunk = PlainTrunk(reader, self.folder, 'config')
        read, begun, note = pickle.loads(self.kept) if self.kept else (ReadingNote(), 0, None)
        reader.restore_note(read, None)
        self.status = status = TellClient(self.trunk, 'west', self.tells, DatagramCounts(), self.waiting.append)
        status.waiting, status.changed = lambda: [*self.waiting], self.note
        if note:
            status.restore_note(note)
            self.waiting += [line for line in note.lines if line not in self.file]
        reader.told = lambda: status.state.place
        self.connected = None
        if self.program.lives:
            self.program.begun = self.trunk.first = begun

    def writes(self) -> None:
        """Before each write."""
        self.left -= 1
        if self.left <= 0 and self.unheard < 2:
            raise Died

    def tells(self, event: Event) -> None:
        if isinstance(event, LineChanged) and self.status:
            self.status.calls.on_state_change(event)

    def note(self) -> None:
        self.writes()
        assert self.status
        reader = self.trunk.reader
        begun = self.program.begun if self.program.lives else reader.octets
        self.kept = pickle.dumps((reader.noted(), begun, self.status.calls_note()))

    def dies(self, written: int = 0) -> None:
        """The service is killed, once it has heard one of two programs; so many of the lines that wait are written."""
        while self.status and self.unheard > 1:
            self.end = max(self.end, self.m + 1)
            self.goes_on(1)
        self.file += self.waiting[:written]
        self.waiting.clear()
        self.trunk.reader.take_out()      # (which closes its files)
        self.status, self.left = None, FAR

    def looks(self) -> None:
        """The service does what it has to do now."""
        self.logs()
        try:
            self.trunk.reader.read_at_tick()
            if not self.program.lives and self.connected is not self.program:
                self.starts()
            if self.m * MULTIFRAME == self.program.start:       # (clients come in behind a record)
                return
            if self.connected is not self.program:
                self.program.unheard = self.state_at(self.m, self.program.start)
                told = self.m * MULTIFRAME - self.program.start
                place = self.program.begun + told
                now(self.status.on_connect(self.program, f'{self.program.pid}', place))    # type: ignore
                self.connected, self.unheard = self.program, 0
            self.hears()
            while self.waiting:
                self.writes()
                self.file.append(self.waiting.pop(0))
        except Died:
            self.dies(self.m % 3)

    def hears(self) -> None:
        """It takes what the program has told."""
        program, status = self.program, self.status
        assert status
        while program.unheard or not program.lives:
            if not status.read_lines(program, 1 << 16):        # type: ignore[arg-type]
                status.on_disconnect()
                self.connected = None
                return

    # ---- programs ----

    def starts(self) -> None:
        """Another program goes on from the log."""
        now(self.trunk.reader.keep_older_pair())
        self.note()
        self.unheard += 1
        self.program = Program(self.trunk.reader.octets, next(self.pids))
        self.trunk.first = self.program.start
        assert self.program.begun == self.m * MULTIFRAME
        self.log.begin(self.places[self.m], b'%d' % self.program.begun)
        self.note()

    def state_at(self, m: int, begun: int) -> bytes:
        """What a program tells that has begun with this octet, at a multiframe."""
        its, before = self.session.told[m], self.session.told[begun // MULTIFRAME].seizures
        counts = ' '.join(str(its.seizures[n] - before[n]) for n in CIRCUITS)
        return b'\n'.join([b'e1gw tell 1 A', b'at %d' % (m * MULTIFRAME - begun), its.alarms, *its.rows.values(),
                           f'seizures {counts}'.encode(), b'now', b''])

    def changes(self, first: int, last: int, begun: int) -> bytes:
        """What is told of multiframes."""
        return b''.join(b'at %d\n%s' % (m * MULTIFRAME - begun, told) for m in range(first + 1, last + 1)
                        if (told := self.session.told[m].changes))

    async def replay_reports(self, version: object, pairs: list[LogPair], folder: str) -> bytes:
        """What a replay of the log would tell."""
        begun = int(pairs[0].state)
        first, last = begun // MULTIFRAME, self.places.index(pairs[-1].end)
        state, changes = self.state_at(first + 1, begun), self.changes(first + 1, last, begun)
        return state + changes + b'end\n' if last > first else b''

    # ---- what happens ----

    def goes_on(self, count: int, told: bool = True) -> None:
        """Multiframes, if a program is there."""
        if self.status and not self.program.lives:
            self.looks()
        for _ in range(count):
            if not self.program.lives or self.m >= self.end:
                return
            self.unlogged += RECORD
            self.places.append(self.places[-1] + len(RECORD))
            self.m += 1
            self.now += STEP
            self.when.append(self.now)
            if told and self.connected is self.program:
                self.program.unheard += self.changes(self.m - 1, self.m, self.program.start)
            if self.status and self.m % LOOK == 0:
                self.looks()

    def program_dies(self, untold: int, silent: int) -> None:
        """The last multiframes are logged, and nobody is told. The next one comes behind so many steps of the time."""
        self.goes_on(untold, told=False)
        self.program.lives = False
        if self.status and self.connected is self.program:
            self.looks()
        self.now += silent * STEP
        self.goes_on(1)

    def reloads(self, silent: int) -> None:
        """Its program ends in order."""
        if self.status:
            self.looks()
            self.program_dies(0, silent)

    def service_dies(self, written: int, away: int) -> None:
        self.dies(written)
        self.goes_on(away)
        self.serves()

    def killed_at(self, write: int, away: int) -> None:
        """The service is killed before its next write of this number."""
        self.left = write
        while self.status and self.program.lives and self.m < self.end:
            self.goes_on(1)
        self.service_dies(0, away)

    def replaced(self, written: int) -> None:
        """Another service in place of this one."""
        if self.status:
            self.note()
            self.dies(written)
        self.serves()

    def both_die(self, untold: int, silent: int) -> None:
        self.dies()
        self.program_dies(untold, silent)
        self.serves()

    def told_in(self, m: int) -> tuple[float, float]:
        """Between which times a change in a multiframe may be told to be."""
        return self.when[m - LATE] - 0.001, self.when[min(m + LATE, self.m) - 1] + LOOK * STEP

    def ends(self) -> list[dict[str, str]]:
        """All lines, once the trunk has ended at a moment without a change."""
        self.left, self.end = FAR, LONG - 1
        if not self.status:
            self.serves()
        near = {m + d for call in self.session.calls for m in (call.seized, call.answered, call.ended) if m
                for d in range(-LATE, LATE + 1)}
        for _ in range(3):
            self.goes_on(LOOK)
        while self.m in near and self.m < self.end:
            self.goes_on(1)
        self.looks()
        assert self.status
        self.since = {n: line.since for n, line in self.status.state.lines.items()}
        self.status.calls.finish()
        self.file += self.waiting
        self.trunk.reader.take_out()
        self.log.close()
        return [*map(lambda row: dict(zip(FIELDS, row)), csv.reader(self.file))]


class BillTests(PropertyCase):
    session = CalledSession()

    def within(self, trunk: BilledTrunk) -> contextlib.ExitStack:
        """A service of a trunk begins, and goes by its time."""
        held, clock = contextlib.ExitStack(), SimpleNamespace(time=lambda: trunk.now, monotonic=lambda: trunk.now)

        def put_and_write(path: str, octets: bytes) -> None:
            trunk.writes()
            put_file(path, octets)
        for module, name, its in ((statuses, 'time', clock), (readers, 'time', clock),
                                  (call_names, 'put_file', put_and_write),
                                  (trunks, 'replay_reports', trunk.replay_reports),
                                  (statuses, 'read_config', lambda path: self.session.config)):
            held.enter_context(mock.patch.object(module, name, its))
        trunk.serves()
        return held

    def trunk(self, folder: str) -> BilledTrunk:
        with mock.patch.multiple(log_folder, RECORDS_ROOM=512 << 10, STATE_ROOM=4096):
            return BilledTrunk(self.session, folder)

    def wanted(self, trunk: BilledTrunk) -> dict[str, dict[str, Any]]:
        """The line of each call up to now, by its id without the life."""
        found = {}
        for call in self.session.calls:
            if call.seized > trunk.m:
                continue
            is_over = call.ended is not None and call.ended <= trunk.m
            is_answered = call.answered is not None and call.answered <= trunk.m
            times = {'seized': call.seized, 'answered': call.answered if is_answered else None,
                     'ended': call.ended if is_over else None}
            found[f'{call.circuit}-{call.number}'] = {
                'times': {key: m is not None and trunk.told_in(m) for key, m in times.items()},
                'by': call.by if is_over else 'stop', 'packets': call.packets if is_over else None}
        return found

    def test_each_call_has_one_line(self) -> None:
        st = self.st
        few, many, silent = st.integers(0, 3), st.integers(0, 120), st.integers(0, 600)
        event = st.one_of(
            st.tuples(st.just('program_dies'), st.tuples(many, silent)),
            st.tuples(st.just('reloads'), st.tuples(silent)),
            st.tuples(st.just('service_dies'), st.tuples(few, many)), st.tuples(st.just('replaced'), st.tuples(few)),
            st.tuples(st.just('killed_at'), st.tuples(st.integers(1, 12), many)),
            st.tuples(st.just('both_die'), st.tuples(many, silent)), st.tuples(st.just('goes_on'), st.tuples(many)))

        def check(events: list[tuple[str, Any]]) -> None:
            with support.in_memory() as folder, self.within(trunk := self.trunk(folder)):
                trunk.goes_on(LOOK)
                for what, words in events:
                    if trunk.m < trunk.end:
                        getattr(trunk, what)(*words)
                self.are(trunk, trunk.ends())
        self.holds(check, st.lists(event, min_size=1, max_size=8), examples=EXAMPLES)

    def are(self, trunk: BilledTrunk, rows: list[dict[str, str]]) -> None:
        wanted = self.wanted(trunk)
        its = [row['call'].partition('-')[2] for row in rows]
        more = [name for name in its if name not in wanted or its.count(name) > 1]
        assert sorted(its) == sorted(wanted), f'missing: {sorted({*wanted} - {*its})}, too many: {more}'
        for name, row in zip(its, rows):
            want = wanted[name]
            assert row['by'] == want['by'], (row, want)
            for key, within in want['times'].items():
                if key != 'ended' or row['by'] != 'stop':
                    told = seconds_of(row[key])
                    assert (told is None) == (not within), (key, row, want)
                    assert not within or within[0] <= (told or 0) <= within[1], (key, told, row, want)
            if want['packets']:
                assert row['sent'] == row['received'] == str(want['packets']), (row, want)
        for n, since in trunk.since.items():
            first, last = trunk.told_in(trunk.session.changed(n, trunk.m))
            assert first <= since <= last, (n, since, first, last)


def seconds_of(text: str) -> float | None:
    """The seconds of a time of day."""
    return datetime.fromisoformat(text).timestamp() if text else None
