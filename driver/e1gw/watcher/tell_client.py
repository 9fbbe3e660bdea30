"""The state of the trunk: what the program reports (e1gw-tell(5)), and whether octets come."""
from __future__ import annotations

import asyncio
import logging
import socket
import time
from contextlib import suppress
from dataclasses import dataclass, replace
from typing import Callable

from e1gw_common.faults import words_of_fault
from e1gw_common.lines import Alignment, read_config
from e1gw_common.session import OCTETS_A_SECOND
from e1gw_common.tasks import next_beat, report_failure
from ..calls import CallLog, CallsNote
from ..counts import DatagramCounts
from ..events import Connected, Disconnected, Flows, LineChanged, Placed, Stalled, Tell
from ..call_names import CallNames, note_of
from ..status import ToldStatus
from .tell_lines import BadTelling, TrunkState
from . import flow
from .flow import Flow, FlowChange
from .missed import MissedReports
from .trunk import WatchedTrunk, place_told

AGAIN = 0.1                 # seconds between two tries to connect
REST, SHORT_REST = 0.08, 0.01       # between two reads of reports; the latter if somebody follows events
PATIENCE = 0.4              # seconds for a program to say where it is, while it has told other things
FIRST = 2.0                 # seconds before it is reported that the program was never there
BOTH = 'reports', 'control'         # the sockets of the program at which this process is a client
WATCH = 'the watch of the trunk'

logger = logging.getLogger(__name__)


@dataclass(frozen=True)
class ToldNote:
    """What was told beside the calls: whether there is a connection with the program, and since when; the alarms of
    this end and of the other one; how often alignment was lost; how octets flow."""

    stands: bool
    since: float
    alarms: tuple[bool, ...]
    losses: tuple[int, ...]
    flow: Flow


class TellClient:
    """A trunk as its program tells it. `tell` is called with each change, and `put` given the line of each call."""

    def __init__(self, trunk: WatchedTrunk, name: str, tell: Tell, counts: DatagramCounts,
                 put: Callable[[str], None]) -> None:
        self._trunk, self.report_event = trunk, tell
        self._config = read_config(trunk.config_path())
        self.state = TrunkState(self._config, report_failure(self._on_event, WATCH), counts, time.monotonic,
                                report_failure(self._on_all_told, WATCH))
        self.calls = CallLog(name, self.state.lines, counts, put, self._day)
        self.is_followed: Callable[[], bool] = lambda: False
        self.start = time.monotonic()
        self.naming = CallNames(note_of(trunk.places().tell_path))
        self._connected = dict.fromkeys(BOTH, False)
        self._stands: bool | None = None        # whether it is connected with the program, as was told
        self._stood: bool | None = None         # .. by the process before this one
        self._read = asyncio.Event()                    # reports are to be read at once
        self._line: socket.socket | None = None
        self._session = self._why = ''          # (why the last connection has ended)
        self.flow = Flow(0, time.monotonic())
        self.changed: Callable[[], None] = lambda: None         # called when calls have changed
        self._has_changed = False
        self._is_known = False                  # how the lines stand at the place up to which changes were told
        self._since = self._at = time.time()    # (the latter: when that place was told)
        self._is_caught_up = False              # all behind it was read in the log, up to the program's first report
        self._again = self.state                # what tells now, and up to which octet, at which time, if it is the log
        self._until = 0, self._at
        self.waiting: Callable[[], list[str]] = list    # lines of calls that may not be written yet
        self.state.on_disconnect()

    def restore_note(self, note: CallsNote) -> None:
        """Goes on with the calls of the watcher before this one."""
        self.calls.life = self.naming.known(self.state.lines)
        self.calls.restore_note(note)
        self.state.place, self.state.begun, self._at, self._is_known = note.place, note.begun, note.at, True

    async def _catch_up(self, last: int) -> None:
        """What happened up to this octet of the trunk, and nobody told, is read in the log, as far as that reaches."""
        place, self._is_caught_up, self._until = self.state.place, False, (last, time.time())
        missed = await self._trunk.missed_reports(place)
        if not missed or missed.since > missed.last or not (self._is_known or missed.is_complete()):
            return
        if not missed.is_complete():
            logger.warning('%.1f s of the trunk are not known: their calls may have no line',
                           (missed.first - missed.since) / OCTETS_A_SECOND)
        self._again = self.state.replay_until(missed.first, lambda: time.monotonic() - self._lag())
        self.calls.set_counts(self._again.counts)
        try:
            self._replay_missed(missed)
            self._is_caught_up = missed.is_complete() and missed.last >= last
        except BadTelling as fault:
            logger.warning('what the calls did meanwhile is not known: %s', fault)
        finally:
            self._again = self.state
        (self.state.place, self._at), self._is_known, self.state.known = self._until, True, True
        self.calls.set_counts(self.state.counts)
        self.naming.note_states(self.state.lines)
        self._note_calls()

    def _replay_missed(self, missed: MissedReports) -> None:
        """Takes what was missed. What differs where it begins was not told yet, or is of another configuration."""
        again, (alarms, state, changes) = self._again, missed.messages_for(self._until[0])
        again.take(alarms)
        again.known, again.live = self._is_known, self._is_known and missed.is_complete() and not missed.is_new
        again.take(state)
        again.counts.resume(self.state.counts)
        if not self._is_known:
            self.calls.life = self.naming.known(self.state.lines)
        self.calls.on_counts_known()
        again.take(changes)
        self.state.counts.take_causes(again.counts)

    def _lag(self) -> float:
        """By how many seconds that is late which is told now. Octets behind the begin of the program of now came as
        they come up to now, those before that as they came behind what was told last, or the begin of another one."""
        place = self._again.place
        if self._again is self.state:
            return 0.0
        known = [(self.state.place, self._at), *self._trunk.program_starts()]
        octet, at = self._until if place > self._trunk.start_octet() else max(
            (each for each in known if each[0] < place), default=known[0])
        return max(0.0, time.time() - at - (place - octet) / OCTETS_A_SECOND)

    def _day(self) -> float:
        """When that was which is told now."""
        return time.time() - self._lag()

    def _on_event(self, event: Placed) -> None:
        """The program has told a change of the lines or the alarms."""
        self.report_event(event)
        if isinstance(event, LineChanged):
            self._has_changed = True
            if self.state.live:
                self.naming.note_states(self.state.lines)

    def _note_calls(self) -> None:
        """Has the next service know of changes, and of the lines of calls that have ended, which are written then."""
        if self._has_changed or self.calls.lines:
            self._has_changed = False
            self.changed()
        self.calls.put_lines()

    def set_connected(self, what: str, on: bool, why: str = '') -> None:
        """Whether there is a connection to one of the program's sockets. At first it may be to come."""
        self._connected[what] = on
        has = all(self._connected.values())
        if not has and self._stands is None and time.monotonic() < self.start + FIRST:
            return
        if has is not self._stands:
            stood, self._stands, self._stood = self._stood, has, None
            if stood is not has:
                self._since, why = time.time(), self._trunk.facts().fault or why
                self.report_event(Connected('program') if has else Disconnected('program', why))

    def report_connection(self) -> object:
        """The connection at which changes are told; None if there is none."""
        return self._line if self.state.live else None

    def wake(self) -> None:
        """Reports are read at once."""
        self._read.set()

    async def run(self) -> None:
        """Knows the state of the trunk, by each program that comes."""
        while True:
            self._why = 'it has closed the connection'
            line = socket.socket(socket.AF_UNIX)
            try:
                line.setblocking(False)
                session = self._trunk.session()
                await self._trunk.know_place()
                line.connect(self._trunk.places().tell_path)
                place = self._trunk.start_octet() + await place_told(line)
                if self._trunk.session() != session:
                    raise OSError(0, 'another program carries the trunk')
                await self.on_connect(line, session, place)
                while self.read_lines(line, 1 << 16):
                    await self._wait_for_more(line)
                    await self._trunk.know_place(PATIENCE)
            except OSError as fault:
                self._why = words_of_fault(fault)
            finally:
                line.close()
            self.on_disconnect()
            await asyncio.sleep(AGAIN)

    def on_disconnect(self) -> None:
        """The connection has ended."""
        self._line = None
        self.state.on_disconnect()
        self.calls.on_disconnect()
        self.set_connected('reports', False, f'{self._trunk.places().tell_path}: {self._why}')

    def read_lines(self, line: socket.socket, most: int) -> bool:
        """Takes what was told, at once, so that nothing behind it is taken before; whether more may follow."""
        try:
            octets, before = line.recv(most), self.state.place
            self.state.take(octets)
            if self.state.place != before:
                self._at = time.time()
            self._note_calls()
            return bool(octets)
        except BlockingIOError:
            return True
        except BadTelling as fault:
            self._why = str(fault)
            with suppress(OSError):
                line.shutdown(socket.SHUT_RDWR)
            return False

    def take_now(self) -> None:
        """Takes what has been told and logged up to now."""
        self._trunk.reader.read()
        with suppress(OSError):
            if self._line:
                self.read_lines(self._line, 1 << 20)

    async def _wait_for_more(self, line: socket.socket) -> None:
        """Waits until there is more to read, and a moment first, so that many small writes are one read."""
        # (asyncio spells what it does not find: a socket with both of its addresses, a number by itself)
        loop, file = asyncio.get_running_loop(), line.fileno()
        rest = SHORT_REST if self.is_followed() else REST
        timer = loop.call_at(next_beat(rest), loop.add_reader, file, self._read.set)
        try:
            await self._read.wait()
        finally:
            timer.cancel()
            loop.remove_reader(file)
            self._read.clear()

    async def on_connect(self, line: socket.socket, session: str, place: int) -> None:
        """There is a connection, at which a program, whose session has this name, tells the state at an octet."""
        self._session = session
        with suppress(OSError, ValueError):
            before, self._config = self._config, read_config(self._trunk.config_path())
            self.state.configure(self._config)
            self.calls.changed = before.differing(self._config)
        await self._catch_up(place)
        self.flow, self._line = replace(self.flow, moved=time.monotonic()), line
        self.state.begin(self._trunk.start_octet())

    def counts_told(self) -> ToldNote:
        """What this process has told beside the calls."""
        state, stands = self.state, bool(self._stood if self._stands is None else self._stands)
        return ToldNote(stands, self._since, (*state.alarms.values(), *state.remote.values()),
                        (*state.losses.values(),), self.flow)

    def restore_told(self, note: ToldNote) -> None:
        """That is not told again."""
        self._stood, self._since, self.flow = note.stands, note.since, note.flow
        for its, told in zip((self.state.alarms, self.state.remote), (note.alarms[:2], note.alarms[2:])):
            its.update(zip(Alignment, told))
        self.state.losses.update(zip(Alignment, note.losses))

    def calls_note(self) -> CallsNote | None:
        """What another service has to know of the calls."""
        return self.calls.note(self.state.place, self.state.begun, self._at, self.waiting()) if self._is_known else None

    def _on_all_told(self) -> None:
        self._is_known = self._has_changed = True
        self.naming.begin(self._session, self.state.seizures, self.state.lines, self._is_caught_up)
        self.set_connected('reports', True)
        self.calls.on_session_start(self.naming.life)

    def look_at_flow(self, now: float) -> None:
        """To be called a few times a second: whether octets of the trunk come."""
        before = self.flow
        self.flow, change = before.update(self.place(), now, self._line is not None)
        if change is FlowChange.FLOWS:
            self.report_event(Flows(round(now - (before.stood or now), 3)))
        elif change is FlowChange.STALLED:
            self.set_connected('reports', True)
            self.report_event(Stalled(flow.QUIET))

    def place(self) -> int:
        """Octets of the trunk up to now. (Its log may have ended, and it goes on.)"""
        return max(self._trunk.place(), self.state.place)

    def outage(self) -> str | None:
        """Why no seizure can reach the other end, or None."""
        return 'the trunk is stalled' if self.flow.is_stalled else self._trunk.outage() or self.state.outage()

    def told_status(self) -> ToldStatus:
        """What is known of the trunk by what was told."""
        stands = bool(self._stands)
        return replace(self.state.status(), octets=self.place(), life=self.naming.life or None, trunk_up=stands,
                       program=stands, program_since=round(self._since, 3))
