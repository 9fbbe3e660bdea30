"""A line for each call: written when the call has ended and its packets are counted."""
from __future__ import annotations

import time
from dataclasses import dataclass, replace
from typing import Callable, Iterable, Mapping

from e1gw_common.call_lines import CallLine, csv_line, moment
from e1gw_common.lines import IN_CALL, Line, LineCounts, Role, State
from .counts import DatagramCounts, PacketsNote
from .events import LineChanged

EACH = 'sent', 'admitted', 'lost', 'Late', 'discarded'      # what is counted, by the words of the counts


def is_another_gateway(before: Mapping[str, int], now: Mapping[str, int]) -> bool:
    """Whether a circuit was begun as new between these counts: there are none, or one of them has fallen."""
    return not any(now.values()) or any(now.get(word, 0) < count for word, count in before.items())


@dataclass
class CallRecord:
    """One call: when it was seized, answered and ended, and who ended it."""

    circuit: int
    seized: float | None        # None if it was up before anything was told
    unacknowledged: int         # of its line, before it
    answered: float | None = None
    ended: float | None = None
    by: str = ''
    codec: str = ''
    number: int = 0             # how many calls its line had with it
    counts: dict[str, int] | None = None    # those that were known of its circuit when nobody told any more


@dataclass(frozen=True)
class CircuitNote:
    """How a line stands and since when, since when its path is open, and all that was counted of it."""

    state: str
    since: float
    opened: float | None
    line: LineCounts
    packets: PacketsNote


@dataclass(frozen=True)
class CallsNote:
    """What another service goes on with: the octets of the trunk up to which changes were told, and with which the
    session has begun that did; the time of day then; each circuit; the calls, and the counts at the end of the last
    call of each circuit; and lines of calls that may not be in their file yet."""

    place: int
    begun: int
    at: float
    circuits: dict[int, CircuitNote]
    calls: tuple[CallRecord, ...]
    before: dict[int, dict[str, int]]
    lines: tuple[str, ...]


class CallLog:
    """Follows the calls of a trunk. `put` is given a line for each, once it is noted; `clock` is that of the day."""

    def __init__(self, trunk: str, lines: Mapping[int, Line], counts: DatagramCounts, put: Callable[[str], None],
                 clock: Callable[[], float] = time.time) -> None:
        self._trunk, self._lines, self._counts, self._put, self._clock = trunk, lines, counts, put, clock
        self._calls: dict[int, CallRecord] = {}
        self.lines: list[str] = []                        # of calls that have ended, which are to be put
        self._before: dict[int, dict[str, int]] = {}   # the counts at the end of the last call of each circuit
        self.life = ''
        self.changed: frozenset[int] = frozenset()      # circuits that were configured otherwise while nobody told

    def set_counts(self, counts: DatagramCounts) -> None:
        """These are the counts from now on."""
        self._counts = counts

    def on_state_change(self, event: LineChanged) -> str:
        """A change of a line's state. The id of the call that it is of, if it is of one."""
        circuit, was, state, unwatched = event.circuit, event.was, event.state, bool(event.unwatched)
        if was not in IN_CALL and state in IN_CALL:
            self._begin(circuit, None if unwatched else self._clock())
        call = self._calls.get(circuit)
        if call and state is State.ANSWERED and call.answered is None:
            call.answered = self._clock()
        if call and state not in IN_CALL:
            self._end(call, self._end_cause_unseen(call) if unwatched else self._ended_by(call, was, state))
        return self._id(call) if call and self.life else ''

    def open_calls(self) -> list[CallLine]:
        """The calls that have not ended: their lines up to now."""
        return [self._line(replace(call, codec=self._lines[n].codec), self._now(n)) for n, call in self._calls.items()]

    def _id(self, call: CallRecord) -> str:
        number = call.number or (self._lines[call.circuit].seizures if call.ended is None else 0)
        return f'{self.life}-{call.circuit}-{number}'

    def _begin(self, circuit: int, seized: float | None) -> None:
        line = self._lines[circuit]
        self._counts.circuits[circuit].begin_call()
        self._calls[circuit] = CallRecord(circuit, seized, line.unacknowledged,
                                          number=line.seizures if seized is not None else 0)

    def on_session_start(self, life: str) -> None:
        """The state of all lines is known again: there may be calls that nobody reported, and counts from 0. `life`
        names the count of calls of each line."""
        self.life = life
        for n, line in self._lines.items():
            call = self._calls.get(n)
            if call and (line.state not in IN_CALL or 0 < call.number < line.seizures):
                self._end(call, self._end_cause_unseen(call))          # (of the watcher before this one)
            elif call:
                call.number, call.counts = call.number or line.seizures, None
            if line.state in IN_CALL and n not in self._calls:
                self._begin(n, None)
                self._calls[n].answered = self._clock() if line.state is State.ANSWERED else None
        self.on_counts_known()

    def on_counts_known(self) -> None:
        """Counts of packets are known again, of circuits of which none were, or that may be new."""
        for n in self._lines:
            now = self._now(n)
            self._before[n] = {word: min(self._before.get(n, now).get(word, 0), count) for word, count in now.items()}

    def on_disconnect(self) -> None:
        """Nobody tells any more."""
        for n, call in self._calls.items():
            call.codec, call.counts = self._lines[n].codec, self._now(n)

    def _end_cause_unseen(self, call: CallRecord) -> str:
        """Who ended a call while nobody told: a reload begins a circuit that is configured otherwise as new."""
        is_new = is_another_gateway(call.counts or {}, self._now(call.circuit))
        return 'reload' if is_new and call.circuit in self.changed else 'unwatched'

    def _ended_by(self, call: CallRecord, was: State, state: State) -> str:
        """Who ended a call: the one that hung up first."""
        line = self._lines[call.circuit]
        if state is State.FAULT:
            return 'fault'
        if line.unacknowledged > call.unacknowledged:
            return 'not acknowledged'
        is_ours = (line.role is Role.OUTGOING) != (was is State.CLEAREDBACK)
        return 'gateway' if is_ours else 'exchange'

    def _end(self, call: CallRecord, by: str) -> None:
        line = self._lines[call.circuit]
        call.ended, call.by, call.number = self._clock(), by, call.number or line.seizures
        if by != 'reload':
            call.codec, call.counts = by == 'unwatched' and call.codec or line.codec, None
        del self._calls[call.circuit]
        now = self._now(call.circuit)
        self.lines.append(csv_line(self._line(call, now)))
        self._before[call.circuit] = now

    def put_lines(self) -> None:
        """Puts the lines, which are noted: another service would put them."""
        while self.lines:
            self._put(self.lines.pop(0))

    def note(self, place: int, begun: int, at: float, waiting: Iterable[str]) -> CallsNote:
        """What another service goes on with; changes were told up to this place at that time, by a session that has
        begun before it, and these lines wait."""
        circuits = {n: CircuitNote(str(line.state), line.since, line.opened, line.counts(),
                                   self._counts.circuits[n].note()) for n, line in self._lines.items()}
        return CallsNote(place, begun, at, circuits, (*self._calls.values(),), self._before, (*waiting, *self.lines))

    def restore_note(self, note: CallsNote) -> None:
        """Goes on with the calls that another service has noted."""
        self._calls, self._before = {call.circuit: call for call in note.calls}, note.before
        for n, its in note.circuits.items():
            line = self._lines[n]
            line.state, line.since, line.opened = State(its.state), its.since, its.opened
            line.count_on(its.line)
            self._counts.circuits[n].restore_note(its.packets)

    def finish(self) -> None:
        """The trunk is no longer carried: writes all."""
        for call in list(self._calls.values()):
            self._end(call, 'stop')
        self.put_lines()

    def _now(self, circuit: int) -> dict[str, int]:
        counts = self._counts.circuits[circuit]
        return {**counts.counts(), 'lost': counts.numbers.count_lost, 'discarded': counts.discarded()}

    def _line(self, call: CallRecord, now: Mapping[str, int]) -> CallLine:
        before = self._before.get(call.circuit, {})
        # (a packet that was thought lost may come behind the end of its call)
        numbers = [max(0, (call.counts or now).get(word, 0) - before.get(word, 0)) for word in EACH]
        told = [''] * len(EACH) if self._counts.stale() and not call.counts else [*map(str, numbers)]
        if call.by == 'unwatched':
            told[2:] = [''] * 3     # of its last packets nobody has told more
        *packets, discarded = told
        cause = self._counts.circuits[call.circuit].cause if discarded not in ('', '0') else ''
        return CallLine._make((self._trunk, str(call.circuit), str(self._lines[call.circuit].role), moment(call.seized),
                               moment(call.answered), moment(call.ended), call.by, call.codec, *packets, self._id(call),
                               discarded, cause))
