"""Takes a call out of what e1gw-watch has kept of its trunk, into a folder. Needs python3 and e1gw.

  e1gw-call ID [KEPT] [--calls FILE] [-o FOLDER] [--config FILE] [--program E1GW]

ID is the last field of the call's line in the file of e1gw-watch --calls; e1gw-ctl TRUNK calls lists it. KEPT is the
folder of --session with --keep, in which the file calls.csv is, or --calls names it; by default all folders of
/var/lib/e1gw are searched. FOLDER, by default ID, gets

  ID.wav     the speech: on the left what the trunk said, on the right what it was sent of the network
  ID.pcap    the packets both ways, as e1gw-pcap writes them
  ID.csv     the line signals, the line's states and the commands, with their times
  ID.html    the picture of the call (e1gw-picture), as a whole and part by part, with its sound, which is ID.wav

all from a second before the seizure to a second after the end. A line says what is no longer kept.

Status 0 if all of the call is there; 1 if a part of it is not, or nothing; 2 for the command line."""

import argparse
import glob
import os
import sys
from collections import deque
from collections.abc import Callable, Iterable, Iterator
from dataclasses import dataclass
from functools import partial
from typing import NamedTuple

from e1gw_common.call_lines import CallLine, csv_line, moment, read_calls
from e1gw_common.faults import Parser, words_of_fault
from e1gw_common.frames import FrameSearch
from e1gw_common.lines import IN_CALL, TrunkConfig, read_config
from e1gw_common.session import (FRAME, OCTETS_A_SECOND, SAMPLES_A_SECOND, BadSession, Kind, Record, records_for,
                                 records_in, refusal_of)
from e1gw_common.session_clock import Break, SessionClock, second_of
from e1gw_common.session_files import InputError, RecordedSession, kept_between
from e1gw_picture import Begun, Facts, Progress, SessionReading, begin_at, draw, duration, facts_of
from .pcap import Announcements, PlacedRecords, Timed, configured_ends, packets_of, write_capture
from .records import write_wave

NAME = os.path.basename(sys.argv[0])    # in the package e1gw-call
UNITS = '/var/lib/e1gw'
BEFORE = 3                  # seconds before the seizure from which on the session is read
AROUND = OCTETS_A_SECOND    # octets before and behind the call that are shown
COLUMNS = 48_000            # of its picture: 10 ms or less of a call of six minutes
SILENCE = {'A': b'\xD5', 'mu': b'\xFF'}
SIGNAL_FIELDS = 'time', 'TxAB', 'RxAB', 'state', 'command', 'answer'


@dataclass(frozen=True)
class EndedCall:
    """A call by its lines: its circuit, and when it began and ended, in seconds since 1970."""

    name: str
    trunk: str
    circuit: int
    begin: float
    end: float

    @classmethod
    def from_lines(cls, lines: list[CallLine]) -> 'EndedCall':
        """That of its lines, the last one first."""
        first, last = lines[-1], lines[0]
        end = second_of(last.ended)
        begins = [second_of(time) for time in (first.seized, first.answered) if time]
        return cls(last.call, last.trunk, int(last.circuit), begins[0] if begins else end, end)


class Signal(NamedTuple):
    """What was new of a line at a place: the bits a and b both ways and its state, or a command and its answer."""
    place: int
    sent: str = ''
    recognised: str = ''
    state: str = ''
    command: str = ''
    answer: str = ''


class CircuitSide:
    """One direction of a circuit in a session: its packets with their places, and its time slot from `begin` on."""

    def __init__(self, circuit: int, begin: int, went: bool, law: str) -> None:
        self.circuit, self.begin, self.silence = circuit, begin, SILENCE[law]
        self.packets, self.speech, self.ends = list[tuple[int, Record]](), bytearray(), deque[int]()
        self._held, self._frames, self._placed = b'', FrameSearch(begin), PlacedRecords(went, begin)

    def take(self, octets: bytes) -> None:
        """Takes octets of the session."""
        self._held += octets
        size, _, own = records_for(self.circuit, self._held)
        self._held = self._held[size:]
        for record in records_in(own):
            self.packets += self._placed.take(record)
            if record.kind is Kind.TRUNK:
                self.ends.append(self._placed.place)
                for place, pairs in self._frames.take(record.body):
                    self._add_octets(place, pairs)

    def _add_octets(self, place: int, pairs: bytes) -> None:
        """Puts the octets of the time slot of some frames where they belong; what is missing before is silence."""
        slot = self.circuit + (self.circuit > 15)
        at = (place + slot - self.begin) // FRAME
        self.speech += self.silence * (at - len(self.speech))
        self.speech[at:at + len(pairs) // FRAME] = pairs[slot::FRAME]

    def octets_at(self, place: int, count: int) -> bytes:
        """So many octets of speech from a place on."""
        at = (place - self.begin) // FRAME
        octets = bytes(self.speech[at:at + count])
        return octets + self.silence * (count - len(octets))


class CallReading(SessionReading):
    """A session while it is read, with what a circuit said, heard and signalled."""

    def __init__(self, facts: Facts, begun: Begun, circuit: int) -> None:
        self.circuit, self.signals = circuit, list[Signal]()
        super().__init__(facts, begun.replay, begun.program, begun.place)
        self.given, self.answered = (CircuitSide(circuit, begun.place, went, facts.law) for went in (False, True))
        begun.replay.answered = self._answer
        row = facts.rows[circuit]
        self.codec = row.codec, row.payload or 0

    def _answer(self, octets: bytes) -> None:
        """What the gateway answers. The records that it is given here are shorter than those that it was given, behind
        which the packets went."""
        ends, packets = self.given.ends, self.answered.packets
        since = len(packets)
        self.answered.take(octets)
        self.answered.ends.clear()
        for n in range(since, len(packets)):
            place, record = packets[n]
            while ends and ends[0] < place:
                ends.popleft()
            packets[n] = ends[0] if ends else place, record

    def read_until(self, octets: Iterable[bytes], end: int, reached: Callable[[int], None]) -> None:
        """Reads up to about a place."""
        def pieces() -> Iterator[bytes]:
            for piece in octets:
                if self.place >= end:
                    return
                self.given.take(piece)
                yield piece
        self.read(pieces(), reached)

    def line_told(self, circuit: str, _role: str, state: str, *rest: str) -> None:
        super().line_told(circuit, _role, state, *rest)
        signal = Signal(self.changed, rest[0], rest[1], state)
        last = next((each for each in reversed(self.signals) if each.state), Signal(0))
        if int(circuit) == self.circuit and signal[1:] != last[1:]:
            self.signals.append(signal)

    def command_told(self, circuit: str, words: str, kind: Kind, code: str) -> None:
        super().command_told(circuit, words, kind, code)
        if int(circuit) == self.circuit:
            refusal = refusal_of(kind, int(code))
            self.signals.append(Signal(self.at, command=words, answer=refusal.words if refusal else 'done'))


class CallProgress(Progress):
    """Says how much of it is read."""

    def words(self, place: int) -> str:
        return f'{NAME}: {duration(place)} of the trunk read'


def begin_of(states: Iterable[tuple[int, int, str]], first: int, last: int) -> int | None:
    """Where a line's call began: of its calls the one that is most between two places, or near to them."""
    calls = list[tuple[int, int]]()
    for begin, end, state in states:
        if state in IN_CALL:
            calls.append((calls.pop()[0] if calls and calls[-1][1] == begin else begin, end))
    near = [(min(call[1], last) - max(call[0], first), call[0]) for call in calls]
    return max((each for each in near if each[0] > -BEFORE * OCTETS_A_SECOND), default=(0, None))[1]


# ---- where it is ----

def found(name: str, folder: str | None, calls: str | None) -> tuple[EndedCall, str]:
    """A call, and the folder in which its trunk is kept. InputError if no line has it."""
    folders = [folder] if folder else sorted(glob.glob(f'{UNITS}/*/'))
    if not folders:
        raise InputError(f'{UNITS} has no folder of a trunk; name that of the recording')
    files = [calls or os.path.join(each, 'calls.csv') for each in folders]
    for path, each in zip(files, folders):
        if not folder and not os.path.lexists(each + 'calls.csv') and os.access(each, os.X_OK):
            continue
        if lines := [line for line in read_calls(path, name) if line.call == name]:
            return EndedCall.from_lines(lines), each
    raise InputError(f'{", ".join(files) or UNITS}: no line has {name} (a call has one once it has ended)')


# ---- what is written ----

@dataclass(frozen=True)
class CallCut:
    """A call that was read, and from which place to which it is shown."""

    call: EndedCall
    reading: CallReading
    first: int
    last: int
    config: TrunkConfig

    @property
    def clock(self) -> SessionClock:
        facts = self.reading.facts
        return SessionClock(facts.begin, tuple(facts.breaks))

    def write(self, folder: str, notes: list[str]) -> list[str]:
        """Writes all files, and returns their paths."""
        os.makedirs(folder, mode=0o750, exist_ok=True)
        paths = [os.path.join(folder, f'{self.call.name}.{ending}') for ending in ('wav', 'pcap', 'csv', 'html')]
        facts, circuit, before = self.reading.facts, self.call.circuit, os.umask(0o027)
        try:
            with open(paths[0], 'wb') as file:
                write_wave(self._speech(), facts.law, file, 2)
            with open(paths[1], 'wb') as file:
                codecs = Announcements(facts.law, {circuit: self.reading.codec}, partial(configured_ends, self.config))
                write_capture(packets_of(self._timed(), circuit, codecs), file)
            with open(paths[2], 'w', encoding='utf-8') as text:
                text.writelines(f'{line}\n' for line in self._signals())
            with open(paths[3], 'w', encoding='utf-8') as text:
                text.write(draw(facts, f'{self.call.trunk}: call {self.call.name}', [circuit], notes=notes,
                                sound=os.path.basename(paths[0])))
        finally:
            os.umask(before)
        return paths

    def _speech(self) -> bytearray:
        """An octet of what the trunk said and one of what it was sent by turns, with silence where octets of the trunk
        are missing: so a time of the day has the same place in each call."""
        both, at, silence = bytearray(), self.first, SILENCE[self.reading.facts.law]
        for each in (*self.clock.breaks, Break(self.last, 0.0, 0.0)):
            if self.first < each.place <= self.last:
                count = (each.place - at) // FRAME
                piece = bytearray(2 * count)
                for n, side in enumerate((self.reading.given, self.reading.answered)):
                    piece[n::2] = side.octets_at(at, count)
                both += piece + silence * (2 * round(each.lost * SAMPLES_A_SECOND))
                at += count * FRAME
        return both

    def _timed(self) -> list[Timed]:
        """The packets in the order of their times."""
        sides = (self.reading.given, False), (self.reading.answered, True)
        return sorted((Timed(self.clock.second(place), record, went) for side, went in sides
                       for place, record in side.packets if self.first <= place <= self.last),
                      key=lambda each: each.time)

    def _signals(self) -> Iterator[str]:
        yield csv_line(SIGNAL_FIELDS)
        for place, *words in self.reading.signals:
            if self.first <= place <= self.last:
                yield csv_line([moment(self.clock.second(place)), *words])


def cut_of(call: EndedCall, session: RecordedSession, config: str, program: str | None) -> tuple[CallCut, list[str]]:
    """A call as it was kept, and what is missing of it, in words."""
    clock, notes = session.clock, list[str]()
    begun, octets = begin_at(session, max(0, clock.place(call.begin - BEFORE)), call.circuit, config, program)
    facts = facts_of(begun)
    facts.most = COLUMNS
    its = SessionClock(facts.begin, tuple(facts.breaks))
    begin, end = its.place(call.begin), its.place(call.end) + AROUND
    reading = CallReading(facts, begun, call.circuit)
    progress = CallProgress(session, sys.stderr.isatty())
    try:
        reading.read_until(octets, end, progress.read)
    finally:
        progress.end()
    begun.replay.end()
    first = begin_of(facts.rows[call.circuit].states.between(facts.start, facts.place), begin, end - AROUND)
    if first is None:
        raise InputError(f'{os.path.dirname(session.files[0])} has nothing any more of {call.name}: it has circuit '
                         f'{call.circuit} from {moment(its.second(facts.start))} to {moment(its.second(facts.place))}')
    if call.circuit in facts.under_way and first == facts.start:
        notes.append(f'its begin is not kept any more: {its.second(facts.start) - call.begin:.1f} s are missing')
    if facts.place < end - AROUND:
        notes.append(f'its end is not kept: {call.end - its.second(facts.place):.1f} s are missing')
    facts.forget(max(facts.start, first - AROUND))
    return CallCut(call, reading, facts.start, facts.place, read_config(config)), notes


# ---- the command ----

def asked_for() -> argparse.Namespace:
    """What the command line asks for."""
    words = Parser(description=__doc__, usage=argparse.SUPPRESS,
                   formatter_class=argparse.RawDescriptionHelpFormatter)
    words.add_argument('call', metavar='ID')
    words.add_argument('kept', metavar='KEPT', nargs='?')
    words.add_argument('--calls', metavar='FILE')
    words.add_argument('-o', '--output', metavar='FOLDER')
    words.add_argument('--config', metavar='FILE')
    words.add_argument('--program', metavar='E1GW')
    asked = words.parse_args()
    if asked.calls and not asked.kept:
        words.error('--calls needs KEPT')
    return asked


def work(asked: argparse.Namespace) -> int:
    """Does what was asked for; returns the status."""
    call, folder = found(asked.call, asked.kept, asked.calls)
    session = kept_between(folder, call.begin - BEFORE, call.end)
    if not session:
        raise InputError(f'{folder} has nothing any more of {call.name}, which ended at {moment(call.end)}')
    if not (config := asked.config or session.config):
        raise InputError('no configuration: name it by --config')
    cut, notes = cut_of(call, session, config, asked.program)
    print(*cut.write(asked.output or call.name, notes), sep='\n')
    for note in notes:
        print(f'{NAME}: {call.name}: {note}', file=sys.stderr)
    return bool(notes)


def main() -> int:
    try:
        return work(asked_for())
    except (BadSession, InputError, OSError) as trouble:
        sys.exit(f'{NAME}: {words_of_fault(trouble)}')
    except KeyboardInterrupt:
        sys.exit(130)
