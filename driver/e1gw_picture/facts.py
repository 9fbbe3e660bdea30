"""What a picture shows of a session, gathered in columns of time.

Places are octets of the trunk from the session's first, 256,000 a second. There are at most MOST columns: where a
session goes on beyond them each two become one, so the memory is the same however long it lasts. With `last` only the
columns of a number of octets are kept.
"""
from __future__ import annotations

import bisect
import enum
from collections import Counter
from collections.abc import Iterable, Iterator, Sequence
from dataclasses import dataclass, field
from typing import Any

from e1gw_common.lines import OPEN, SEIZURE_WAIT
from e1gw_common.lost import ReceivedNumbers
from e1gw_common.session import FRAME, MULTIFRAME, OCTETS_A_SECOND, Repetitions
from e1gw_common.session_clock import Break
from e1gw_common.sound import HeardSamples, ListeningTimes

SECOND = OCTETS_A_SECOND
MOST = 2400                 # columns
MOST_CALLS = 200            # of a circuit whose wrong sources are kept, the last ones
WINDOW = 3200               # samples in the playout
NOT_OPEN = 20
# Refusals of a datagram of the call's stream, whose timestamp shows how early it was.
TIMED = (13, 14, 15, 16)
BEGUN = SECOND // 50        # until then a line is in fault because nothing of its signal was received yet
BITS = {'g726-16': 2, 'g726-24': 3, 'g726-32': 4, 'g726-40': 5}
# If several states are in one column, the first of these is shown.
RANK = ('fault', 'blocked', 'releasing', 'seized', 'clearedback', 'answered', 'acked', 'idle')
# What is counted, by the states of a line before and after, or by the one after.
COUNTED = {('acked', 'answered'): 'answers', ('seized', 'releasing'): 'unacknowledged', ('', 'fault'): 'faults'}


class Cell:
    """The datagrams of a circuit in a column."""
    __slots__ = ('sent', 'admitted', 'low', 'high', 'total', 'lost', 'uneven', 'refused', 'counts', 'heard')

    def __init__(self) -> None:
        self.sent = self.admitted = self.lost = self.uneven = 0
        self.low = self.high = self.total = 0               # samples before their turn, of those admitted
        self.refused: dict[int, list[int]] = {}             # code: how many, least and most samples before their turn
        # Calls, answers, repetitions, .. (without Counter's own __init__, which takes most of the time of a cell's.)
        self.counts: Counter[str] = Counter.__new__(Counter)
        self.heard: dict[str, HeardSamples] = {}            # by way: what came, its order of words, the time slot

    def is_empty(self) -> bool:
        return not (self.sent or self.admitted or self.refused or self.counts or self.lost or self.heard)

    def is_uneven(self) -> bool:
        """Most packets have another number of samples than the step of their timestamps."""
        return self.uneven > max(20, self.admitted // 2)

    def admit(self, margin: int) -> None:
        if not self.admitted:
            self.low = self.high = margin
        elif margin < self.low:
            self.low = margin
        elif margin > self.high:
            self.high = margin
        self.total += margin
        self.admitted += 1

    def refuse(self, code: int, low: int, high: int, count: int = 1) -> None:
        """Datagrams that came from LOW to HIGH samples before their turn."""
        seen = self.refused.setdefault(code, [0, low, high])
        seen[:] = seen[0] + count, min(seen[1], low), max(seen[2], high)

    def discarded(self) -> int:
        """How many datagrams were refused."""
        return sum(seen[0] for seen in self.refused.values())

    def arrived(self) -> int:
        """How many came, but for repetitions."""
        return self.admitted + self.discarded()

    def join(self, other: Cell) -> None:
        """Adds the next column."""
        if other.admitted:
            self.low = min(self.low, other.low) if self.admitted else other.low
            self.high = max(self.high, other.high) if self.admitted else other.high
        self.sent += other.sent
        self.admitted += other.admitted
        self.total += other.total
        self.lost += other.lost
        self.uneven += other.uneven
        for code, (count, low, high) in other.refused.items():
            self.refuse(code, low, high, count)
        if other.counts:
            self.counts.update(other.counts)
        for way, more in other.heard.items():
            self.add_sample(way, more)

    def add_sample(self, way: str, more: HeardSamples) -> None:
        """Adds a sample of one direction."""
        self.heard.setdefault(way, HeardSamples()).join(more)


def joined(cells: Iterable[Cell]) -> Cell:
    """The sum of cells."""
    whole = Cell()
    for cell in cells:
        whole.join(cell)
    return whole


class Spans:
    """Values that hold from a place to the next."""

    def __init__(self, value: Any, rank: tuple[Any, ...]) -> None:
        self.items: list[tuple[int, Any]] = [(0, value)]
        self.rank = rank

    @property
    def value(self) -> Any:
        return self.items[-1][1]

    def set_from(self, place: int, value: Any) -> None:
        if self.items[1:] and self.items[-1][0] == place:
            self.items.pop()
        if not self.items or self.items[-1][1] != value:
            self.items.append((place, value))

    def forget(self, place: int) -> None:
        """Drops what ended before a place."""
        del self.items[:max(0, bisect.bisect_right(self.items, place, key=lambda item: item[0]) - 1)]

    def coalesce(self, width: int) -> None:
        """Leaves one value in each column in which several begin: the first by rank."""
        columns: dict[int, Any] = {}
        for column, value in ((place // width, value) for place, value in self.items):
            columns[column] = min(columns.get(column, value), value, key=self.rank.index)
            columns[column + 1] = value         # which holds behind it
        self.items.clear()
        for column, value in columns.items():
            self.set_from(column * width, value)

    def between(self, start: int, end: int) -> Iterator[tuple[int, int, Any]]:
        """Each value with its stretch, cut to these places."""
        for n, (place, value) in enumerate(self.items):
            after = self.items[n + 1][0] if n + 1 < len(self.items) else end
            first, last = max(place, start), min(after, end)
            if first < last:
                yield first, last, value


class Answer(enum.StrEnum):
    """The outcome of a command. AGAIN is a codec that the circuit already has: its jitter buffer was resynchronised, by
    e1gw-watch or by an operator."""
    REFUSED = 'refused'
    DONE = 'done'
    AGAIN = 'again'


@dataclass
class CommandMark:
    """Commands to a circuit in a column with the same outcome, the first of them with its answer in words."""
    place: int
    words: str
    answer: str
    more: int = -1              # besides the first


@dataclass(eq=False)
class CallStream:
    """The stream of a call's datagrams so far."""
    base: int | None = None             # the sample at which timestamp 0 would be due; None before the first one
    ssrc: int = 0                       # of the first one
    # The sources that were refused: of each how many datagrams, and the places of the first and the last one.
    wrong: dict[int, list[int]] = field(default_factory=dict)
    sequence: int = -1
    stamp: int = 0
    came: ListeningTimes = field(default_factory=ListeningTimes)    # when to listen: to datagrams, to the time slot
    slot: ListeningTimes = field(default_factory=ListeningTimes)
    stretch: list[bytes] | None = None                  # consecutive datagrams to decode

    def margin(self, place: int, stamp: int) -> int:
        """How many samples before its turn a datagram comes; 0 before the first one is admitted."""
        if self.base is None:
            return 0
        return (self.base + stamp - place // FRAME + 0x8000_0000 & 0xFFFF_FFFF) - 0x8000_0000

    def refuse(self, ssrc: int, place: int) -> None:
        """A datagram of another source."""
        if ssrc in self.wrong or len(self.wrong) < 8:
            seen = self.wrong.setdefault(ssrc, [0, place, place])
            seen[0], seen[2] = seen[0] + 1, place


Address = tuple[str, int]


@dataclass
class Wire:
    """The addresses of a circuit's datagrams, and why some were not delivered, by a capture."""
    went: Counter[Address] = field(default_factory=Counter)
    came: Counter[Address] = field(default_factory=Counter)
    answers: Counter[str] = field(default_factory=Counter)
    places: list[int] = field(default_factory=list)     # the first answers

    def is_astray(self) -> bool:
        """They go to another host than the peer's datagrams come from."""
        return bool(self.went and self.came) and not {host for host, _ in self.went} & {host for host, _ in self.came}


@dataclass
class Row:
    """A circuit."""
    number: int
    role: str = 'outgoing'
    codec: str = 'g711'
    payload: int | None = None
    prefill: int = 0
    ptime: int = 20
    wait: int = SEIZURE_WAIT                    # of a seizure, in milliseconds
    local: str = ''
    peer: str = ''
    states: Spans = field(default_factory=lambda: Spans('fault', RANK))
    fault: str = ''                             # the pair that came as it went to fault, where it is in it
    cells: dict[int, Cell] = field(default_factory=dict)
    cell: Cell = field(default_factory=Cell)
    commands: dict[tuple[int, Answer], CommandMark] = field(default_factory=dict)
    stream: CallStream = field(default_factory=CallStream)
    types: dict[int, int] = field(default_factory=dict)     # of datagrams received: the place where each was last seen
    wrong: list[CallStream] = field(default_factory=list)       # of the calls that refused sources
    mismatch: tuple[int, int] = (0, 0)          # words of a datagram, step of its timestamp
    begun: list[int] = field(default_factory=list)      # places where the playout restarted
    wire: Wire | None = None
    before: Repetitions = field(default_factory=Repetitions)
    numbers: ReceivedNumbers = field(default_factory=ReceivedNumbers)

    def add_datagram(self, place: int, code: int, datagram: bytes, sequence: int, stamp: int, ssrc: int) -> None:
        """A datagram received, its answer, and three numbers of its header. A refused repetition counts separately."""
        lost = self.numbers.count_lost
        self.numbers.take(datagram, 0, len(datagram))
        self.cell.lost += self.numbers.count_lost - lost
        if self.before.is_one(datagram) and code:
            self.cell.counts['repetitions'] += 1
            return
        stream = self.stream
        if code:
            self._refused(place, code, datagram, stamp, ssrc)
            if code not in (13, 14, 16) or stream.base is None:
                return
        else:
            if stream.base is None:
                stream.base, stream.ssrc = place // FRAME + self.prefill - stamp, ssrc
                self.begun.append(place)
                self.types[datagram[1] & 127] = place
            self.cell.admit(stream.margin(place, stamp))
        self._place_in_stream(stream, sequence, stamp, len(datagram))

    def _place_in_stream(self, stream: CallStream, sequence: int, stamp: int, length: int) -> None:
        """Follows the place of a datagram in its stream."""
        ahead = sequence - stream.sequence & 0xFFFF
        if stream.sequence >= 0 and ahead != 1:
            if ahead > 0x8000:
                return
        elif stream.sequence >= 0:
            words = (length - 12) * 8 // BITS.get(self.codec, 8)
            step = stamp - stream.stamp & 0xFFFF_FFFF
            if words != step:
                self.cell.uneven += 1
                self.mismatch = words, (step + 0x8000_0000 & 0xFFFF_FFFF) - 0x8000_0000
        stream.sequence, stream.stamp = sequence, stamp

    def _refused(self, place: int, code: int, datagram: bytes, stamp: int, ssrc: int) -> None:
        margin = self.stream.margin(place, stamp) if code in TIMED else 0
        self.cell.refuse(code, margin, margin)
        if code == 11 and ((kind := datagram[1] & 127) in self.types or len(self.types) < 8):
            self.types[kind] = place
        elif code == 12:
            if not self.stream.wrong:
                self.wrong = [*self.wrong[1 - MOST_CALLS:], self.stream]
            self.stream.refuse(ssrc, place)

    def state(self, place: int, state: str, pair: str = '') -> None:
        """The line's state from a place, at which this pair was recognised."""
        was = self.states.value
        if state == was:
            return
        self.fault = pair.strip('-') if state == 'fault' else ''
        if place < BEGUN and len(self.states.items) == 1 and was == 'fault':
            self.states = Spans(state, RANK)
        else:
            self.states.set_from(place, state)
        if (state in OPEN) != (was in OPEN):
            self.stream = CallStream()
            self.numbers.begin()
        if state == 'seized' or self.role == 'incoming' and (was, state) == ('idle', 'acked'):
            self.cell.counts['calls'] += 1
        elif name := COUNTED.get((was, state)) or COUNTED.get(('', state)):
            self.cell.counts[name] += 1

    def count(self) -> Cell:
        """The sum of all columns."""
        return joined((*self.cells.values(), self.cell))

    def forget(self, start: int, oldest: int) -> None:
        """Drops what was before a place, and before a column."""
        while self.cells and (first := next(iter(self.cells))) < oldest:
            del self.cells[first]
        while self.commands and (begun := next(iter(self.commands)))[0] < oldest:
            del self.commands[begun]
        self.states.forget(start)
        self.begun = [place for place in self.begun if place >= start]
        self.types = {kind: place for kind, place in self.types.items() if place >= start}
        for call in self.wrong:
            call.wrong = {ssrc: seen for ssrc, seen in call.wrong.items() if seen[2] >= start}
        self.wrong = [call for call in self.wrong if call.wrong]

    def double(self, width: int) -> None:
        """Joins columns in pairs, which have this width then."""
        cells, self.cells = self.cells, {}
        for column, cell in cells.items():
            if self.cells.setdefault(column // 2, cell) is not cell:
                self.cells[column // 2].join(cell)
        commands, self.commands = self.commands, {}
        for (column, answer), command in commands.items():
            if (first := self.commands.setdefault((column // 2, answer), command)) is not command:
                first.more += command.more + 1
        if len(self.states.items) > MOST:
            self.states.coalesce(width)
        if len(self.begun) > MOST:
            self.begun = sorted({place // width: place for place in self.begun}.values())


class Facts:
    """The facts of a picture. Events are given in the order in which they happened."""

    def __init__(self, rows: dict[int, Row] | None = None, last: int | None = None, width: int = MULTIFRAME) -> None:
        self.rows = rows or {n: Row(n) for n in range(1, 31)}
        self.turned = [*self.rows.values()]         # .. that have columns; others have all in one
        self.last = last
        self.width, self.most = width, MOST             # of a column, and columns
        self.column = 0
        self.place = 0
        self.start = 0                      # of what is to be shown
        self.alarms = {(where, what): Spans(where == 'here', (True, False))
                       for where in ('here', 'there') for what in ('frame', 'multiframe')}
        self.alarms['here', 'ones'] = Spans(False, (True, False))
        self.slips: list[tuple[int, float]] | None = None       # place and seconds, if e1gw-watch noted them
        self.losses: dict[str, list[int]] = {'frame': [], 'multiframe': []}
        self.begin: float | None = None     # the time of place 0, in seconds since 1970, if known
        self.breaks: list[Break] = []       # where the time goes on otherwise than the octets do
        self.told = ''                      # how the datagrams' places are known, if not by the session
        self.law = 'A'                      # of the trunk
        self.strays: Counter[tuple[str, int]] = Counter()       # at ports without a circuit: from, to
        self.under_way: list[int] = []      # circuits with a call at the start of the session

    def begin_session(self, place: int, alarms: Iterable[bool], lines: Iterable[Sequence[str]]) -> None:
        """The session begins at this place, in the first column, with these alarms and lines, e1gw-tell(5)."""
        self.place = self.start = place
        for which, on in zip(self.alarms, alarms):
            self.alarms[which] = Spans(on, (True, False))
        for circuit, _, state, *rest in lines:
            row = self.rows[int(circuit)]
            row.states, row.codec, row.payload = Spans(state, RANK), rest[-2], int(rest[-1])
            row.fault = rest[1].strip('-') if state == 'fault' else ''
            if state in OPEN:
                self.under_way.append(row.number)

    def turn(self, place: int) -> None:
        """The trunk has reached a place."""
        self.place = place
        column = place // self.width
        if column == self.column:
            return
        for row in self.turned:
            if not row.cell.is_empty():
                row.cells[self.column] = row.cell
                row.cell = Cell()
        if self.last and self.place > self.start + self.last:
            self.forget(self.place - self.last)
        while (self.place - self.start) // self.width >= self.most:
            self._double()
        self.column = column = place // self.width
        for row in self.turned:
            row.cell = row.cells.pop(column, row.cell)

    def forget(self, start: int) -> None:
        """Drops the columns before a place."""
        self.start = start
        oldest = self.start // self.width
        for row in self.rows.values():
            row.forget(self.start, oldest)
        for spans in self.alarms.values():
            spans.forget(self.start)
        for what, places in self.losses.items():
            self.losses[what] = [place for place in places if place >= self.start]

    def _double(self) -> None:
        """Joins columns in pairs."""
        self.width *= 2
        for row in self.rows.values():
            row.double(self.width)
        for spans in self.alarms.values():
            if len(spans.items) > MOST:
                spans.coalesce(self.width)

    def command(self, circuit: int, place: int, words: str, refusal: str = '') -> None:
        """A command to a circuit, with the words of its refusal if it was refused."""
        row = self.rows[circuit]
        again = words == f'codec {row.codec} {row.payload}'
        answer = Answer.REFUSED if refusal else Answer.AGAIN if again else Answer.DONE
        told = refusal or ('jitter buffer resynchronised' if again else 'done')
        row.commands.setdefault((place // self.width, answer), CommandMark(place, words, told)).more += 1
        if not refusal and words.startswith('codec'):
            row.stream = CallStream()

    def open_for(self, row: Row) -> int:
        """How long a circuit's path was open, in octets."""
        return sum(last - first for first, last, state in row.states.between(self.start, self.place) if state in OPEN)

    def add_loss(self, what: str, place: int) -> None:
        """Alignment was lost: of frames or of multiframes."""
        self.losses[what] += [place] * (len(self.losses[what]) < MOST)

    def add_sample(self, circuit: int, place: int, way: str, more: HeardSamples) -> None:
        """A sample at a past place."""
        row = self.rows[circuit]
        row.cells.get(place // self.width, row.cell).add_sample(way, more)
