"""What a trunk in service reports: each kind of event with its fields, its words, and who is to read it."""
from __future__ import annotations

from collections import deque
from dataclasses import dataclass
from enum import Enum, StrEnum
from typing import Callable, ClassVar, Iterable, Mapping, NamedTuple

from e1gw_common.lines import LOSSES, REMOTE, Alignment, Role, State, circuit_words
from e1gw_common.report import Report


class Level(Enum):
    """Of an event in the journal. SILENT ones have no line there: an alarm says that alignment was lost, and its end
    that it was found."""

    SILENT = 'silent'
    NOTICE = 'notice'
    WARNING = 'warning'


@dataclass(frozen=True)
class Event(Report):
    """A change of a trunk in service."""

    usual: ClassVar[Level] = Level.WARNING
    text: ClassVar[str]
    turns: ClassVar[tuple[str, bool] | None] = None

    def level(self) -> Level:
        return self.usual

    def alarm(self) -> tuple[str, bool] | None:
        """The alarm that it begins or ends, and whether it stands then; None if it is of none."""
        return self.turns

    def words(self) -> str:
        """Those that an operator is to read."""
        return self.text.format(self)


Tell = Callable[[Event], None]


# ---- lines and alignment ----

class Placed(Event):
    """What the program tells, with the octet of the trunk at which it was."""

    place: int


@dataclass(frozen=True)
class LineChanged(Placed):
    name = 'state'
    circuit: int
    role: Role
    was: State
    state: State
    place: int
    unwatched: bool | None = None       # (true) not seen as it happened
    call: str | None = None             # the id of the call that it is of

    def level(self) -> Level:
        return Level.WARNING if self.state is State.FAULT else Level.SILENT

    def words(self) -> str:
        return f'{self.circuit}: {self.state}, was {self.was}' + (f', call {self.call}' if self.call else '')


@dataclass(frozen=True)
class CodecChanged(Placed):
    name, usual = 'codec', Level.SILENT
    circuit: int
    codec: str
    payload: int
    place: int


@dataclass(frozen=True)
class CommandGiven(Event):
    name, text = 'command', 'circuit {0.circuit}: {0.command} by command, until its call ends: {0.answer}'
    circuit: int
    command: str
    answer: str

    def level(self) -> Level:
        is_shown = self.command.startswith('codec ') and not self.command.endswith(' auto')
        return Level.NOTICE if is_shown else Level.SILENT


@dataclass(frozen=True)
class AlignmentChanged(Placed):
    usual = Level.SILENT
    what: Alignment
    place: int


class AlignmentLost(AlignmentChanged):
    name = 'lost'


class AlignmentFound(AlignmentChanged):
    name = 'aligned'


class Condition(Event):
    """What begins and ends."""

    what: str
    on: bool

    def alarm(self) -> tuple[str, bool] | None:
        return f'{self.name} {self.what}', self.on

    def level(self) -> Level:
        return Level.WARNING if self.on else Level.NOTICE

    @property
    def over(self) -> str:
        return '' if self.on else ' over'


@dataclass(frozen=True)
class AlarmChanged(Condition, Placed):
    name, text = 'alarm', 'alarm{0.over}: {0.meaning}'
    what: Alignment
    on: bool
    place: int

    @property
    def meaning(self) -> str:
        return LOSSES[self.what]


class RemoteAlarmChanged(AlarmChanged):
    name, text = 'remote alarm', 'alarm of the other end{0.over}: {0.meaning}'

    @property
    def meaning(self) -> str:
        return REMOTE[self.what]


# ---- calls ----

@dataclass(frozen=True)
class CircuitsChanged(Event):
    """What was done with some circuits."""

    why: str
    circuits: tuple[int, ...]

    @property
    def numbers(self) -> str:
        return ', '.join(map(str, self.circuits))


class BuffersRestarted(CircuitsChanged):
    name, text, usual = 'renewed', 'jitter buffer resynchronised, {0.why}: circuits {0.numbers}', Level.NOTICE


class CallsCleared(CircuitsChanged):
    name, text = 'cleared', 'calls cleared, {0.why}: circuits {0.numbers}'


@dataclass(frozen=True)
class CallsDeaf(Event):
    """Answered calls hear nothing, or no longer do so."""

    name = 'deaf'
    on: bool
    circuits: tuple[int, ...]
    cause: str | None = None

    def level(self) -> Level:
        return Level.WARNING if self.on else Level.NOTICE

    def words(self) -> str:
        return f'circuits {circuit_words(self.circuits)} hear nothing: {self.cause if self.on else "over"}'


class BlockNews(StrEnum):
    """What becomes of circuits that the operator blocks."""

    BLOCKING = 'blocking'   # they are in calls, which are waited for
    SEIZED = 'seized'       # the same: the exchange has seized them before it saw the block
    BLOCKED = 'blocked'     # they take no call
    UNBLOCKED = 'unblocked'     # they are in service again


_BLOCK = {BlockNews.BLOCKING: 'blocking, until their calls have ended', BlockNews.BLOCKED: 'blocked by the operator',
          BlockNews.SEIZED: 'seized before the block: blocking, until these calls have ended',
          BlockNews.UNBLOCKED: 'unblocked by the operator'}


@dataclass(frozen=True)
class CircuitsBlocked(Event):
    name, usual = 'block', Level.NOTICE
    what: BlockNews
    circuits: tuple[int, ...]

    def words(self) -> str:
        return f'{_BLOCK[self.what]}: circuits {circuit_words(self.circuits)}'


# ---- the flow of octets ----

@dataclass(frozen=True)
class FlowChanged(Event):
    seconds: float


class Stalled(FlowChanged):
    name, text, turns = 'stalled', 'no octets of the trunk for {0.seconds} s', ('stalled', True)


class Flows(FlowChanged):
    name, text, usual, turns = 'flows', 'octets again after {0.seconds} s', Level.NOTICE, ('stalled', False)


@dataclass(frozen=True)
class Slip(FlowChanged):
    name, text = 'gap', 'slip: {0.seconds} s of the trunk were lost'
    since: float | None = None          # when the first octet that was lost was due, in seconds since 1970


class Burst(FlowChanged):
    name, text = 'ahead', 'burst: {0.seconds} s of the trunk came too early'


@dataclass(frozen=True)
class RateChanged(Event):
    name, text, usual = 'rate', 'rate: {0.ppm:+} ppm relative to this machine\'s clock', Level.NOTICE
    ppm: float


@dataclass(frozen=True)
class WrongRate(Event):
    """Octets do not come at their rate, or do so again."""

    name = 'wrong rate'
    on: bool
    percent: float

    def level(self) -> Level:
        return Level.WARNING if self.on else Level.NOTICE

    def alarm(self) -> tuple[str, bool]:
        return self.name, self.on

    def words(self) -> str:
        what = self.name if self.on else 'right rate again'
        return f'{what}: {self.percent:.2f} % of the octets of the last seconds came'


# ---- what carries and watches the trunk ----

@dataclass(frozen=True)
class LogLost(Event):
    """A write of the program's log failed, or the log cannot be opened."""
    name, text = 'log lost', 'the log took no write: the next program goes on behind what it has'


@dataclass(frozen=True)
class TrunkOpened(Event):
    name, text, usual, turns = 'trunk', 'trunk open: {0.trunk}', Level.NOTICE, ('trunk lost', False)
    trunk: str                          # the name of its device or of its other end
    transport: Mapping[str, object]     # what it tells of itself, as the status has it

    def plain(self) -> dict[str, object]:
        return {'event': self.name, 'trunk': self.trunk, **self.transport}


@dataclass(frozen=True)
class TrunkLost(Event):
    name, text, turns = 'trunk lost', 'trunk lost: {0.why}', ('trunk lost', True)
    why: str


@dataclass(frozen=True)
class Connected(Event):
    name, text, usual, turns = 'connected', 'connected to the {0.to}', Level.NOTICE, ('disconnected', False)
    to: str


@dataclass(frozen=True)
class Disconnected(Event):
    name, text, turns = 'disconnected', 'no connection to the {0.from_}: {0.why}', ('disconnected', True)
    from_: str
    why: str


@dataclass(frozen=True)
class WatchEnded(Event):
    name, text = 'ended', '{0.what} ended, the calls go on: {0.why}'
    what: str
    why: str


@dataclass(frozen=True)
class RoleGiven(Event):
    name, text = 'role', 'this machine is to be {0.role}'
    role: str


SENDERS = {'any': 'of any sender', 'first': 'from the address of the first one that a call accepted',
           'host': 'from the address of peer_host alone', 'peer': 'from peer_host and peer_port alone'}


@dataclass(frozen=True)
class SendersGiven(Event):
    name, usual = 'senders', Level.NOTICE
    senders: str

    def words(self) -> str:
        return f'datagrams are received {SENDERS[self.senders]} (--senders {self.senders})'


@dataclass(frozen=True)
class Fed(Event):
    name, text, usual, turns = 'fed', 'fed by {0.by}, program {0.program} there', Level.NOTICE, ('not fed', False)
    by: str
    program: str | int


@dataclass(frozen=True)
class NotFed(Event):
    name, text, turns = 'not fed', 'not fed by {0.by}: {0.why}', ('not fed', True)
    by: str
    why: str


# ---- the line of a trunk ----

class CardAlarm(StrEnum):
    """The alarms of a span of DAHDI."""

    RED = 'RED'
    YELLOW = 'YELLOW'
    BLUE = 'BLUE'
    LOOPBACK = 'LOOPBACK'
    NOT_OPEN = 'NOT OPEN'
    RECOVERING = 'RECOVERING'


# What to do.
_CARD = {CardAlarm.RED: 'no signal or no frames come: cable, the far end, framing of span= in /etc/dahdi/system.conf',
         CardAlarm.YELLOW: 'the far end does not receive us: the sending pair',
         CardAlarm.BLUE: 'the far end sends all ones (AIS): it is out of service, or has no trunk itself',
         CardAlarm.LOOPBACK: 'it gives what it is sent: dahdi_maint',
         CardAlarm.NOT_OPEN: 'the span is not started: dahdi_cfg', CardAlarm.RECOVERING: 'a moment more'}


@dataclass(frozen=True)
class CardAlarmChanged(Event):
    name = 'card'
    what: CardAlarm
    on: bool

    def alarm(self) -> tuple[str, bool]:
        return f'card {self.what}', self.on

    def words(self) -> str:
        return f'card: {self.what} alarm: {_CARD[self.what]}' if self.on else f'card: {self.what} alarm over'


class SlotsChange(StrEnum):
    LOST = 'lost'
    FOUND = 'found'
    MOVED = 'moved'


@dataclass(frozen=True)
class SlotsChanged(Event):
    """Of a card that keeps slot 0."""

    name = 'slots'
    what: SlotsChange
    by: int | None = None               # slots, if they have moved

    def alarm(self) -> tuple[str, bool]:
        return 'slots', self.what is SlotsChange.LOST

    def words(self) -> str:
        if self.what is SlotsChange.LOST:
            return 'slot 16 lost: what comes is silent'
        return (f'slots moved by {self.by}: slot 16 found again' if self.by else 'slot 16 found') + ', speech goes on'


class Crc4Change(StrEnum):
    """ITU-T G.704, 2.3.3; G.706, 4.2 and 4.3."""

    NONE = 'none'
    FOUND = 'found'
    LOST = 'lost'
    LOST_AND_FOUND = 'lost and found'
    GIVEN_UP = 'given up'
    ERRORED = 'errored'
    FAR_END_ERRORED = 'far end errored'


_CRC4 = {Crc4Change.NONE: 'no CRC multiframe alignment', Crc4Change.FOUND: 'CRC multiframe alignment found',
         Crc4Change.LOST: 'CRC multiframe alignment lost',
         Crc4Change.LOST_AND_FOUND: 'CRC multiframe alignment lost and found again{times}',
         Crc4Change.GIVEN_UP: 'false frame alignment: 915 of 1000 submultiframes errored{times}',
         Crc4Change.ERRORED: 'CRC-4 errors{over}: {count} of {of} submultiframes',
         Crc4Change.FAR_END_ERRORED: 'CRC-4 errors reported by the other end (E bits){over}: {count} of {of} '
                                     'submultiframes'}


@dataclass(frozen=True)
class Crc4Changed(Condition):
    name = 'crc4'
    what: Crc4Change
    on: bool
    count: int | None = None
    of: int | None = None

    def alarm(self) -> tuple[str, bool] | None:
        if self.what in (Crc4Change.GIVEN_UP, Crc4Change.LOST_AND_FOUND):
            return None         # (over when they are told)
        is_error = self.what in (Crc4Change.ERRORED, Crc4Change.FAR_END_ERRORED)
        return f'crc4 {self.what}' if is_error else 'crc4', self.on

    def words(self) -> str:
        times = f', {self.count} times' if (self.count or 0) > 1 else ''
        return _CRC4[self.what].format(over=self.over, times=times, count=self.count, of=self.of)


@dataclass(frozen=True)
class SatopChanged(Condition):
    name, text = 'satop', 'satop: {0.what}{0.over}'
    what: str
    on: bool


# ---- the last ones ----

LAST = 15                   # events that are held


class ReadEvent(NamedTuple):
    """An event or an alarm in words, and when it was told, in seconds since 1970."""

    words: str
    time: float


class ReadEvents:
    """The last events that an operator is to read, the newest first, and the alarms that stand."""

    def __init__(self) -> None:
        self.last = deque[ReadEvent](maxlen=LAST)
        self._alarms = dict[str, ReadEvent]()

    def take(self, event: Event, now: float) -> None:
        """An event that is told."""
        if event.level() is Level.SILENT:
            return
        read, alarm = ReadEvent(event.words(), round(now, 3)), event.alarm()
        self.last.appendleft(read)
        if alarm and alarm[1]:
            self._alarms.setdefault(alarm[0], read)
        elif alarm:
            self._alarms.pop(alarm[0], None)

    def active_alarms(self) -> dict[str, ReadEvent]:
        """The alarms that stand, by what they are."""
        return self._alarms

    def restore(self, last: Iterable[ReadEvent], alarms: Mapping[str, ReadEvent]) -> None:
        """Goes on with those that another process has had."""
        self.last.extend(last)
        self._alarms |= alarms
