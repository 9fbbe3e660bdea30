"""What became of the datagrams of each circuit."""
from __future__ import annotations

from dataclasses import dataclass, field, replace
from operator import add, sub
from typing import Callable, Mapping

from e1gw_common.lost import ReceivedNumbers
from e1gw_common.session import CIRCUITS, HEAD, DatagramRefusal, Kind
from .heard_speech import HeardSpeech

REASONS = (*DatagramRefusal,)       # why datagrams are refused, in the order of a line `counts` (e1gw-tell(5))
NONE_REFUSED = (0,) * len(REASONS)
NOT_OPEN = REASONS.index(DatagramRefusal.NOT_OPEN)
SAMPLES = 8                         # in a millisecond


@dataclass(frozen=True)
class ToldCounts:
    """The datagrams that a session was given for a circuit, as a line `counts` has them. ValueError if it has not a
    number for each reason."""

    accepted: int = 0
    jitter: int = 0                         # samples
    refused: tuple[int, ...] = NONE_REFUSED

    def __post_init__(self) -> None:
        if len(self.refused) != len(REASONS):
            raise ValueError(f'{len(self.refused)} reasons')

    def added_to(self, before: ToldCounts) -> ToldCounts:
        """These and those of sessions before."""
        return ToldCounts(before.accepted + self.accepted, self.jitter, tuple(map(add, before.refused, self.refused)))


@dataclass(frozen=True)
class PacketsNote:
    """What another service goes on with: the counts of the sessions before, and of the one of now; how many were lost;
    the cause of the first discard of a call."""

    before: ToldCounts
    told: ToldCounts
    lost: int
    cause: str


@dataclass(frozen=True)
class PacketStatus:
    """The counts of a circuit, as its row of a status has them: by `sent`, `admitted` and causes of refusals; and why
    its call sounds wrong, by its packets."""

    datagrams: Mapping[str, int] = field(default_factory=dict)
    lost: int = 0
    jitter_ms: float = 0.0
    stale: bool = False
    speech: str | None = None


@dataclass(slots=True)
class CircuitCounts:
    """The datagrams of a circuit."""

    sent: int = 0
    admitted: int = 0
    refused: int = 0            # for any reason, since the gateway was new
    settled: int = 0            # .. when all was of one moment last
    before: ToldCounts = ToldCounts()       # of the sessions before this one
    told: ToldCounts = ToldCounts()         # of this session
    cause: str = ''             # of the first discard of its call, if one was told
    numbers: ReceivedNumbers = field(default_factory=ReceivedNumbers)
    speech: HeardSpeech = field(default_factory=HeardSpeech)

    @property
    def stream(self) -> ToldCounts:
        """Those of all sessions that told of them."""
        return self.told.added_to(self.before)

    def note(self) -> PacketsNote:
        return PacketsNote(self.before, self.told, self.numbers.count_lost, self.cause)

    def restore_note(self, note: PacketsNote) -> None:
        self.before, self.told, self.numbers.before, self.cause = note.before, note.told, note.lost, note.cause

    def begin_call(self) -> None:
        """What comes from now on is of another call, whose peer may number anew."""
        self.cause = ''
        self.numbers.begin()
        self.speech.begin()

    def commit(self) -> None:
        """All of this is of one moment."""
        if self.refused < max(self.settled, sum(self.stream.refused)):
            self.before = replace(self.before, refused=NONE_REFUSED)    # (they were of another gateway)
        self.settled = self.refused

    def discarded(self) -> int:
        """How many were refused that came while speech went through."""
        return sum(self.stream.refused) - self.stream.refused[NOT_OPEN]

    def counts(self) -> dict[str, int]:
        """How many were sent, admitted and refused, by the reason."""
        refused = {reason.label: count for reason, count in zip(REASONS, self.stream.refused) if count}
        return {'sent': self.sent, 'admitted': self.admitted, **refused}


class DatagramCounts:
    """Counts datagrams. `counted(circuit, code, place, count)` is called with how many more there are, by what became
    of them, and where on the trunk that was told."""

    def __init__(self, counted: Callable[[int, int, int, int], None] | None = None) -> None:
        self.circuits = {n: CircuitCounts() for n in CIRCUITS}
        self.ended: str | None = None       # why the counts go on no more
        self._counted = counted or (lambda circuit, code, place, count: None)

    def stale(self) -> bool:
        """Whether the counts are not those of now."""
        return self.ended is not None

    def begin(self) -> None:
        """Another session counts, from 0."""
        for row in self.circuits.values():
            row.before, row.told = row.stream, ToldCounts()

    def commit(self) -> None:
        for row in self.circuits.values():
            row.commit()

    def resume(self, known: DatagramCounts) -> None:
        """What was told up to now is what is known of each circuit."""
        for n, row in self.circuits.items():
            stream, told = known.circuits[n].stream, row.told
            row.before = ToldCounts(stream.accepted - told.accepted, 0, tuple(map(sub, stream.refused, told.refused)))
            its = known.circuits[n]
            row.cause, row.numbers, row.speech = its.cause, its.numbers, its.speech

    def take_records(self, octets: bytes) -> None:
        """Whole records of the log: the datagrams that have come."""
        at, last, unpack, datagram = 0, len(octets) - HEAD.size, HEAD.unpack_from, int(Kind.DATAGRAM)
        while at <= last:
            kind, circuit, length = unpack(octets, at)
            at += HEAD.size
            if kind == datagram:
                row = self.circuits[circuit]
                row.numbers.take(octets, at, length)
                row.speech.take(octets, at, length)
            at += length

    def skip(self) -> None:
        """A part of the log was not read."""
        for row in self.circuits.values():
            row.numbers.begin()

    def listen_to(self, codecs: Mapping[int, str]) -> dict[int, ToldCounts]:
        """Listens to the circuits that are in a call, by their codecs; what was counted of these."""
        for n, row in self.circuits.items():
            row.speech.codec = codecs.get(n, '')
        return {n: self.circuits[n].stream for n in codecs}

    def take_causes(self, known: DatagramCounts) -> None:
        """The causes are those that are known of the calls of now."""
        for n, row in self.circuits.items():
            row.cause = known.circuits[n].cause

    def take(self, circuit: int, told: ToldCounts) -> None:
        """What a session has counted for a circuit up to now, of which nothing is known one by one."""
        self.circuits[circuit].told = told

    def count(self, circuit: int, told: ToldCounts, place: int) -> None:
        """What a session has counted for a circuit up to this place of the trunk."""
        row = self.circuits[circuit]
        before = row.told
        self.take(circuit, told)
        if told.accepted > before.accepted:
            self._counted(circuit, 0, place, told.accepted - before.accepted)
        if told.refused != before.refused:
            for code, more in zip(REASONS, map(sub, told.refused, before.refused)):
                if more > 0:
                    row.cause = row.cause or code.label * (code is not DatagramRefusal.NOT_OPEN)
                    self._counted(circuit, int(code), place, more)

    def status(self, circuit: int) -> PacketStatus:
        """The counts of a circuit."""
        row = self.circuits[circuit]
        return PacketStatus(row.counts(), row.numbers.count_lost, round(row.stream.jitter / SAMPLES, 2), self.stale(),
                            row.speech.why_wrong() or None)
