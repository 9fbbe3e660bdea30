"""Which open calls have their jitter buffer resynchronised, by a restart of their playout, and when.

The playout counts the trunk's time from a call's first datagram. Octets of the trunk that are lost move all later
datagrams against it: the calls are restarted, once in 10 s. A call most of whose datagrams are refused for their time,
as Late or as Full, is restarted, too. If that mends nothing, since the trunk was still behind, it is restarted again
after 1 s, then after 2, 4, 8 and each 10 s: one whose network is too slow is not restarted all the time. Refusals of a
call that was well for a second in between have another cause: it is restarted at once.
"""
from __future__ import annotations

from collections import deque
from dataclasses import dataclass, field
from math import inf
from typing import Callable, Iterable

from e1gw_common.session import OCTETS_A_SECOND, DatagramRefusal
from .events import BuffersRestarted, Tell

REFUSED_FOR = 0.5           # seconds of the trunk whose datagrams are looked at
FEWEST = 3                  # refused datagrams in them
FIRST = 1.0                 # seconds between the first two restarts for the same refusals; then twice as many each time
APART = 10.0                # .. at most; and between two for lost octets
WELL = OCTETS_A_SECOND      # octets of the trunk over which no datagram is refused if what was the cause is over
REFUSED = 'datagrams are refused for their time'
_SPAN = round(REFUSED_FOR * OCTETS_A_SECOND)
# What is answered to datagrams of the call itself, and whether it refuses them for their time.
_OF_TIME = {0: False, int(DatagramRefusal.LATE): True, int(DatagramRefusal.FULL): True}


class CountedDatagrams:
    """How many datagrams there were at which places of the trunk, the first place first."""

    def __init__(self) -> None:
        self._told, self.count = deque[tuple[int, int]](), 0

    def add(self, place: int, count: int) -> None:
        self._told.append((place, count))
        self.count += count

    def forget(self, last: int) -> None:
        """Those up to this place count no more."""
        while self._told and self._told[0][0] <= last:
            self.count -= self._told.popleft()[1]

    def places(self) -> tuple[int, int]:
        """The first and the last place."""
        return self._told[0][0], self._told[-1][0]

    def clear(self) -> None:
        self._told.clear()
        self.count = 0


@dataclass(slots=True)
class OpenCall:
    """An open call."""

    seen: CountedDatagrams = field(default_factory=CountedDatagrams)
    refused: CountedDatagrams = field(default_factory=CountedDatagrams)     # those of them that were refused
    fresh: bool = False                 # a datagram has come since the last look
    since: int = 0                      # datagrams before this place are of a playout that has ended
    lost_at: float = -inf               # when it was restarted for lost octets
    refused_at: float = -inf            # when for refusals, unless it was well since
    wait: float = FIRST                 # seconds until it may be restarted for the same ones again
    well: tuple[int, int] | None = None     # the first and the last datagram since one was refused
    why: str | None = None              # why it is to be restarted for lost octets

    def take(self, place: int, refused: bool, count: int) -> None:
        """What was answered to `count` datagrams."""
        if place < self.since:
            return
        self.fresh = True
        if refused and self.well and self.well[1] - self.well[0] >= WELL:
            self.refused_at, self.wait = -inf, FIRST
        self.well = None if refused else (self.well[0] if self.well else place, place)
        self.seen.add(place, count)
        self.seen.forget(place - _SPAN)
        if refused:
            self.refused.add(place, count)

    def is_refused(self) -> bool:
        """Whether half of the datagrams are refused, for more than a moment."""
        if not self.fresh:
            return False
        self.refused.forget(self.seen.places()[1] - _SPAN)
        if self.refused.count < FEWEST or 2 * self.refused.count < self.seen.count:
            return False
        first, last = self.refused.places()
        return last - first >= _SPAN // 2

    def restart_reason(self, now: float, counts: bool) -> str | None:
        """Why it is restarted now, if it is."""
        why = None
        if self.why and now - self.lost_at >= APART:
            why, self.lost_at = self.why, now
        elif counts and now - self.refused_at >= self.wait and self.is_refused():
            self.wait = FIRST if self.refused_at == -inf else min(2 * self.wait, APART)
            why, self.refused_at = REFUSED, now
        self.fresh = False
        return why

    def on_restart(self, place: int) -> None:
        self.seen.clear()
        self.refused.clear()
        self.since, self.why = place, None


class Resyncs:
    """Restarts the playout of calls that need it, by `restart(circuits)`."""

    def __init__(self, restart: Callable[[list[int]], None], tell: Tell) -> None:
        self._restart, self._tell = restart, tell
        self._calls: dict[int, OpenCall] = {}

    def count_answers(self, circuit: int, code: int, place: int, count: int) -> None:
        """What was answered to datagrams that came up to this place of the trunk."""
        refused = _OF_TIME.get(code)
        if refused is not None:
            call = self._calls.get(circuit) or self._call(circuit)
            call.take(place, refused, count)

    def request(self, circuits: Iterable[int], why: str) -> None:
        """Open calls are to be restarted."""
        for n in circuits:
            self._call(n).why = why

    def _call(self, circuit: int) -> OpenCall:
        return self._calls.setdefault(circuit, OpenCall())

    def restart_due(self, now: float, place: int, opened: list[int], counts: bool) -> None:
        """To be called each tick, with the trunk's place, the open circuits, and whether the counts are of now."""
        due: dict[str, list[int]] = {}
        for n in self._calls.keys() - opened:
            del self._calls[n]
        for n, call in self._calls.items():
            why = call.restart_reason(now, counts)
            if why:
                due.setdefault(why, []).append(n)
                call.on_restart(place)
        for why, circuits in due.items():
            self._restart(circuits)
            self._tell(BuffersRestarted(why, tuple(sorted(circuits))))
