"""The trunk's time against this machine's: gaps, and how many parts in a million its clock is off by.

An octet is behind by the time since the first one less its place at 256,000 octets a second. What it is behind by more
than is usual is the displacement. It is measured where octets flow steadily; a slow change of it is the rate of a
clock. Octets that waited because this machine stood still are late, and none is lost: all of them are read at once.
"""
from __future__ import annotations

from collections import deque
from dataclasses import dataclass

from e1gw_common.session import OCTETS_A_SECOND
from .trunk_rate import TrunkRate

TICK = 0.08                 # seconds between two looks
WINDOW = 2                  # looks over which the flow has to be steady
STEADY = 0.02               # seconds by which octets of a steady flow are early or late
DRIFT = 200e-6              # a clock that is off by no more than this is followed
MINUTE = 60
RATE_LIMIT = 200            # parts in a million
PAUSE = 1.0                 # seconds without octets, behind which the rate is measured anew


@dataclass(frozen=True)
class ClockFinding:
    """What was found: `gap` and `ahead` (with the seconds that octets were displaced by), `rate` (with parts in a
    million), or `wrong rate` and `right rate` (with the part of the octets that came). Of a gap also when the first
    octet that was lost was due, and how many octets came since."""

    what: str
    value: float
    since: float | None = None
    octets: int = 0


@dataclass(frozen=True)
class ClockStatus:
    """How octets flow, as a status has it."""

    gaps: int = 0
    gap_seconds: float = 0.0
    ppm: float | None = None
    rate: float | None = None
    rate_wrong: bool = False
    stalled: bool = False
    stalls: int = 0


class Clock:
    """Looks at the flow of octets. Times are of time.monotonic."""

    def __init__(self, now: float, gap: float = 0.1) -> None:
        self.gap = gap
        self.octets = 0
        self.gaps, self.lost_seconds = 0, 0.0       # how many there were, and how long in all; another one counts on
        self.ppm: float | None = None
        self.off_rate, self.rate = False, TrunkRate()
        self._began = self._last = self._looked = now
        self._low: float | None = None      # the least that octets were behind since the last look, as they came
        self._lows: deque[float] = deque(maxlen=WINDOW)
        self._base: float | None = None     # what octets are behind by as a rule
        self._steps = 0.0                   # of that, what gaps have added
        self._on_time = 0                   # octets up to the last one that did not come later than a gap
        self._rates: deque[tuple[float, float]] = deque()

    def add_octets(self, count: int, now: float) -> None:
        """So many octets were read."""
        self.octets += count
        behind = now - self._began - self.octets / OCTETS_A_SECOND
        if self._base is None or behind - self._base <= self.gap:
            self._on_time = self.octets
        self._last = now
        self._low = behind if self._low is None else min(behind, self._low)

    def steady(self) -> bool:
        """Whether octets flow at their rate."""
        return len(self._lows) == WINDOW and max(self._lows) - min(self._lows) < STEADY

    def restart(self) -> None:
        """Octets were not seen: what the others are behind by is measured anew."""
        self._low = self._base = None
        self._lows.clear()
        self._rates.clear()
        self.rate.clear()

    def find_changes(self, now: float) -> list[ClockFinding]:
        """To be called each TICK: what has become of the flow since."""
        if now - self._looked >= self.gap:
            self._last = now    # this process stood still
        self._looked = now
        return self._look_at_whole_rate(now) + self._look_at_flow(now)

    def _look_at_whole_rate(self, now: float) -> list[ClockFinding]:
        """The rate over the last seconds, however octets flow."""
        if now - self._last > PAUSE:
            self.rate.clear()
        elif self.rate.update_rate(now, self._low if self._low is not None else
                                   now - self._began - self.octets / OCTETS_A_SECOND):
            return [ClockFinding('wrong rate' if self.rate.is_wrong else 'right rate', self.rate.ratio or 0.0)]
        return []

    def _look_at_flow(self, now: float) -> list[ClockFinding]:
        """Octets that were lost or came too early, and the rate of a clock, where octets flow steadily."""
        if self._low is not None:
            self._lows.append(self._low)
            self._low = None
        elif now - self._last > self.gap:
            self._lows.clear()  # no octets come
        if not self.steady():
            return []
        behind = min(self._lows)
        if self._base is None:
            self._base = behind
        displaced, found = behind - self._base, list[ClockFinding]()
        if abs(displaced) > self.gap:
            found.append(self._step(displaced))
        else:
            self._base += max(-DRIFT * TICK, min(DRIFT * TICK, displaced))
        return found + self._look_at_rate(now, behind - self._steps)

    def _step(self, displaced: float) -> ClockFinding:
        before = self._base or 0.0
        self._base = before + displaced
        self._steps += displaced
        if displaced < 0:
            return ClockFinding('ahead', -displaced)
        self.gaps += 1
        self.lost_seconds += displaced
        since = self._began + before + self._on_time / OCTETS_A_SECOND
        return ClockFinding('gap', displaced, since, self.octets - self._on_time)

    def _look_at_rate(self, now: float, behind: float) -> list[ClockFinding]:
        """The rate over the last minute, from one sample each second."""
        rates = self._rates
        if rates and now - rates[-1][0] < 1:
            return []
        rates.append((now, behind))
        while now - rates[0][0] > MINUTE + 1:
            rates.popleft()
        if now - rates[0][0] < MINUTE - 1:
            return []
        self.ppm = (rates[0][1] - behind) / (now - rates[0][0]) * 1e6
        off = abs(self.ppm) > RATE_LIMIT
        if off == self.off_rate:
            return []
        self.off_rate = off
        return [ClockFinding('rate', self.ppm)]

    def status(self) -> ClockStatus:
        """All that is known by it."""
        return ClockStatus(self.gaps, round(self.lost_seconds, 3), None if self.ppm is None else round(self.ppm, 1),
                           None if self.rate.ratio is None else round(self.rate.ratio, 4), self.rate.is_wrong)
