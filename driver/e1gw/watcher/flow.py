"""Whether octets of the trunk come: a pure function of its place and the time."""
from __future__ import annotations

from dataclasses import dataclass, replace
from enum import Enum

from ..clock import ClockStatus

QUIET = 1.0                             # seconds after which octets of the trunk are missed


class FlowChange(Enum):
    STALLED = 'no octets come'
    FLOWS = 'octets come again'


@dataclass(frozen=True)
class Flow:
    """How octets of the trunk come: the last place, when it moved, and since when none come."""

    place: int
    moved: float
    stood: float | None = None
    stalls: int = 0

    @property
    def is_stalled(self) -> bool:
        return self.stood is not None

    def status(self, clock: ClockStatus) -> ClockStatus:
        """The same in what a clock knows of the octets."""
        return replace(clock, stalled=self.is_stalled, stalls=self.stalls)

    def update(self, place: int, now: float, is_watched: bool) -> tuple[Flow, FlowChange | None]:
        """The trunk is at this place. Only what somebody reports (`is_watched`) can be missed."""
        if place != self.place:
            return Flow(place, now, None, self.stalls), None if self.stood is None else FlowChange.FLOWS
        if is_watched and self.stood is None and now - self.moved >= QUIET:
            return replace(self, stood=self.moved, stalls=self.stalls + 1), FlowChange.STALLED
        return self, None
