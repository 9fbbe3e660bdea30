"""Circuits that `reload when-idle` has left as they were, since they were in a call: once that has ended, the holder is
asked again. Which these are the holder says, so nothing has to be known from one watcher to the next."""
from __future__ import annotations

import time
from dataclasses import dataclass
from math import inf
from typing import Iterable

from e1gw_common.lines import IN_CALL
from e1gw_common.tasks import Tasks
from .tell_lines import TrunkState
from .trunk import WatchedTrunk

RELOADED, REFUSED = 2.0, 60.0           # seconds between two reloads of what waits, and behind one that was refused


@dataclass(frozen=True)
class IdleReloads:
    """When the holder may be asked to reload what waits: one at a time, and later if one was refused."""

    due: float = 0.0

    def is_due(self, now: float, waiting: Iterable[str]) -> bool:
        """Whether it is to be asked, where the circuits that wait are in these states."""
        return now >= self.due and any(state not in IN_CALL for state in waiting)

    def with_request(self) -> IdleReloads:
        return IdleReloads(inf)

    def with_answer(self, now: float, is_done: bool) -> IdleReloads:
        return IdleReloads(now + (RELOADED if is_done else REFUSED))


class IdleReloadWatch:
    """Sees to these."""

    def __init__(self, trunk: WatchedTrunk, state: TrunkState) -> None:
        self._trunk, self._state, self._reloads, self._tasks = trunk, state, IdleReloads(), Tasks()

    def waiting(self) -> tuple[int, ...]:
        """The circuits."""
        return self._trunk.facts().waiting

    def reload_due(self, now: float) -> None:
        """To be called now and then."""
        states = [self._state.lines[n].state for n in self.waiting()]
        if self._state.live and self._reloads.is_due(now, states):
            self._reloads = self._reloads.with_request()
            self._tasks.begin(self._reload())

    async def _reload(self) -> None:
        answer = await self._trunk.reload('when-idle')
        self._reloads = self._reloads.with_answer(time.monotonic(), answer.is_done)
