"""The e1gw-watch(1) that a holder starts where no systemd does, and starts again if it dies. No call waits for it."""
from __future__ import annotations

import os
import signal
import time
from math import inf

from e1gw_common.fault_words import words_of_fault
from ..holder_state import STARTED_BY
from .decisions import Openings
from .journal import Severity, log_line
from .loop import Loop
from .program import Child, end_words

REFUSED = 0, 2              # statuses of one that was to end, or cannot be begun: none follows


class WatcherChild:
    """Such a process, of the command line `words`."""

    def __init__(self, words: list[str], loop: Loop) -> None:
        self._words, self._loop, self._restarts = words, loop, Openings()
        self._child: Child | None = None

    @property
    def pid(self) -> int:
        return self._child.pid if self._child else 0

    def adopt_child(self, pid: int) -> None:
        """The process that this one was before has started it."""
        self._child = Child(pid, self._loop, self._on_exit)

    def step(self, now: float) -> None:
        """To be called now and then: starts it, if it is due."""
        if self._child or now < self._restarts.due:
            return
        self._restarts = self._restarts.with_one(now)
        try:
            self.adopt_child(os.posix_spawn(self._words[0], self._words, {**os.environ, STARTED_BY: str(os.getpid())},
                                        setsigmask=[], setsigdef=[signal.SIGPIPE]))
        except OSError as fault:
            log_line(Severity.ERROR, f'e1gw-watch is not started: {words_of_fault(fault, self._words[0])}')
            self._restarts = Openings(due=inf)

    def _on_exit(self) -> None:
        if not self._child or (code := self._child.exit_status()) is None:
            return
        self._child = None
        self._restarts = Openings(due=inf) if code in REFUSED else self._restarts.with_end(time.monotonic())
        if code not in REFUSED:
            log_line(Severity.WARNING, f'e1gw-watch {end_words(code, [])}, and is started again')
