"""A clock that a test stops, and advances by hand: what a service waits for in its loop is then counted, also on a
machine that stalls. What the service starts goes by the machine's clock."""
from __future__ import annotations

import mmap
import os
import selectors
import signal
import struct
import sys
import time
from contextlib import suppress
from pathlib import Path
from typing import Callable

GIVEN = 'E1GW_CLOCK'
TIME = struct.Struct('d')       # at which it stands; up to 0, by how much it is ahead of the machine's
STEP = 0.001                # seconds
LOOK = 0.1                  # seconds between two looks of a holder while its clock stands
STOPPED = 'get_signal', 'do_freezer_trap'       # where in the kernel a thread is that a control group stops
machine = time.monotonic


def read(clock: mmap.mmap) -> float:
    value = float(TIME.unpack(clock)[0])
    return value if value > 0 else machine() - value


def put_given() -> None:
    """Has this process go by the clock that it is given, if it is. While that stands, it waits until it is woken."""
    if GIVEN not in os.environ:
        return
    with open(os.environ[GIVEN], 'rb') as file:
        clock = mmap.mmap(file.fileno(), TIME.size, prot=mmap.PROT_READ)
    select = selectors.EpollSelector.select

    def selects(its: selectors.EpollSelector, timeout: float | None = None) -> object:
        return select(its, None if timeout and timeout > 0 and TIME.unpack(clock)[0] > 0 else timeout)
    setattr(selectors.EpollSelector, 'select', selects)
    if holds := sys.modules.get('e1gw.holder.loop'):
        wait = holds.Loop.wait

        def waits(its: object, seconds: float) -> None:     # (one that looks each millisecond never rests)
            wait(its, max(LOOK, seconds) if seconds > 0 and TIME.unpack(clock)[0] > 0 else seconds)
        setattr(holds.Loop, 'wait', waits)
    setattr(time, 'monotonic', lambda: read(clock))


class HandClock:
    """The clock of the services that have `around` in their environment."""

    def __init__(self, path: str) -> None:
        self.around = {GIVEN: path}
        with open(path, 'w+b') as file:
            file.truncate(TIME.size)
            self._held = mmap.mmap(file.fileno(), TIME.size)

    def now(self) -> float:
        return read(self._held)

    def _put(self, value: float, *services: int) -> None:
        self._held[:] = TIME.pack(value)
        for pid in services:
            os.kill(pid, signal.SIGUSR1)

    def goes_on(self, *services: int) -> None:
        """As the machine's does, which it is never behind."""
        self._put(min(0.0, machine() - self.now()), *services)

    def stops(self, seconds: float = 0.0, *services: int) -> float:
        """It stands so many seconds from now. When that is."""
        self._put(self.now() + seconds, *services)
        return self.now()

    def steps(self, holds: Callable[[], object], *services: int) -> int:
        """Advances it by a millisecond whenever these services, and what they have started, rest, until something
        holds. How often that was: for how long they wait for nothing but the time."""
        count, before = 0, list[str]()
        while not holds():
            time.sleep(STEP)
            now = [each for pid in services for each in threads_of(pid)]
            if now == before and all(each[0] == 'S' for each in now):
                self.stops(STEP, *services)
                count += 1
            before = now
        return count


def threads_of(pid: int) -> list[str]:
    """The state of each thread of a process, and how often it had a processor; the states of what it has started. What
    scripts/stalls has stopped looks as if it slept, and may go on meanwhile; what a test has stopped rests."""
    found: list[str] = []
    with suppress(OSError):
        for folder in Path(f'/proc/{pid}/task').iterdir():
            before, stat, within, again, runs, children = ((folder / name).read_text('ascii', 'replace') for name in (
                'schedstat', 'stat', 'wchan', 'stat', 'schedstat', 'children'))
            state, its = (each.rpartition(')')[2][1] for each in (stat, again))
            sleeps = within not in STOPPED and (before, state) == (runs, its)
            found.append((state.replace('T', 'S') if sleeps else 'T') + runs)
            found += [each[0] for child in children.split() for each in threads_of(int(child))]
    return found
