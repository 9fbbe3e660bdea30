"""Waits for descriptors and signals. Each that comes is given to who watches it."""
from __future__ import annotations

import os
import select
import signal
from contextlib import suppress
from typing import Callable

CAUGHT = signal.SIGHUP, signal.SIGUSR1, signal.SIGUSR2, signal.SIGTERM, signal.SIGINT


class Loop:
    """What is waited for. A thread may `wake` it."""

    def __init__(self) -> None:
        self._poll, self._watched = select.poll(), dict[int, Callable[[], object]]()
        self._wakes, self._wake = os.pipe2(os.O_NONBLOCK | os.O_CLOEXEC)
        self.on_signal: Callable[[int], object] = lambda number: None
        self.watch(self._wakes, self._woken)

    def watch(self, file: int, call: Callable[[], object], events: int = select.POLLIN) -> None:
        """Calls this whenever the descriptor is ready, until it is left."""
        self._watched[file] = call
        self._poll.register(file, events)

    def unwatch(self, file: int) -> None:
        """To be called before it is closed."""
        if self._watched.pop(file, None):
            with suppress(KeyError, OSError):
                self._poll.unregister(file)

    def wait(self, seconds: float) -> None:
        """So long at most."""
        for file, _ in self._poll.poll(max(0.0, seconds) * 1000):
            if call := self._watched.get(file):
                call()

    def wake(self) -> None:
        with suppress(BlockingIOError):
            os.write(self._wake, b'\0')

    def _woken(self) -> None:
        with suppress(BlockingIOError):
            for number in filter(None, os.read(self._wakes, 256)):
                self.on_signal(number)

    def catch(self) -> None:
        """Signals come here from now on, those that waited first."""
        signal.set_wakeup_fd(self._wake, warn_on_full_buffer=False)
        for number in CAUGHT:
            signal.signal(number, lambda *_: None)
        signal.pthread_sigmask(signal.SIG_UNBLOCK, CAUGHT)
