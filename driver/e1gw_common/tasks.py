"""Works of a loop: done at each beat, begun again when they fail, held until they are done. One that fails is reported,
and nothing else ends for it."""
from __future__ import annotations

import asyncio
import logging
import os
import traceback
from contextlib import contextmanager
from typing import Awaitable, Callable, Coroutine, Iterator, ParamSpec, TypeVar

AGAIN = 0.1                 # seconds before what has failed is begun again
P = ParamSpec('P')
T = TypeVar('T')
Work = Coroutine[object, None, T]      # what an async function returns

logger = logging.getLogger(__name__)


async def wait_any(seconds: float | None, *events: asyncio.Event) -> None:
    """Waits until one of these events is set, so long at most if that is said."""
    waits = [asyncio.ensure_future(event.wait()) for event in events]
    await asyncio.wait(waits, timeout=seconds, return_when=asyncio.FIRST_COMPLETED)
    for each in waits:
        each.cancel()


def next_beat(seconds: float) -> float:
    """The next moment that is a multiple of these seconds, a quarter of them from now at least, by the clock of the
    loop. What waits for such moments side by side wakes this process once."""
    return (asyncio.get_running_loop().time() / seconds + 1.25) // 1 * seconds


@contextmanager
def run_periodically(seconds: float, work: Callable[[], object], what: str) -> Iterator[None]:
    """Does a work at each beat meanwhile. One that has failed is reported, and done again at the next."""
    loop = asyncio.get_running_loop()
    timer: asyncio.Handle

    def run_work() -> None:
        nonlocal timer
        with reporting_failures(what):
            work()
        timer = loop.call_at(next_beat(seconds), run_work)
    timer = loop.call_at(next_beat(seconds), run_work)
    try:
        yield
    finally:
        timer.cancel()


class Tasks(set[Awaitable[object]]):
    """Tasks that are held until they are done."""

    def begin(self, work: Work[object]) -> None:
        self.create(work)

    def create(self, work: Work[T]) -> asyncio.Task[T]:
        """The same, and returns the task."""
        self.add(task := asyncio.create_task(work))
        task.add_done_callback(self.discard)
        return task


async def retry(work: Callable[[], Awaitable[None]], what: str) -> None:
    """Does a work, and begins it again each time that it fails, reported with the place."""
    while True:
        try:
            return await work()
        except Exception as fault:      # pylint: disable=broad-exception-caught
            log_failure(what, fault)
            await asyncio.sleep(AGAIN)


@contextmanager
def reporting_failures(what: str) -> Iterator[None]:
    """What fails within is reported, and is in nobody's way."""
    try:
        yield
    except Exception as fault:      # pylint: disable=broad-exception-caught
        log_failure(what, fault)


def report_failure(work: Callable[P, object], what: str) -> Callable[P, None]:
    """The same work, whose failure is reported, and nothing else ends for it."""
    def reporting(*words: P.args, **more: P.kwargs) -> None:
        with reporting_failures(what):
            work(*words, **more)
    return reporting


def log_failure(what: str, fault: Exception) -> None:
    """Reports a failure of a work that goes on."""
    at = traceback.extract_tb(fault.__traceback__)[-1]
    logger.error('%s goes on: %s: %s (%s:%s in %s)', what, type(fault).__name__, fault,
                 os.path.basename(at.filename), at.lineno, at.name, extra={'kind': 'fault'})
