"""Waits of tests. Each ends, and says what it has waited for."""
from __future__ import annotations

import asyncio
import inspect
import itertools
import time
from typing import Callable, Iterator, TypeVar

SECONDS = 60.0              # of a wait, at most

T = TypeVar('T')


def until(holds: Callable[[], T | None], pause: float = 0.005) -> T:
    """Waits until something holds, and returns what it is."""
    end = time.monotonic() + SECONDS
    while not (found := holds()):
        assert time.monotonic() < end, not_within(holds)
        time.sleep(pause)
    return found


async def eventually(holds: Callable[[], T | None], pause: float = 0.002) -> T:
    """The same in a loop."""
    end = time.monotonic() + SECONDS
    while not (found := holds()):
        assert time.monotonic() < end, not_within(holds)
        await asyncio.sleep(pause)
    return found


def turns(what: str) -> Iterator[int]:
    """The turns of a wait for something that each of them brings nearer."""
    end = time.monotonic() + SECONDS
    for n in itertools.count():
        assert time.monotonic() < end, f'not within {SECONDS:.0f} s: {what}'
        yield n


def not_within(holds: Callable[..., object]) -> str:
    """What has been waited for, as it is written."""
    try:
        return f'not within {SECONDS:.0f} s: {inspect.getsource(holds).strip()}'
    except (OSError, TypeError):
        return f'not within {SECONDS:.0f} s: {holds}'
