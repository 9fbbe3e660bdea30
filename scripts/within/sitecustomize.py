"""Has turns of event loops, and works in their threads, stand still now and then (scripts/stalls --within)."""
import asyncio
import os
import random
import time
from asyncio.base_events import BaseEventLoop
from typing import Any, Callable

TURN, WORK = 0.02, 0.3          # how many of each wait
MOST = 0.25                     # seconds
_chance = random.Random(f'{os.environ.get("E1GW_STALLS")} {os.getpid()}')
_turn, _to_thread = getattr(BaseEventLoop, '_run_once'), asyncio.to_thread


def _stands(share: float) -> None:
    if _chance.random() < share:
        time.sleep(_chance.uniform(0.0, MOST))


def _late_turn(loop: BaseEventLoop) -> None:
    _stands(TURN)
    _turn(loop)


async def _late_work(work: Callable[..., Any], /, *args: Any, **named: Any) -> Any:
    def does() -> Any:
        _stands(WORK)
        try:
            return work(*args, **named)
        finally:
            _stands(WORK)
    return await _to_thread(does)


setattr(BaseEventLoop, '_run_once', _late_turn)
setattr(asyncio, 'to_thread', _late_work)
