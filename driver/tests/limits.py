"""Limits of time of the programs in Python, so long that a stall of the machine reaches none of them.

They hold in the process of the tests, and in the commands that `start` starts. E1GW_LIMITS gives those that one test
wants otherwise."""
from __future__ import annotations

import importlib
import json
import os
import sys
from typing import Any, Mapping

GIVEN = 'E1GW_LIMITS'
LONG = 900.0                # seconds
# Where the follower tells of each command an answer waits for that. (A follower that comes meanwhile may not.)
TELLS = {'watcher.connection.PATIENCE': LONG}
# Octets come when a test gives them, and by no clock: a flow that is never steady has no gap, behind which calls are
# restarted (a test that had taken ten seconds longer than its trunk found one), and one that is never looked at for so
# long no rate. Nor is a version tried for a minute.
# Files of a ring are of a second there, and of each program: more of them are kept than of hours. What draws and what
# keeps has its share of a loaded machine.
STARTED: dict[str, Any] = {
    'clock.STEADY': 0.0, 'trunk_rate.LEAST': LONG, 'holder.decisions.TRIED': LONG,
    'holder.decisions.MOST_LINE_PAUSE': 0.01, 'recording_ring.MOST_OWN': 1000,
    **dict.fromkeys(('watcher.http_pages.put_behind', 'watcher.recordings.put_behind'), lambda *_: None)}
LIMITS: dict[str, Any] = {
    'watcher.replay.CHECK': LONG, 'watcher.tell_client.FIRST': LONG,
    'watcher.flow.QUIET': LONG, 'watcher.http_pages.DRAWN': LONG, 'watcher.missed.PATIENCE': LONG,
    'watcher.feed.PATIENCE': LONG, 'watcher.standby.PATIENCE': LONG, 'watcher.pair.PATIENCE': LONG,
    'watcher.feed.FRESH': LONG, 'watcher.standby.FRESH': LONG, 'watcher.pair.FRESH': LONG,
    'watcher.standby.MOST_AGE': LONG, 'watcher.recordings.FLUSH': LONG, 'watcher.pair.GRACE': LONG,
    'watcher.connection.NEXT': LONG, 'e1gw_common.web.SECONDS': LONG,
    'watcher.http_pages.EVERY': 0.0,
    'e1gw_common.programs.PATIENCE': LONG, 'e1gw_common.writers.OPENS': LONG,
    'watcher.ask_holder.PATIENCE': LONG, 'watcher.main.GRACE': LONG,
    'e1gw_common.line_files.FLUSH': LONG, 'watcher.journal.FLUSH': LONG, 'watcher.blocks.PATIENCE': LONG,
    # (A process that gets what others leave gets next to nothing on a loaded machine.)
    'priority.put_last': lambda process: None}
USUAL: dict[str, Any] = {}        # what they are where no test is


def around(limits: Mapping[str, Any]) -> dict[str, str]:
    """What the environment of a command has that is started with these limits."""
    return {GIVEN: json.dumps(limits)} if limits else {}


def place_of(path: str) -> tuple[str, str]:
    """The module of a limit, and its name there; the module is one of e1gw unless it names its package."""
    name, _, limit = path.rpartition('.')
    return name if name.startswith('e1gw_') else f'e1gw.{name}', limit


def put(limits: Mapping[str, Any]) -> None:
    """Sets these limits in the modules that are there."""
    for path, value in limits.items():
        name, limit = place_of(path)
        if module := sys.modules.get(name):
            assert hasattr(module, limit), path
            setattr(module, limit, value)


def put_given() -> None:
    """Sets all of them, as a command has them."""
    put(LIMITS | STARTED | json.loads(os.environ.get(GIVEN, '{}')))


def put_here() -> None:
    """Sets all of them in this process. A module that has imported one of another module has it by itself."""
    for path in LIMITS:
        importlib.import_module(place_of(path)[0])
    for path in LIMITS:
        name, limit = place_of(path)
        value = getattr(sys.modules[name], limit)
        has = {f'{each.removeprefix("e1gw.")}.{limit}' for each, module in sys.modules.items()
               if each.startswith(('e1gw.', 'e1gw_')) and getattr(module, limit, None) is value}
        assert has <= {*LIMITS}, has
        USUAL[path] = value
    put(LIMITS)
