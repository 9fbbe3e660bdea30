"""Outages of a trunk by its events (--json of e1gw-watch(1)): when, and which calls were up."""
from __future__ import annotations

import json
from dataclasses import dataclass, field
from math import inf
from typing import Iterable, Iterator

from e1gw_common.call_lines import moment
from e1gw_common.lines import IN_CALL, circuit_words
from e1gw_common.plain import typed
from e1gw_common.session import OCTETS_A_SECOND
from e1gw_common.session_clock import OUTAGE

NO_OCTETS, SLIP = 'no octets', 'slip'
# The kinds by the events that tell of them, and what these are about. (A card finds signal and frames itself.)
KINDS = {('alarm', 'frame'): 'LFA', ('alarm', 'multiframe'): 'slot 16', ('remote alarm', 'frame'): 'RAI',
         ('remote alarm', 'multiframe'): 'slot 16 there', ('card', 'RED'): 'LOS or LFA', ('card', 'BLUE'): 'AIS',
         ('card', 'YELLOW'): 'RAI'}
STARTS = {KINDS['alarm', 'frame'], KINDS['alarm', 'multiframe']}
STOPS = {'stalled': True, 'trunk lost': True, 'flows': False, 'trunk': False}       # octets do not come, or again
NAMES = tuple(f'"event": "{name}"' for name in {'state', 'gap', *STOPS, *(name for name, _ in KINDS)})
ALIGNED = OCTETS_A_SECOND // 50     # octets of a trunk until which its alignment at a start is no outage
SOON = 5.0                  # seconds behind NO_OCTETS within which it is measured how many are missing
FIELDS = 'trunk', 'kind', 'from', 'to', 'seconds', 'circuits', 'calls'


@dataclass(frozen=True)
class NotedEvent:
    """What is needed here of an event, as --json has it."""

    event: str
    time: float
    place: int = 0
    what: str = ''
    on: bool = False
    seconds: float = 0.0
    since: float | None = None
    circuit: int = 0
    state: str = ''
    call: str = ''


@dataclass
class TrunkOutage:
    """One outage: seconds since 1970, at its end also the place on the trunk, and by circuit the calls that were up. It
    goes on where its end is none."""

    kind: str
    begin: float
    end: float = inf
    last: int | None = None
    calls: dict[int, set[str]] = field(default_factory=dict)

    def fields(self, trunk: str) -> tuple[str, ...]:
        """What is told of it, by FIELDS."""
        told = ('', '') if self.last is None else (moment(self.end), f'{self.end - self.begin:.3f}')
        return (trunk, self.kind, moment(self.begin), *told, circuit_words(self.calls),
                ' '.join(sorted(call for its in self.calls.values() for call in its)))

    def is_start(self) -> bool:
        """Whether it is the alignment of a trunk that has just begun."""
        return self.kind in STARTS and self.last is not None and self.last <= ALIGNED


def outages_of(events: Iterable[NotedEvent]) -> list[TrunkOutage]:
    """Those that events tell of. What is told again is no other one, and what is measured of one without octets, the
    seconds that are missing before a place, replaces what was told."""
    found, going, calls = list[TrunkOutage](), dict[str, TrunkOutage](), dict[int, str]()
    for event in events:
        name, time = event.event, event.time
        kind = NO_OCTETS if name in STOPS else KINDS.get((name, event.what))
        if name == 'state':
            calls.pop(event.circuit, None)
            calls |= {event.circuit: event.call} if event.state in IN_CALL else {}
        elif name == 'gap':
            is_slip, begin = event.seconds < OUTAGE, time - event.seconds if event.since is None else event.since
            its = next((each for each in reversed(found) if not is_slip and each.kind == NO_OCTETS
                        and each.last is not None and time - each.end < SOON), None)
            if not its:
                found.append(its := TrunkOutage(SLIP if is_slip else NO_OCTETS, begin))
            its.begin, its.end, its.last = begin, begin + event.seconds, event.place
            its.calls |= {n: its.calls.get(n, set()) | {call} for n, call in calls.items()}
        elif kind and STOPS.get(name, event.on):
            if kind not in going:
                found.append(going.setdefault(kind, TrunkOutage(kind, time - event.seconds)))
        elif kind and kind in going:
            its = going.pop(kind)
            its.end, its.last = time, event.place
        for its in going.values():
            its.calls |= {n: its.calls.get(n, set()) | {call} for n, call in calls.items()}
    return [each for each in found if not each.is_start()]


def events_in(lines: Iterable[str], until: float) -> Iterator[NotedEvent]:
    """The events of lines of JSON, up to a time, that tell of outages and calls; other lines are passed over."""
    for line in lines:
        try:
            event = typed(NotedEvent, json.loads(line)) if any(name in line for name in NAMES) else None
        except ValueError:
            continue
        if event and event.time > until:
            return
        if event:
            yield event


def outages_in(lines: Iterable[str], since: float, until: float) -> list[TrunkOutage]:
    """Those that were between two times."""
    return [each for each in outages_of(events_in(lines, until)) if each.end >= since]
