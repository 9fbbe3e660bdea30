"""What is wrong with one circuit, as text: the findings of a picture of the last seconds that a trunk has recorded."""
from __future__ import annotations

import os
import time
from collections.abc import Iterator

from e1gw_common.session import OCTETS_A_SECOND
from e1gw_common.session_files import InputError, open_session
from .beginning import NO_CONFIG, begin_at
from .facts import Facts
from .findings import NO_FAULT, findings
from .reading import SessionReading, facts_of
from .svg import duration

LAST = 20.0


def last_facts(path: str, circuit: int, config: str | None = None, seconds: float = LAST) -> Facts:
    """The facts of a circuit, and of the trunk, in the last seconds of a session or of a folder of them, which may not
    say its configuration: what was before is replayed alone. OSError or InputError if it cannot be read."""
    session = open_session(path, round(seconds * OCTETS_A_SECOND))
    config = session.config or config
    if not config:
        raise InputError(f'{path}: {NO_CONFIG}')
    end = os.stat(session.files[-1]).st_mtime
    place = session.clock.place(end - seconds) if session.begin is not None else 0
    begun, octets = begin_at(session, place, circuit, config, None)
    facts = facts_of(begun)
    SessionReading(facts, begun.replay, begun.program, begun.place, circuit).read(octets)
    begun.replay.end()
    return facts


def finding_lines(facts: Facts, circuit: int) -> Iterator[str]:
    """What was found of a circuit and of the trunk, each with its usual cause."""
    row, end = facts.rows[circuit], ''
    if facts.begin is not None:
        end = time.strftime(' up to %H:%M:%S', time.localtime(facts.begin + facts.place / OCTETS_A_SECOND))
    yield f'circuit {circuit}, {row.states.value} at the end, in the last {duration(facts.place - facts.start)}{end}'
    found = [each for each in findings(facts) if each.circuit in (0, circuit)]
    for each in found:
        yield f'{f"circuit {circuit}" if each.circuit else "the trunk"}: {each.seen}'
        yield f'    {"" if each.bad() else "harmless: "}{each.why()}'
    if not any(each.bad() for each in found):
        yield NO_FAULT
