"""What a job is asked and what it answers, as JSON. The holder and the job may be of two versions: each has a value for
what the other one does not say."""
from __future__ import annotations

import json
from typing import Any, NamedTuple, Sequence

from .version import Tried, tried_in

VERSIONS = 'before', 'tried'       # fields that are a Tried


class JobRequest(NamedTuple):
    """`what` is a word: try, load, save, begin. A program, and the one before it, are descriptors; `before` is what was
    tried before. The rest are the paths of a configuration (or its text, to save a state), of a log and of a state;
    options; and how long each step may take."""

    what: str
    seconds: float = 0.0
    program: int = -1
    program_before: int = -1
    before: Tried | None = None
    config: str = ''
    log: str = ''
    state: str = ''
    senders: str = ''
    wait: int = 0
    force: bool = False
    when_idle: bool = False

    def spell(self) -> bytes:
        return json.dumps({**self._asdict(), 'before': self.before and self.before._asdict()}).encode()


class JobAnswer(NamedTuple):
    """Why what was asked is refused, or cannot be done now; or what was tried: the calls that a reload of it ends, and
    what it changes, both in words. If it `runs` already no program has to follow."""

    refused: str = ''
    later: str = ''
    tried: Tried | None = None
    told: str = ''
    changes: str = ''
    runs: bool = False

    @property
    def why_not(self) -> str:
        """Why what was asked was not done; nothing if it was."""
        return self.refused or self.later

    def spell(self) -> bytes:
        """It has no word of what it does not have: some holder asks only whether a word is there."""
        plain = {**self._asdict(), 'tried': self.tried and self.tried._asdict()}
        return json.dumps({name: value for name, value in plain.items() if value}).encode()


def request_in(octets: bytes) -> JobRequest:
    """The request that octets are. ValueError if they are none."""
    return JobRequest(**known_in(octets, JobRequest._fields))


def answer_in(octets: bytes) -> JobAnswer:
    """The answer that octets are. ValueError if they are none."""
    return JobAnswer(**known_in(octets, JobAnswer._fields))


def known_in(octets: bytes, names: Sequence[str]) -> dict[str, Any]:
    """What the octets of a JSON object have of these fields. ValueError if they are none."""
    try:
        plain = dict(json.loads(octets).items())
        return {name: tried_in(plain[name]) if name in VERSIONS and plain[name] is not None else plain[name]
                for name in names if name in plain}
    except (AttributeError, KeyError, TypeError) as fault:
        raise ValueError(f'no request or answer: {fault}') from None
