"""A program and a configuration as they were tried: later changes of their files change neither. The one before is kept
while the one of now is on trial."""
from __future__ import annotations

import json
import os
from functools import cached_property
from math import inf
from typing import Any, Collection, Mapping, NamedTuple

from ..memory import in_memory
from .decisions import Trial
from .sockets import Address

NOT_PROVED = 'not proved'   # at the end of the version of a program that was built without proof


class Tried(NamedTuple):
    """What a trial has found. The text of a configuration is in pieces, in which names are addresses: what is before
    the circuits, and each circuit with its ports and without; `ports` has those that are to be bound. Circuits that
    `wait` are in a call, and have their table of before until it ends."""

    head: str
    circuits: Mapping[int, tuple[str, str]]
    ports: Mapping[int, Address]
    senders: str
    name: str                   # what the program says as its version
    wait: tuple[int, ...] = ()

    @property
    def is_proved(self) -> bool:
        return not self.name.endswith(NOT_PROVED)

    def config(self, lacking: Collection[int] = ()) -> str:
        """The text of the configuration, in which these circuits have no ports."""
        return self.head + ''.join(without if n in lacking else its for n, (its, without) in self.circuits.items())

    def text(self) -> str:
        return json.dumps(self._asdict())


def tried_in(plain: Mapping[str, Any]) -> Tried:
    """What JSON has of it. KeyError, TypeError, ValueError if it is another thing."""
    return Tried(plain['head'], {int(n): (its, without) for n, (its, without) in plain['circuits'].items()},
                 {int(n): (host, port) for n, (host, port) in plain['ports'].items()}, plain['senders'], plain['name'],
                 (*plain.get('wait', ()),))      # (a holder before this one has none)


class Version:
    """A program, open, and a file in memory that has what was tried."""

    def __init__(self, program: int, file: int) -> None:
        self.program, self.file = program, file

    @cached_property
    def its(self) -> Tried:
        return tried_in(json.loads(os.pread(self.file, os.fstat(self.file).st_size, 0)))

    def close(self) -> None:
        os.close(self.program)
        os.close(self.file)


def version_of(program: int, found: Tried) -> Version:
    return Version(program, in_memory(found.text().encode()))


class Versions:
    """The version of now, and for a minute, in which it is on trial, the one before it."""

    def __init__(self, now: Version | None) -> None:
        self.now, self.before = now, None       # type: Version | None, Version | None
        self.trial: Trial | None = None

    def switch_to(self, version: Version) -> None:
        """This one follows. It is on trial, if one is before it."""
        if self.before:
            self.before.close()
        self.before, self.now = self.now, version
        self.trial = Trial() if self.before else None

    def replace_now(self, version: Version) -> None:
        """The version of now is this one, without a trial of its own."""
        if self.now:
            self.now.close()
        self.now = version

    def confirm(self) -> None:
        """The version of now has come to stay."""
        if self.before:
            self.before.close()
        self.before = self.trial = None

    def roll_back(self) -> None:
        """To the one before."""
        if self.before and self.now:
            self.now.close()
            self.now, self.before, self.trial = self.before, None, None

    def on_up(self, now: float) -> None:
        """A program of the version of now carries the trunk."""
        self.trial = self.trial and self.trial.with_program_up(now)

    def stored_version(self) -> Version | None:
        """The one with which the next holder goes on: one that was never up is for none."""
        return self.before if self.trial and self.trial.until == inf else self.now

    def addresses(self) -> set[Address]:
        """Of the circuits of either."""
        return {address for each in (self.now, self.before) if each for address in each.its.ports.values()}
