"""A trunk that is watched: what an operator may see and change of it. Its log is read here; who carries it is another
matter."""
from __future__ import annotations

import asyncio
import logging
import re
import socket
from abc import ABC, abstractmethod
from contextlib import AbstractContextManager, suppress
from dataclasses import dataclass
from typing import Protocol, Sequence

from e1gw_common.answers import CommandAnswer
from e1gw_common.faults import words_of_fault
from e1gw_common.session import whole_records
from ..clock import ClockStatus
from ..crc4 import Crc4Status
from ..status import PairStatus, TransportStatus
from .connection import connected
from .blocks import KeptBlocks
from .missed import MissedReports, replay_reports
from .reader import LogReader
from .replay import ReplayVersion

ANSWERS = 5                 # of a program where it is
MOST_GREETING = 256         # octets, which come at once, in which a program tells where it is

logger = logging.getLogger(__name__)


class WatchedPlaces(Protocol):
    """Where a program of the trunk is found, and what is replayed has its socket."""

    @property
    def folder(self) -> str: ...

    @property
    def control(self) -> str: ...

    @property
    def tell_path(self) -> str: ...


@dataclass(frozen=True)
class TrunkFacts:
    """What a holder says of a trunk: since when it is open, or why it is not; its program's version, whom that hears,
    and how many logs were lost; circuits that are configured otherwise once their calls end; why nothing is recorded
    any more; what carries it, and the other machine, if there is one."""

    since: float = 0.0
    fault: str = ''
    version: str = ''
    senders: str = ''
    log_losses: int = 0
    waiting: tuple[int, ...] = ()
    session: str | None = None
    transport: TransportStatus = TransportStatus()
    crc4: Crc4Status | None = None
    pair: PairStatus | None = None


class WatchedTrunk(ABC):
    """Such a trunk."""

    @property
    @abstractmethod
    def reader(self) -> LogReader:
        """What reads its log."""

    @abstractmethod
    def places(self) -> WatchedPlaces:
        """Where its program is found."""

    @abstractmethod
    def blocks(self) -> KeptBlocks:
        """The circuits that the operator has blocked."""

    @abstractmethod
    def stands_by(self) -> bool:
        """Whether the other machine is to carry it."""

    @abstractmethod
    def config_path(self) -> str:
        """Of the configuration of the program of now."""

    @abstractmethod
    def version(self) -> AbstractContextManager[ReplayVersion]:
        """That of the program of now, for a replay. OSError if there is none."""

    @abstractmethod
    def facts(self) -> TrunkFacts:
        """What is known of it beside its lines."""

    @abstractmethod
    def outage(self) -> str | None:
        """Why no seizure can reach the other end, if the card knows."""

    @abstractmethod
    def place(self) -> int:
        """Octets of the trunk up to now, of the other machine's for a standby."""

    @abstractmethod
    def session(self) -> str:
        """Which program it is that tells. FileNotFoundError if there is none."""

    @abstractmethod
    def start_octet(self) -> int:
        """The octet of the trunk with which the program of now has begun."""

    @abstractmethod
    async def request_end(self) -> CommandAnswer:
        """The end is asked for."""

    @abstractmethod
    async def reload(self, *how: str) -> CommandAnswer:
        """The program and the configuration of now are to follow."""

    @abstractmethod
    async def change_role(self, word: str) -> CommandAnswer:
        """The answer to `promote`, `demote` or `move`."""

    @abstractmethod
    def role(self) -> str | None:
        """Which of two machines this is, in words; None if there is no other one."""

    # ---- what its log says ----

    def flow(self) -> ClockStatus:
        """Gaps and the rate of its octets."""
        return self.reader.clock.status()

    def program_starts(self) -> Sequence[tuple[int, float]]:
        """The octets with which programs began, and the time of day."""
        return self.reader.starts

    async def know_place(self, seconds: float | None = None) -> None:
        """Where a part of the log was not read, its reader counts on from where the program says that it is. Octets may
        come between that word and a look, so the most of some answers is so. It is asked another time if it does not
        say that within these seconds: it hangs, or no octets come."""
        reader, missed = self.reader, 0
        with suppress(TimeoutError):
            async with asyncio.timeout(seconds):
                for _ in range(ANSWERS if reader.has_missed else 0):
                    with connected(self.places().tell_path) as line:
                        place = self.start_octet() + await place_told(line)
                    for _ in range(2):          # (one finds nothing while a head is written)
                        reader.read()
                    missed = max(missed, place - reader.octets)
                reader.count_on(missed)

    async def missed_reports(self, since: int) -> MissedReports | None:
        """What happened behind an octet of the trunk, as far as the log of this machine and version reaches."""
        reader = self.reader
        since, is_new = max(since, reader.first), since <= reader.first
        if not (pairs := reader.pairs_since(since)):
            return None
        try:
            with self.version() as version:
                text = await replay_reports(version, [pair for _, pair in pairs], self.places().folder)
        except OSError as fault:
            logger.warning('what the calls did meanwhile is not known: %s', words_of_fault(fault))
            return None
        if not text:                # (no record has come)
            return None
        first = pairs[0][0]
        last = first + sum(whole_records(pair.records)[1] for _, pair in pairs)
        return MissedReports(since, is_new, first, last, text)


async def place_told(line: socket.socket) -> int:
    """At which octet of its session a program tells the state of now, which stays to be read; else OSError."""
    loop, comes = asyncio.get_running_loop(), asyncio.Event()
    loop.add_reader(line, comes.set)
    try:
        await comes.wait()
    finally:
        loop.remove_reader(line)
    if found := re.search(rb'^at (\d+)\n', line.recv(MOST_GREETING, socket.MSG_PEEK), re.M):
        return int(found[1])
    raise OSError(0, 'it does not tell where it is')
