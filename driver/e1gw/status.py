"""The status of a trunk: all that e1gw-watch knows of it, of which table, page, metrics and JSON are made."""
from __future__ import annotations

from dataclasses import dataclass, field
from enum import StrEnum
from typing import Mapping

from e1gw_common.answers import CommandCount
from e1gw_common.call_lines import CallLine
from e1gw_common.lines import Alignment, LineStatus
from e1gw_common.plain import flat
from .clock import ClockStatus
from .counts import PacketStatus
from .crc4 import Crc4Status
from .events import BlockNews, ReadEvent
from .files_status import FilesStatus
from .holder_state import ACTIVE, STANDBY
from .satop import SatopStatus
from .slots import SlotsStatus
from .udp_tables import SocketStatus
from .watcher.card import CardStatus


class MachineRole(StrEnum):
    """Of one of two machines that a trunk has."""

    ACTIVE = ACTIVE
    STANDBY = STANDBY


@dataclass(frozen=True)
class PairStatus:
    """Of a trunk that two machines have: which of them this is; whether the standby has all, and how many seconds ago
    it had; of a standby, why it is not fed, and which circuits are configured otherwise at the other machine."""

    role: MachineRole
    fed: bool = False
    feed_age: float | None = None
    feed_fault: str | None = None
    differs: tuple[int, ...] = ()

    @property
    def stands_by(self) -> bool:
        return self.role is MachineRole.STANDBY


@dataclass(frozen=True)
class TransportStatus:
    """What carries a trunk: its name, and what is told of a card or an emulated circuit."""

    trunk: str = ''
    satop: SatopStatus | None = flat(default=None)
    slots: SlotsStatus | None = flat(default=None)
    card: CardStatus | None = flat(default=None)


@dataclass(frozen=True)
class ToldStatus:
    """What the program tells: the octets of the trunk, what names the count of calls, alarms, and how often alignment
    was lost. Since then there is a connection to it, or none."""

    octets: int = 0
    life: str | None = None
    law: str = 'A'
    trunk_up: bool = True
    program: bool = True
    program_since: float = 0.0
    alarm: Mapping[Alignment, bool] = field(default_factory=dict)
    remote_alarm: Mapping[Alignment, bool] = field(default_factory=dict)
    losses: Mapping[Alignment, int] = field(default_factory=dict)


@dataclass(frozen=True, kw_only=True)
class CircuitStatus:
    """A circuit: its line and its packets, how far its block by the operator is, why its call hears nothing, and what
    the kernel tells of its socket."""

    line: LineStatus = flat()
    packets: PacketStatus = flat(default=PacketStatus())
    blocked: BlockNews | None = None
    deaf: str | None = None
    socket: SocketStatus | None = None


@dataclass(frozen=True, kw_only=True)
class TrunkStatus:
    """All of it."""

    name: str = ''
    version: str = ''
    senders: str = ''
    time: float = 0.0
    uptime: float = 0.0
    fault: str | None = None            # why the trunk is not open
    files: FilesStatus = flat(default=FilesStatus())
    told: ToldStatus = flat(default=ToldStatus())
    pair: PairStatus | None = flat(default=None)
    transport: TransportStatus = TransportStatus()
    crc4: Crc4Status | None = None
    clock: ClockStatus = ClockStatus()
    circuits: tuple[CircuitStatus, ...] = ()
    calls: tuple[CallLine, ...] = ()
    alarms: tuple[ReadEvent, ...] = ()
    waiting: tuple[int, ...] = ()       # circuits that are configured otherwise once their calls end
    ended: Mapping[str, str | None] = field(default_factory=dict)
    stale: bool = False
    renewed: int = 0
    log_losses: int = 0
    commands: tuple[CommandCount, ...] = ()
