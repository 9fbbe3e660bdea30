"""What a holder says of its trunk, in the file FOLDER/holder, which it puts whole at each change; and the paths of that
folder. The holder writes it, and e1gw-watch reads it."""
from __future__ import annotations

import json
import os
import zlib
from contextlib import suppress
from typing import Any, NamedTuple

INTERFACE = 1               # of this file, and of the words at FOLDER/hold
MEMORY = '/dev/shm'         # where the folder of a trunk is by default
ACTIVE, STANDBY = 'active', 'standby'
STARTED_BY = 'E1GW_HOLDER'          # in the environment of an e1gw-watch that a holder has started: its number
STARTED = 19                # the place of that field in proc(5)'s stat, behind the name


class HolderState(NamedTuple):
    """`program` is the number of the process that carries the trunk, 0 without one, and `started` when that was started
    (field 22 of /proc/PID/stat); it goes on from its log for the reason `why`, `since` that time of day, and if
    `octets_lost` the one before it may have had some in hand. The line is `open` since `opened`, or has a `fault`.
    `span` is that of a DAHDI card, or 0. `lacking` are circuits without a port. A `trial` is of a version that may go
    back. `words` are options of each program, and `state` is the file of --state. Circuits that `wait` are configured
    otherwise once their calls have ended."""

    interface: int
    version: str
    holder: int
    program: int
    started: int
    since: float
    why: str
    octets_lost: bool
    open: bool
    opened: float
    fault: str
    span: int
    lacking: tuple[int, ...]
    program_version: str
    senders: str
    trial: bool
    role: str
    trunk: str
    words: tuple[str, ...]
    state: str
    wait: tuple[int, ...] = ()

    def spell(self) -> bytes:
        return json.dumps(self._asdict()).encode() + b'\n'


def plain_in(path: str) -> dict[str, Any]:
    """What a file of JSON has; nothing if there is none."""
    try:
        with open(path, 'rb') as file:
            return dict(json.load(file))
    except (OSError, ValueError, TypeError):
        return {}


def state_in(octets: bytes) -> HolderState:
    """The state that the octets of a file are. ValueError if they are none; one of another interface has its number,
    and nothing else."""
    plain = json.loads(octets)
    if plain.get('interface') != INTERFACE:
        return other_interface(plain.get('interface'))
    try:
        plain = {'wait': [], **plain}       # (an older holder has none)
        its = {name: plain[name] for name in HolderState._fields}
        return HolderState(**{name: tuple(value) if isinstance(value, list) else value for name, value in its.items()})
    except (KeyError, TypeError) as fault:
        raise ValueError(f'no state of a holder: {fault}') from None


def other_interface(number: object) -> HolderState:
    return HolderState(number if isinstance(number, int) else 0, '', 0, 0, 0, 0.0, '', False, False, 0.0, '', 0, (), '',
                       '', False, ACTIVE, '', (), '')


def fields_of(pid: int) -> list[str]:
    """What proc(5) says of a process behind its name, the state first; empty if it is not seen."""
    with suppress(OSError), open(f'/proc/{pid}/stat', 'rb', 0) as file:
        return file.read(4096).decode('ascii', 'replace').rpartition(')')[2].split()
    return []


def start_of(pid: int) -> int:
    """When a process was started, in ticks since the machine was; 0 if it is not seen."""
    fields = fields_of(pid)
    return int(fields[STARTED]) if fields else 0


def folder_in_memory(folder: str) -> str:
    """Where the folder of a trunk is once nobody may write there (a disk has failed). Its name says which it was: there
    may be another trunk of that name."""
    memory, usual = os.path.realpath(MEMORY), os.path.realpath(folder)
    if os.path.dirname(usual) == memory:
        return folder
    return os.path.join(memory, f'{os.path.basename(usual)}-{zlib.crc32(os.fsencode(usual)):08x}')


class TrunkPlaces(NamedTuple):
    """What the folder of a trunk has."""

    folder: str

    def _path(self, *names: str) -> str:
        return os.path.join(self.folder, *names)

    @property
    def holder(self) -> str:
        """The state, which the holder puts."""
        return self._path('holder')

    @property
    def hold_path(self) -> str:
        """Its socket, for a line each."""
        return self._path('hold')

    @property
    def log(self) -> str:
        return self._path('log')

    @property
    def fed(self) -> str:
        """The log of the trunk as it is known here while the other machine has it."""
        return self._path('fed')

    @property
    def control(self) -> str:
        """The program's, for records."""
        return self._path('program')

    @property
    def tell_path(self) -> str:
        return self._path('tell')

    @property
    def said_path(self) -> str:
        """What the program says on standard error."""
        return self._path('said')

    @property
    def satop(self) -> str:
        """What `e1gw satop` says there."""
        return self._path('satop')

    @property
    def config(self) -> str:
        """The configuration of the program of now, in which names are addresses."""
        return self._path('config')

    @property
    def watch(self) -> str:
        """The folder of e1gw-watch."""
        return self._path('watch')

    @property
    def watch_lock(self) -> str:
        return self._path('watch.lock')
