"""A trunk that a holder carries, as its watcher knows it: by what holder and program say, and by the log."""
from __future__ import annotations

import asyncio
import errno
import hashlib
import logging
import os
import re
from contextlib import contextmanager, suppress
from dataclasses import dataclass, replace
from typing import TYPE_CHECKING, Iterator

from e1gw_common.answers import CommandAnswer, refused
from e1gw_common.faults import words_of_fault
from e1gw_common.lines import SEIZURE_WAIT
from e1gw_common.plain import plain_of
from e1gw_common.session import OCTETS_A_SECOND
from ..events import Event, LogLost, RoleGiven, SendersGiven, Tell, TrunkLost, TrunkOpened
from ..holder_state import ACTIVE, INTERFACE, STANDBY, HolderState, TrunkPlaces, start_of, state_in
from ..log_folder import logged_by
from ..memory import in_memory
from ..satop_numbers import number_of_now
from ..status import TransportStatus
from .card import CardWatch
from .connection import connected
from .ask_holder import ask
from .blocks import KeptBlocks
from .reader import MOST_FOUND, LogReader
from .replay import ReplayVersion
from .program_output import LineNote, SaidLine
from .trunk import TrunkFacts, WatchedTrunk, place_told

if TYPE_CHECKING:
    from .pair import TrunkPair

MOST_APART = OCTETS_A_SECOND // 2       # octets by which what a program says of its place is late
USUAL_SENDERS = 'host'      # of which nothing is told at first
LOG_LOST = re.compile(r'cannot (open|write) the log\b')     # as a program says why it ends

logger = logging.getLogger(__name__)


# ---- what a holder says ----

def events_of(before: HolderState | None, now: HolderState, transport: TransportStatus) -> list[Event]:
    """What is told of a trunk whose holder has said another thing before, or nothing."""
    told = list[Event]()
    if before and before.role != now.role:
        told.append(RoleGiven(now.role))
    if now.senders not in ('', before and before.senders or USUAL_SENDERS):
        told.append(SendersGiven(now.senders))
    was_open = before is not None and before.open
    is_another = now.open and not (before and was_open and before.opened == now.opened)
    if before and was_open and (is_another or not now.open) and now.role == before.role:
        told.append(TrunkLost(now.fault or now.why))
    if before and now.why != before.why and LOG_LOST.search(now.why):
        told.append(LogLost())
    if is_another:
        told.append(TrunkOpened(now.trunk, plain_of(transport)))
    return told


def fault_of(state: HolderState) -> str:
    """Why there is no trunk, if that is known."""
    if state.interface != INTERFACE:
        return f'the holder has interface {state.interface}, and its watcher knows {INTERFACE}'
    return 'standby' if state.role == STANDBY else state.fault


def wait_of(words: tuple[str, ...]) -> int:
    """After how many milliseconds a program releases a seizure, by its options."""
    return int(words[words.index('--seizure-wait') + 1]) if '--seizure-wait' in words else SEIZURE_WAIT


def nearest(found: list[int], octet: int) -> int:
    """The octet with which a program has begun, of those that may be it. It is about `octet`, by what it has said; if
    none is near, its state was not read."""
    its = min(found, key=lambda each: abs(each - octet), default=octet)
    return max(0, its if abs(its - octet) <= MOST_APART else octet)


def digest_of(octets: bytes) -> str:
    return hashlib.sha256(octets).hexdigest()


@dataclass(frozen=True)
class HeldNote:
    """What the next watcher goes on with: what the holder said; which program it was that told, and the octet of the
    trunk with which it has begun; the number of that which had the log at the last state; its configuration, as a
    digest; what it has said; alarms of the card that were told; how often the log was lost."""

    holder: HolderState | None
    session: str
    begun: int
    logged: int
    config: str
    line: LineNote
    alarms: int
    log_losses: int


# ---- the trunk ----

class HeldTrunk(WatchedTrunk):
    """Such a trunk. `tell` reports what changes."""

    def __init__(self, places: TrunkPlaces, state: HolderState, program: str, config: str, tell: Tell,
                 note: HeldNote | None) -> None:
        self._places, self._program, self._file, self._tell = places, program, config, tell
        self.state, self._told = state, note.holder if note else None
        self._octets = b''                      # of the file that says so
        self._session, self._begun = (note.session, note.begun) if note else ('', 0)
        self._log_losses = note.log_losses if note else 0
        self._line = self._said_line(note.line if note else None)
        self._card = CardWatch(tell, note.alarms if note else 0)
        self._blocks = KeptBlocks(f'{state.state}.blocked' if state.state else os.path.join(places.folder, 'blocked'))
        self._pid = note.logged if note else 0  # of the program that had the log at the last state
        self._begins = list[int]()              # octets at states with which it may have begun
        self._config = note.config if note else digest_of(self.config_octets())
        self._lost = 0                          # the number of the program before which octets may have been lost
        self._reader: LogReader
        self.pair: TrunkPair | None = None      # of a trunk that two machines have

    def set_reader(self, reader: LogReader) -> None:
        """This is what reads its log."""
        self._reader, reader.turned = reader, self._on_log_turn

    def set_pair(self, pair: TrunkPair) -> None:
        """Two machines have it."""
        self.pair = pair

    def _said_line(self, note: LineNote | None) -> SaidLine:
        """What is said of the line that the holder has now."""
        return SaidLine(self._places.said_path, self._places.satop, self.state.words, note, self._tell)

    # ---- looks ----

    def follow_holder(self) -> None:
        """A few times a second: what the holder says, and the program."""
        with suppress(FileNotFoundError):
            self._look_at_holder()
        self._reader.log.follow_next(self._reader.read)
        self._line.take_lines()
        self._card.read_alarms(self.state.span)

    def _look_at_holder(self) -> None:
        with open(self._places.holder, 'rb') as file:
            octets = file.read()
        if octets != self._octets:
            words = self.state.words
            self.state, self._octets = state_in(octets), octets
            if self.state.words != words:
                self._line.close()
                self._line = self._said_line(self._line.noted())
        state = self.state
        if state.program == self._lost and state.octets_lost:
            self._reader.on_loss(self._begins[0] if self._begins else self._begun)
        self._lost = 0 if state.program == self._lost else self._lost
        if state != self._told and state.interface == INTERFACE:
            before, self._told = self._told, state
            for event in events_of(before, state, self._line.status(state.trunk)):
                self._log_losses += isinstance(event, LogLost)
                if isinstance(event, TrunkLost):
                    self._line.on_close()
                self._tell(event)

    def _on_log_turn(self) -> None:
        """A state was read in the log. The first one of another program is that with which it has begun."""
        reader, pid = self._reader, logged_by(self._places.log)
        if pid and pid != self._pid:
            reader.on_next_program(False)
            reader.starts = (*reader.starts, (reader.octets, reader.log.state_written()))[-MOST_FOUND:]
            self._pid, self._lost, self._begins = pid, pid, []
            before, self._config = self._config, digest_of(self.config_octets())
            if before != self._config:
                reader.first = reader.octets
        if not self._session.startswith(f'{pid}.'):
            self._begins.append(reader.octets)

    async def know_place(self, seconds: float | None = None) -> None:
        """And with which octet the program of now has begun: at a state of the log, by about what it says that it has
        taken since."""
        reader, session = self._reader, self._session if seconds else self.session()
        if session != self._session:
            with connected(self._places.tell_path) as line:
                told = await place_told(line)
            reader.log.follow_next(reader.read)     # (its folder may have been made again)
            for _ in range(2):
                reader.read()
            if reader.has_missed and not self._session:
                self._begun = 0                 # (it is the first one that this watcher knows)
            else:
                reader.count_on()
                self._begun = nearest(self._begins, reader.octets - told)
            self._session = session
        await super().know_place(seconds)

    # ---- what is known ----

    @property
    def reader(self) -> LogReader:
        return self._reader

    def places(self) -> TrunkPlaces:
        return self._places

    def blocks(self) -> KeptBlocks:
        return self._blocks

    def stands_by(self) -> bool:
        return self.state.role == STANDBY

    def config_path(self) -> str:
        return self._places.config if os.path.exists(self._places.config) else self._file

    def config_octets(self) -> bytes:
        """That of the program of now; nothing before the first one."""
        with suppress(FileNotFoundError), open(self._places.config, 'rb') as file:
            return file.read()
        return b''

    @contextmanager
    def version(self) -> Iterator[ReplayVersion]:
        path = f'/proc/{logged_by(self._places.log)}/exe'
        file = os.open(path if os.path.exists(path) else self._program, os.O_RDONLY | os.O_CLOEXEC)
        its = ReplayVersion(self._program, file, in_memory(self.config_octets()), self.state.senders,
                            self.state.program_version, wait_of(self.state.words), was_tried=True)
        try:
            yield its
        finally:
            its.close()

    def facts(self) -> TrunkFacts:
        state, line = self.state, self._line
        transport = replace(line.status(state.trunk), card=self._card.status())
        return TrunkFacts(state.opened, fault_of(state), state.program_version, state.senders, self._log_losses,
                          state.wait, self._reader.why(), transport, line.crc4.status() if line.crc4 else None,
                          self.pair.facts() if self.pair else None)

    def outage(self) -> str | None:
        return self._card.outage()

    def place(self) -> int:
        fed = self.pair.fed() if self.pair else None
        return fed.octets if fed else self._reader.octets

    def carried_by(self) -> int:
        """The number of the program that carries the trunk here; 0 without one."""
        return self.state.program if self.state.role == ACTIVE else 0

    def numbers(self) -> tuple[int, int]:
        """Of a trunk that has packets the number of the one with its octet 0, and how many octets each has; else 0."""
        number = number_of_now(self._places.satop)
        return (number.zero(self._reader.octets), number.size) if number else (0, 0)

    def session(self) -> str:
        pid = logged_by(self._places.log)
        if not (pid and (started := start_of(pid))):
            raise FileNotFoundError(errno.ENOENT, os.strerror(errno.ENOENT))
        return f'{pid}.{started}'

    def start_octet(self) -> int:
        return self._begun

    def noted(self) -> HeldNote:
        return HeldNote(self._told, self._session, self._begun, self._pid, self._config, self._line.noted(),
                        self._card.as_told, self._log_losses)

    # ---- what is asked ----

    async def request_end(self) -> CommandAnswer:
        return await ask(self._places.hold_path, 'quit')

    async def reload(self, *how: str) -> CommandAnswer:
        return await ask(self._places.hold_path, ' '.join(['reload', *how]))

    async def change_role(self, word: str) -> CommandAnswer:
        return await self.pair.change(word) if self.pair else refused('there is no other machine (--feed, --fed-from)')

    def role(self) -> str | None:
        return self.pair.role() if self.pair else None

    def close(self) -> None:
        self._line.close()
        self._card.close()


async def state_of(places: TrunkPlaces, ending: asyncio.Event) -> HolderState | None:
    """What a holder says, once there is one; None if the end is asked for before."""
    said = ''
    while not ending.is_set():
        try:
            with open(places.holder, 'rb') as file:
                return state_in(file.read())
        except (OSError, ValueError) as fault:
            why = words_of_fault(fault)
            if why != said and not isinstance(fault, FileNotFoundError):
                logger.warning('%s; it is tried again', why)
            said = why
        await asyncio.sleep(0.1)
    return None
