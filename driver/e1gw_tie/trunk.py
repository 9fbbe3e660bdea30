"""The connection with e1gw-watch here: it is kept up, commands are given, and how circuits stand is asked."""
from __future__ import annotations

import asyncio
import json
from collections import deque
from dataclasses import dataclass
from typing import TYPE_CHECKING, Mapping

from e1gw_common.answers import CommandAnswer, answer_in, refused
from e1gw_common.faults import words_of_fault
from e1gw_common.lines import Alignment, LineStatus, State
from e1gw_common.plain import flat, typed
from e1gw_common.tasks import Tasks
from .events import TrunkGone, Warned

if TYPE_CHECKING:
    from .tie import Tie

LOOK = 0.5                  # seconds between two looks at the trunk
SOON = 0.1                  # seconds until a connection is retried
MOST = 1 << 20              # octets of a line
PATIENCE = 2.0              # seconds for an answer
ALIVE = 2.0                 # seconds without a look after which this program counts as gone


@dataclass(frozen=True)
class TrunkFlow:
    stalled: bool


@dataclass(frozen=True, kw_only=True)
class TrunkCircuit:
    line: LineStatus = flat()
    blocked: str | None = None          # how far its block by the operator is


@dataclass(frozen=True)
class FollowedTrunk:
    """What a tie needs of the status of a trunk, e1gw-watch(1)."""

    life: str | None
    law: str
    trunk_up: bool
    clock: TrunkFlow
    alarm: Mapping[Alignment, bool]
    remote_alarm: Mapping[Alignment, bool]
    circuits: tuple[TrunkCircuit, ...]

    def is_out_of_service(self) -> bool:
        """Whether it carries no calls: there are no octets of it, or there is an alarm."""
        return (not self.trunk_up or self.clock.stalled or any(self.alarm.values())
                or any(self.remote_alarm.values()))

    def is_known(self) -> bool:
        """Whether it was told the states of its circuits, and how often each was seized."""
        return self.life is not None and all(row.line.state is not State.UNKNOWN for row in self.circuits)


@dataclass(frozen=True)
class StateTold:
    circuit: int
    was: State
    state: State


@dataclass(frozen=True)
class CodecTold:
    circuit: int
    codec: str
    payload: int


class DarkTold:
    """The trunk carries no calls."""


class OtherTold:
    """What a tie need not know."""


Told = StateTold | CodecTold | DarkTold | OtherTold        # by an event of the trunk


class TrunkLink:
    """The connection with one e1gw-watch at a time. Answers and events come on one stream, so in their order."""

    def __init__(self, path: str, hold: float, tie: Tie) -> None:
        self.is_up = False                              # its status is known
        self._path, self._hold, self._tie, self._tell = path, hold, tie, tie.put_report
        self._writer: asyncio.StreamWriter | None = None
        self._asked: deque[asyncio.Future[str]] = deque()
        self.begin = Tasks().begin                      # to give a command

    async def run(self) -> None:
        """Keeps the connection up for ever, and tells each reason once why it is not."""
        before = ''
        while True:
            why = ''
            try:
                reader, self._writer = await asyncio.open_unix_connection(self._path, limit=MOST)
                async with asyncio.TaskGroup() as group:
                    group.create_task(self._read(reader))
                    await self._poll()
            except* (OSError, EOFError, ValueError) as faults:
                fault = faults.exceptions[0]
                why = words_of_fault(fault, self._path) or type(fault).__name__
            finally:
                before = '' if self.is_up else before
                if self._writer:
                    self._writer.close()
                self.is_up, self._writer = False, None
            if why != before:
                self._tell(TrunkGone(why))
            before = why
            self._tie.on_trunk_lost()
            await asyncio.sleep(SOON)

    async def _poll(self) -> None:
        """Looks at the trunk again and again, which ends calls and blocks circuits if this program dies."""
        await self.ask('events')
        said = await self.ask(f'on-loss block {self._hold:g} alive {ALIVE:g}')
        answer = answer_in([said])
        if not (answer and answer.is_done):
            self._tell(Warned('the trunk clears no calls if this program dies', answer=said))
        while True:
            status = typed(FollowedTrunk, json.loads(await self.ask('status json')))
            if self.is_up:
                self._tie.on_status(status)
            elif status.is_known():
                self.is_up = True
                self._tie.begin(status)
            await asyncio.sleep(LOOK if self.is_up else SOON)

    async def _read(self, reader: asyncio.StreamReader) -> None:
        """Reads until the trunk closes the connection, which is EOFError or OSError."""
        last = ''
        try:
            while octets := await reader.readline():
                line = octets.decode(errors='replace').rstrip('\n')
                if (event := told_by(line)) is not None:
                    if self.is_up:
                        self._tie.on_event(event)
                elif line:
                    last = line                         # (what is asked here has an answer of one)
                elif self._asked:
                    if not (answer := self._asked.popleft()).done():
                        answer.set_result(last)
                    last = ''
                    await asyncio.sleep(0)              # who has asked goes on before an event behind the answer
            raise EOFError('the trunk has closed the connection')
        except ValueError:
            raise EOFError('a line of the trunk is too long') from None
        finally:
            while self._asked:
                if not (answer := self._asked.popleft()).done():
                    answer.set_exception(EOFError('the trunk is gone'))

    async def ask(self, line: str) -> str:
        """The answer to a line. OSError or EOFError without one in time."""
        if self._writer is None:
            raise EOFError('the trunk is gone')
        answer: asyncio.Future[str] = asyncio.get_running_loop().create_future()
        self._asked.append(answer)
        self._writer.write(f'{line}\n'.encode())
        try:
            async with asyncio.timeout(PATIENCE):
                return await answer
        except TimeoutError:
            if self._writer:
                self._writer.close()
            raise EOFError('the trunk does not answer') from None

    async def answer(self, command: str) -> CommandAnswer | None:
        """What answers a command; None without an answer in time."""
        try:
            said = await self.ask(command)
        except (OSError, EOFError):
            return None
        return answer_in([said]) or refused(said)


def told_by(line: str) -> Told | None:
    """What the event of a line tells; None if that belongs to an answer. ValueError if it is of another kind."""
    try:
        fields = json.loads(line) if line.startswith('{') else None
    except ValueError:
        return None
    match fields:
        case {'event': 'state'}:
            return typed(StateTold, fields)
        case {'event': 'codec'}:
            return typed(CodecTold, fields)
        case {'event': 'alarm' | 'remote alarm', 'on': True} | {'event': 'trunk lost' | 'stalled'}:
            return DarkTold()
        case {'event': str()}:
            return OtherTold()
    return None
