"""Circuits that an operator takes out of service (e1gw-ctl NAME block): each is blocked once its call has ended, and
takes no other one. An incoming one then sends the blocking signal (ITU-T Q.421); an outgoing one is not seized from
this end. What is done follows from the numbers of these circuits and from how the lines stand, and from nothing else:
who takes over, here or at another machine, goes on from the numbers alone."""
from __future__ import annotations

import asyncio
import json
import logging
from collections import Counter
from contextlib import contextmanager, suppress
from dataclasses import dataclass, field
from enum import Enum
from typing import Callable, Collection, Container, Iterable, Iterator, Mapping

from e1gw_common.answers import DONE, CommandAnswer, refused
from e1gw_common.faults import words_of_fault
from e1gw_common.lines import IN_CALL, Line, Role, State, circuit_words
from e1gw_common.session import CIRCUITS, Command, CommandRefusal
from e1gw_common.tasks import Tasks, Work
from e1gw_common.writers import put_file
from ..events import BlockNews, CallsCleared, CircuitsBlocked, Tell
from .tell_lines import TrunkState

PATIENCE = 2.0              # seconds for a disk, and for what the program answers
NOT_BLOCKED = CommandRefusal.NOT_BLOCKED
BY_OPERATOR = 'blocked by the operator (e1gw-ctl NAME unblock)'

logger = logging.getLogger(__name__)


class BlockStage(Enum):
    """How far it is with a circuit."""

    TAKEN = 'nobody has looked at its line'
    IN_CALL = 'its call goes on'
    IDLE = 'it is to be blocked at once'
    BLOCKED = 'it takes no call'


News = dict[BlockNews, list[int]]


def stage_of(line: Line) -> BlockStage:
    """How far it is with a circuit whose line stands so. (A line in fault is no call, and sends what a blocked one
    sends; one that is being released begins none.)"""
    if line.state in IN_CALL:
        return BlockStage.IN_CALL
    return BlockStage.IDLE if line.role is Role.INCOMING and line.state is State.IDLE else BlockStage.BLOCKED


@dataclass(frozen=True)
class BlockedCircuits:
    """The circuits that the operator has taken, and how far each is."""

    circuits: Mapping[int, BlockStage] = field(default_factory=dict)

    def add(self, circuits: Iterable[int]) -> BlockedCircuits:
        """He takes these, too."""
        return BlockedCircuits({**dict.fromkeys(circuits, BlockStage.TAKEN), **self.circuits})

    def given_back(self, circuits: Container[int]) -> BlockedCircuits:
        return BlockedCircuits({n: its for n, its in self.circuits.items() if n not in circuits})

    def replace_all(self, circuits: Collection[int]) -> BlockedCircuits:
        """He has taken these and no others: another machine says so."""
        return self.given_back({*CIRCUITS} - {*circuits}).add(circuits)

    def block_next(self, lines: Mapping[int, Line], busy: Container[int]) -> tuple[BlockedCircuits, list[int], News]:
        """Which circuits are given a block, as the lines stand, and news. A `busy` one has a command under way."""
        found = {n: before if n in busy else stage_of(lines[n]) for n, before in self.circuits.items()}
        news: News = {what: [] for what in BlockNews}
        for n, before in self.circuits.items():
            if before is not found[n] is not BlockStage.IDLE:
                in_call = BlockNews.SEIZED if before is BlockStage.IDLE else BlockNews.BLOCKING
                news[in_call if found[n] is BlockStage.IN_CALL else BlockNews.BLOCKED].append(n)
        return BlockedCircuits(found), [n for n, now in found.items() if now is BlockStage.IDLE and n not in busy], news

    def not_yet_blocked(self, circuits: Iterable[int] = CIRCUITS) -> list[int]:
        """Those of these circuits that are not blocked yet."""
        return [n for n in circuits if self.circuits.get(n, BlockStage.BLOCKED) is not BlockStage.BLOCKED]

    def word(self, circuit: int) -> BlockNews | None:
        """What a status says of a circuit; None of one in service."""
        news = BlockNews.BLOCKING if self.not_yet_blocked([circuit]) else BlockNews.BLOCKED
        return news if circuit in self.circuits else None


class KeptBlocks:
    """The same in a file, which is replaced whole. One that cannot be read or written is reported, and ends nothing."""

    def __init__(self, path: str) -> None:
        self.now, self._path = BlockedCircuits(), path
        self._writing: asyncio.Task[str] | None = None
        try:
            with suppress(FileNotFoundError), open(path, encoding='ascii') as file:
                self.now = BlockedCircuits().replace_all({*CIRCUITS} & {*json.loads(file.read(4096))})
        except (OSError, ValueError, TypeError) as fault:
            logger.error('which circuits the operator has blocked is not known: %s', words_of_fault(fault, path))

    async def save(self, now: BlockedCircuits) -> str:
        """This is so from now on. Why it is not kept; nothing if it is."""
        self.now = now
        if not self._writing or self._writing.done():
            self._writing = asyncio.create_task(self._write())
        await asyncio.wait([self._writing], timeout=PATIENCE)
        return self._writing.result() if self._writing.done() else f'{self._path}: the disk takes it too slowly'

    async def _write(self) -> str:
        written: list[int] | None = None
        while written != (circuits := sorted(self.now.circuits)):
            written = circuits
            try:
                await asyncio.to_thread(put_file, self._path, f'{written}\n'.encode(), 0o640, is_synced=True)
            except OSError as fault:
                return words_of_fault(fault, self._path)
        return ''


class BlockWatch:
    """Sees to these circuits. `give` gives a command and returns its answer; `tell` reports."""

    def __init__(self, kept: KeptBlocks, lines: TrunkState,
                 give: Callable[[int, Command], Work[CommandAnswer]], tell: Tell) -> None:
        self.kept, self._state, self._give, self._tell = kept, lines, give, tell
        self._busy, self._blocks = Counter[int](), Tasks()

    def is_busy(self, circuit: int) -> bool:
        """Whether a command is under way to a circuit."""
        return self._busy[circuit] > 0

    @contextmanager
    def under_way(self, circuit: int) -> Iterator[None]:
        """A command is under way to a circuit."""
        self._busy[circuit] += 1
        try:
            yield
        finally:
            self._busy[circuit] -= 1

    def block_due(self) -> None:
        """To be called at each change and now and then: blocks what is to be blocked, and tells what has changed."""
        if self.kept.now.circuits and self._state.live:
            self.kept.now, blocks, news = self.kept.now.block_next(self._state.lines, +self._busy)
            for n in blocks:
                self._busy[n] += 1
                self._blocks.begin(self._block(n))
            self._report(news)

    async def _block(self, n: int) -> None:
        """Blocks a circuit, which has counted as busy since that was decided."""
        is_done = False
        try:
            is_done = (await self._give(n, Command.BLOCK)).is_done
        finally:
            self._busy[n] -= 1
        if is_done:
            self.block_due()

    def _report(self, news: News) -> None:
        for what, circuits in news.items():
            if circuits:
                self._tell(CircuitsBlocked(what, tuple(circuits)))

    def refusal(self, circuit: int, command: Command) -> str | None:
        """Why a client's command is refused, if it would have the circuit take calls."""
        is_taken = circuit in self.kept.now.circuits
        return BY_OPERATOR if is_taken and command in (Command.SEIZE, Command.UNBLOCK) else None

    async def take(self, circuits: Collection[int], is_now: bool) -> CommandAnswer:
        """The operator takes circuits, and has their calls cleared if he wants that `now`. What he is told."""
        told = await self._kept(self.kept.now.add(circuits))
        ends = {n: command for n in circuits if is_now and (command := self._state.lines[n].ending())}
        if ends:
            self._tell(CallsCleared('the operator blocks them', tuple(ends)))
            await asyncio.gather(*(self._give(n, command) for n, command in ends.items()))
        self.block_due()
        if self._blocks:
            await asyncio.wait(self._blocks, timeout=PATIENCE)
        self.block_due()
        left = circuit_words(self.kept.now.not_yet_blocked(circuits))
        told += [f'blocking, until their calls have ended: circuits {left}'] * bool(left)
        return DONE._replace(told=(*told,))

    async def give_back(self, circuits: Collection[int]) -> CommandAnswer:
        """The operator gives circuits back. What he is told."""
        its, lines = self.kept.now.circuits.keys() & circuits, self._state.lines
        self.kept.now = self.kept.now.given_back(circuits)      # (so nobody blocks them meanwhile)
        blocked = [n for n in circuits if lines[n].role is Role.INCOMING and (
            lines[n].state is State.BLOCKED or n in its and (self._busy[n] or not self._state.live))]
        answers = dict(zip(blocked, await asyncio.gather(*(self._give(n, Command.UNBLOCK) for n in blocked))))
        faults = {n: answer for n, answer in answers.items() if not (answer.is_done or answer.refusal is NOT_BLOCKED)}
        told = await self._kept(self.kept.now.add(its & faults.keys())) if its else []
        self._report({BlockNews.UNBLOCKED: sorted(its - faults.keys())})
        if faults:
            first = next(iter(faults.values()))
            return CommandAnswer(first.word, f'circuits {circuit_words(faults)}: {first.why}', (*told,))
        return (DONE if its or blocked else refused(NOT_BLOCKED.words))._replace(told=(*told,))

    async def _kept(self, now: BlockedCircuits) -> list[str]:
        fault = await self.kept.save(now)
        return [f'not kept: {fault}'] * bool(fault)
