"""Two machines of one trunk: one carries it, the other one stands by and is fed. A cluster engine or an operator says
which; the holder does it, and FOLDER/holder has its role. This feeds, or is fed, as that says, and prepares what the
holder takes: who says `take` to the holder itself has the trunk with what was fed up to then."""
from __future__ import annotations

import argparse
import asyncio
import logging
import time
from dataclasses import replace

from e1gw_common.answers import CommandAnswer, refused
from e1gw_common.faults import words_of_fault
from e1gw_common.tasks import Tasks, reporting_failures
from e1gw_common.tls import context_of
from ..events import Tell
from ..holder_state import start_of
from ..log_folder import LogPair
from ..status import MachineRole, PairStatus
from .ask_holder import ask
from .feed import FRESH, TICK, FeedServer
from .held import HeldTrunk
from .journal import NOTICE
from .options import feeding_of
from .standby import FedLog, TrunkStandby

PATIENCE = 30.0             # seconds for a promotion or its reverse
GRACE = 5.0                 # seconds for the other machine to be fed the rest
AGAIN = 1.0                 # seconds before a port that cannot be had is tried again
REVERSE = 'the reverse was asked for meanwhile'
NOT_TAKEN = 'the standby did not take the trunk, and this machine carries it again'

logger = logging.getLogger(__name__)


class TrunkPair:
    """This machine's part of a trunk."""

    def __init__(self, trunk: HeldTrunk, standby: TrunkStandby, feed: FeedServer) -> None:
        self._trunk, self._standby, self._feed = trunk, standby, feed
        self._follows: asyncio.Task[None] | None = None         # by which it is fed
        self._change: asyncio.Task[CommandAnswer] | None = None           # what was asked for last
        self._word, self._has_carried, self._tasks = '', False, Tasks()
        standby.on_handover, standby.carries, standby.blocks = self._on_handover, self._is_active, self._on_peer_block

    def start(self, host: str, port: int) -> None:
        """Begins to feed, and to follow the holder."""
        self._tasks.begin(self._listen(host, port))
        self.follow_role()

    async def _listen(self, host: str, port: int) -> None:
        """Feeds who connects there, once it can be."""
        said = ''
        while True:
            try:
                await asyncio.start_server(self._feed.on_connect, host, port)
                return
            except OSError as fault:
                if (why := words_of_fault(fault, f'--feed {host}:{port}')) != said:
                    logger.error('cannot listen: %s; it is tried again', why)
                said = why
            await asyncio.sleep(AGAIN)

    # ---- the role that the holder has ----

    def follow_role(self) -> None:
        """A few times a second: follows that role, unless it is changed here in this moment."""
        if not self._change or self._change.done():
            self._become_role()

    def _become_role(self) -> None:
        if not self._trunk.stands_by():
            if self._follows:
                self._leave_standby()
            self._has_carried |= self._is_active()
        elif self._is_standby() and not self._follows:
            self._keep_own_state()
            self._follows = asyncio.create_task(self._standby.run())

    def _leave_standby(self) -> None:
        """Somebody else has said it to the holder."""
        assert self._follows
        self._follows.cancel()
        self._follows, fed = None, self._standby.fed
        self._switch_log(fed)
        self._standby.publish(None)

    def _switch_log(self, fed: FedLog | None) -> None:
        """The next program begins with this log, or nobody knows with which."""
        if fed:
            self._trunk.reader.switch_log((fed.place, fed.octets))
        else:
            self._trunk.reader.switch_log()

    def _keep_own_state(self) -> None:
        """Nothing more is read of the log. What is known of the trunk is what this machine had itself, if it carried
        it."""
        reader, has_carried, self._has_carried = self._trunk.reader, self._has_carried, False
        reader.read()
        reader.rests = True
        with reporting_failures('what is known of the trunk'):
            if has_carried and (last := reader.last()):
                self._standby.publish(self._own_state(last))

    def _own_state(self, last: LogPair) -> FedLog:
        reader = self._trunk.reader
        own = FedLog(self._trunk.places().folder, last.place, reader.octets_at(last), self._trunk.numbers())
        own.begin(last.state, last.records)
        own.came = own.fresh = time.monotonic() - max(0.0, time.time() - reader.noted().written)
        return own

    # ---- what is asked ----

    def _lacks_program(self) -> bool:
        return not (self._trunk.stands_by() or self._is_active())

    def role(self) -> str:
        """The role of this machine, and whether the standby is fed."""
        its = self.facts()
        return f'{its.role}, {"fed" if its.fed else "not fed"}{", no program" * self._lacks_program()}'

    async def change(self, word: str) -> CommandAnswer:
        """The answer to `promote`, `demote` or `move`."""
        if word == 'move' and (self._trunk.stands_by() or self._lacks_program() or not self.facts().fed
                               or not await self._feed.is_up_to_date()):
            return refused('no standby is fed here')
        change = self._start_change(word)
        await asyncio.wait([change])
        return refused(REVERSE) if change.cancelled() else change.result()

    def _start_change(self, word: str) -> asyncio.Task[CommandAnswer]:
        """One change at a time: another one ends that which goes on, the same one is that."""
        change = self._change
        if not change or change.done() or self._word != word:
            if change:
                change.cancel()
            self._word, self._change = word, (change := asyncio.create_task(self._run_change(word)))
        return change

    async def _run_change(self, word: str) -> CommandAnswer:
        try:
            answer = await {'promote': self._take_trunk, 'demote': self._release, 'move': self._move_trunk}[word]()
        except Exception as fault:      # pylint: disable=broad-exception-caught
            logger.error('%s: %s', word, words_of_fault(fault))
            answer = refused(words_of_fault(fault))
        with reporting_failures('the role of the trunk'):
            self._become_role()
        return answer

    async def _take_trunk(self) -> CommandAnswer:
        """The trunk is to come here, with what is known of it up to now."""
        trunk, standby, words = self._trunk, self._standby, 'take'
        if follows := self._follows:
            follows.cancel()
            await asyncio.wait([follows])
        self._follows = None
        if self._is_standby():                  # (else what it has is there)
            told = await standby.fill()
            if standby.fed and (number := standby.fed.next_packet_number()) is not None:
                words, told = f'take {number}', f'{told}, packet {number} next'
            logger.log(NOTICE, 'the trunk is taken: %s', told)
            self._switch_log(standby.fed)
            if standby.fed:
                standby.fed.unlock()
        answer = await self._ask_holder(words)
        if not trunk.stands_by():
            standby.publish(None)
        return answer

    async def _release(self) -> CommandAnswer:
        """It is to go, and the other machine has all of it."""
        answer = await self._ask_holder('release')
        await self._feed.finish(GRACE)
        return answer

    async def _move_trunk(self) -> CommandAnswer:
        """The same, and the feed says that the other one is to carry it. If it does not this one takes it back."""
        self._feed.hands_over, self._feed.is_carried = True, False
        try:
            answer = await self._release()
            if not answer.is_done or self._feed.is_carried:
                return answer
            logger.error('move: %s', NOT_TAKEN)
            self._keep_own_state()
            answer = await self._take_trunk()
            return refused(NOT_TAKEN) if answer.is_done else answer
        finally:
            self._feed.hands_over = False

    async def _ask_holder(self, words: str) -> CommandAnswer:
        """What the holder answers. What it does up to then is told at once: the trunk's addresses come by that."""
        answer = asyncio.ensure_future(ask(self._trunk.places().hold_path, words, PATIENCE))
        try:
            while not answer.done():
                await asyncio.wait([answer], timeout=TICK)
                self._trunk.follow_holder()
            return answer.result()
        finally:
            answer.cancel()

    def _on_handover(self, takes: bool) -> None:
        """The other machine hands it over, or takes it back."""
        self._start_change('promote' if takes else 'demote')

    # ---- what is known ----

    def fed(self) -> FedLog | None:
        """What is fed here, while this machine stands by."""
        return self._standby.fed if self._trunk.stands_by() else None

    def facts(self) -> PairStatus:
        """Role and feed."""
        standby, stands = self._standby, self._is_standby()
        age = standby.age() if stands else self._feed.age()
        role = MachineRole.STANDBY if stands else MachineRole.ACTIVE
        its = PairStatus(role, age is not None and age <= FRESH, age and round(age, 3))
        return replace(its, feed_fault=standby.why or None,
                       differs=(*standby.fed.circuits,) if standby.fed else ()) if stands else its

    def _on_peer_block(self, circuits: list[int]) -> None:
        """The operator has blocked these at the other machine."""
        kept = self._trunk.blocks()
        self._tasks.begin(kept.save(kept.now.replace_all(circuits)))

    def _is_standby(self) -> bool:
        """Whether it stands by: it is active until its program has ended."""
        return self._trunk.stands_by() and not self._trunk.state.program

    def _is_active(self) -> bool:
        state, program = self._trunk.state, self._trunk.carried_by()
        return bool(program and start_of(program) == state.started)

    def close(self) -> None:
        if self._follows:
            self._follows.cancel()


def open_pair(asked: argparse.Namespace, trunk: HeldTrunk, tell: Tell) -> TrunkPair | None:
    """The pair that is asked for, if there is one. OSError if its certificate cannot be read."""
    if not (places := feeding_of(asked)):
        return None
    (host, port), other = places
    files = asked.tls or ()
    feed = FeedServer(other[0], trunk, context_of(files, True))
    pair = TrunkPair(trunk, TrunkStandby(other, host, files, trunk, tell), feed)
    pair.start(host, port)
    return pair
