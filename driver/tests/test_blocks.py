"""Circuits that an operator blocks: random sequences of what he, the exchange, clients and deaths do, and one trunk.

A thousand sequences take 8 s of processor, so the gate has them all; others: scripts/test random_seq --seed 2."""
from __future__ import annotations

import asyncio
import json
import os
import signal
import unittest
from collections import deque
from functools import partial
from types import SimpleNamespace
from typing import Any, Callable, cast
from unittest import mock

from . import support
from .properties import PropertyCase
from .test_trunk import aligned, call
from .world import World, config_of
from e1gw.ctl_all import TrunkLine
from e1gw_tools.far_exchange import IDLE, SEIZED
from e1gw_common.answers import DONE, AnswerWord, CommandAnswer, refused
from e1gw_common.lines import IN_CALL, Line, Role, State
from e1gw_common.plain import typed
from e1gw.metrics import exposition
from e1gw.status import TrunkStatus
from e1gw.watcher.blocks import BY_OPERATOR, BlockWatch, BlockedCircuits, KeptBlocks
from e1gw_common.session import Command, CommandRefusal

ROLES = {1: Role.OUTGOING, 2: Role.INCOMING, 3: Role.INCOMING}
# ITU-T Q.421: what a command of this end does to an outgoing and an incoming line, and what the exchange does next.
OURS = {(Command.SEIZE, State.IDLE): State.SEIZED, (Command.ANSWER, State.ACKED): State.ANSWERED,
        (Command.CLEAR_BACK, State.ANSWERED): State.CLEAREDBACK, (Command.BLOCK, State.IDLE): State.BLOCKED,
        (Command.UNBLOCK, State.BLOCKED): State.IDLE, **{(Command.CLEAR, each): State.RELEASING for each in IN_CALL}}
THEIRS = {Role.OUTGOING: {State.SEIZED: State.ACKED, State.ACKED: State.ANSWERED, State.ANSWERED: State.CLEAREDBACK,
                          State.RELEASING: State.IDLE},
          Role.INCOMING: {State.IDLE: State.ACKED, State.ACKED: State.IDLE, State.ANSWERED: State.IDLE,
                          State.CLEAREDBACK: State.IDLE}}
CLIENTS = {State.IDLE: Command.SEIZE, State.ACKED: Command.ANSWER, State.ANSWERED: Command.CLEAR}
LOST = CommandAnswer(AnswerWord.UNKNOWN, 'no answer, the connection to the program is lost')


class KeptInMemory(KeptBlocks):
    """Keeps them in memory."""

    def __init__(self, circuits: frozenset[int] = frozenset()) -> None:
        super().__init__('')
        self.now = BlockedCircuits().replace_all(circuits)

    async def save(self, now: BlockedCircuits) -> str:
        self.now = now
        return ''


class Trunk:
    """A trunk, its program, which answers and tells late, and the services of two machines, one after another."""

    def __init__(self, test: unittest.TestCase) -> None:
        self.test, self.states, self.life, self.needless = test, dict.fromkeys(ROLES, State.IDLE), 0, False
        self.taken, self.asked = set[int](), deque[tuple[int, Command, asyncio.Future[CommandAnswer]]]()
        self.reports, self.gave = deque[Callable[[], None]](), list[Command]()
        self.begin(KeptInMemory())

    def begin(self, disk: KeptInMemory) -> None:
        """A service begins with what is kept. What was asked has reached the program."""
        while self.asked:
            self.answers()
        while self.reports:
            self.reports.popleft()()
        self.view = SimpleNamespace(live=True, lines={n: Line(n, role, state=self.states[n])
                                                      for n, role in ROLES.items()})
        self.life += 1
        self.watch = BlockWatch(disk, cast(Any, self.view), partial(self.give, self.life), lambda event: None)

    async def give(self, life: int, n: int, command: Command) -> CommandAnswer:
        """As the service gives a command, its own or that of a client. (One that has died gives none.)"""
        if life != self.life:
            return LOST
        is_asked = (n, command) in [each[:2] for each in self.asked]
        self.needless |= command is Command.BLOCK and (is_asked or not self.view.live)
        self.gave.append(command)
        with self.watch.under_way(n):
            its: asyncio.Future[CommandAnswer] = asyncio.get_running_loop().create_future()
            self.asked.append((n, command, its))
            return await its

    def moves(self, n: int, state: State) -> None:
        """A line changes, which is told later."""
        self.states[n] = state
        self.reports.append(lambda: setattr(self.view.lines[n], 'state', state))

    def answers(self) -> None:
        """The program does what it was asked, or refuses it by the table. The answer waits until that is told."""
        n, command, its = self.asked.popleft()
        if state := OURS.get((command, self.states[n])):
            self.moves(n, state)
        why = CommandRefusal.NOT_BLOCKED if command is Command.UNBLOCK else CommandRefusal.NOT_IDLE
        answer = DONE if state else refused(why.words)._replace(refusal=why)
        self.reports.append(lambda: its.set_result(answer))

    async def tell_next(self) -> None:
        """The next report is told."""
        if self.reports:
            self.reports.popleft()()
            self.watch.block_due()
        await asyncio.sleep(0)

    async def settles(self, *waits: asyncio.Task[Any]) -> None:
        for _ in range(3):
            while self.asked or self.reports or not all(each.done() for each in waits):
                if self.asked:
                    self.answers()
                await self.tell_next()
            self.watch.block_due()
            await asyncio.sleep(0)

    # ---- what happens, by its name ----

    async def take(self, n: int, is_now: bool = False) -> None:
        self.taken.add(n)
        self.operator = asyncio.create_task(self.watch.take([n], is_now))

    async def take_now(self, n: int) -> None:
        await self.take(n, True)

    async def back(self, n: int, dies: bool = False) -> None:
        asks = asyncio.create_task(self.watch.give_back([n]))
        await passes()
        if dies:
            await self.dies(n)
        await self.settles(asks)
        if asks.result() in (DONE, refused('not blocked')):
            self.taken.discard(n)

    async def back_lost(self, n: int) -> None:
        await self.back(n, True)

    async def exchange(self, n: int) -> None:
        if state := THEIRS[ROLES[n]].get(self.states[n]):
            self.moves(n, state)

    async def client(self, n: int) -> None:
        """Seizes, answers or clears; a seizure of a circuit that was taken is refused."""
        command = CLIENTS.get(self.states[n])
        if command and (ROLES[n] is Role.OUTGOING) == (command in (Command.SEIZE, Command.CLEAR)):
            self.test.assertEqual(self.watch.refusal(n, command),
                                  BY_OPERATOR if command is Command.SEIZE and n in self.taken else None)
            if not self.watch.refusal(n, command):
                self.held = asyncio.create_task(self.give(self.life, n, command))

    async def program(self, n: int) -> None:
        if self.asked:
            self.answers()

    async def tells(self, n: int) -> None:
        await self.tell_next()

    async def dies(self, n: int) -> None:
        """The program: what it was asked is lost, and the next one tells how all lines stand."""
        self.view.live = False
        while self.asked:
            self.asked.popleft()[2].set_result(LOST)
        while self.reports:
            self.reports.popleft()()
        await passes()
        self.watch.block_due()
        for n, line in self.view.lines.items():
            line.state = self.states[n]
        self.view.live = True

    async def restarts(self, n: int) -> None:
        """The service: the numbers are kept."""
        self.begin(KeptInMemory(frozenset(self.watch.kept.now.circuits)))

    async def move_trunk(self, n: int) -> None:
        """The trunk moves to the machine that knew of another circuit, and was told of these."""
        other = KeptInMemory(frozenset((n,)))
        await other.save(other.now.replace_all([*self.watch.kept.now.circuits]))
        self.begin(other)


async def passes() -> None:
    """What is to be done at once is done."""
    for _ in range(4):
        await asyncio.sleep(0)


STEPS = ('take', 'take_now', 'back', 'back_lost', 'exchange', 'exchange', 'client', 'client', 'program', 'tells',
         'dies', 'restarts', 'move_trunk')


class BlockTests(PropertyCase):
    def test_random_sequences(self) -> None:
        """No call of a circuit that is taken ends by the service, but by `now`; none is up in one that is blocked; each
        is blocked once its call has ended; and once all are given back everything is as before."""
        step = self.st.tuples(self.st.sampled_from(STEPS), self.st.sampled_from([*ROLES]))
        steps = self.st.lists(step, min_size=8, max_size=12)
        with asyncio.Runner() as runner:
            for found in ('client', 'take', 'program'), ('take', 'take', 'program'):        # (each was wrong once)
                runner.run(self.sequence([(step, n) for n in ROLES for step in found]))
            self.holds(lambda steps: runner.run(self.sequence(steps)), steps, examples=1000)

    async def sequence(self, steps: list[tuple[str, int]]) -> None:
        trunk = Trunk(self)
        for step, n in steps:
            before, ends = len(trunk.gave), trunk.view.lines[n].ending()
            await getattr(trunk, step)(n)
            await passes()
            self.assertFalse([n for n, state in trunk.states.items() if state in IN_CALL
                              and trunk.watch.kept.now.word(n) == 'blocked'], step)
            if step not in ('take_now', 'client'):
                self.assertFalse({*trunk.gave[before:]} & {Command.CLEAR, Command.CLEAR_BACK}, step)
            elif step == 'take_now' and ends:
                self.assertIn(ends, trunk.gave[before:])
        await trunk.settles()
        for n in ROLES:                                 # (each call ends)
            if trunk.states[n] in IN_CALL and ROLES[n] is Role.OUTGOING:
                trunk.moves(n, State.RELEASING)
            if trunk.states[n] not in (State.IDLE, State.BLOCKED):
                await trunk.exchange(n)
            await trunk.settles()
        self.assertFalse(trunk.needless)                # (a block beside one that is not answered, or to no program)
        kept = trunk.watch.kept.now
        self.assertEqual({n: kept.word(n) for n in kept.circuits}, dict.fromkeys(trunk.taken, 'blocked'))
        self.assertEqual(trunk.states, {n: State.BLOCKED if n in trunk.taken and role is Role.INCOMING else State.IDLE
                                        for n, role in ROLES.items()})
        for n in ROLES:
            await trunk.back(n)
        await trunk.settles()
        self.assertEqual((trunk.watch.kept.now.circuits, trunk.states), ({}, dict.fromkeys(ROLES, State.IDLE)))


class KeptTests(support.FolderCase, unittest.IsolatedAsyncioTestCase):
    async def test_file(self) -> None:
        """The last one of several at once is in it; what is none, or cannot be written, ends nothing."""
        kept = KeptBlocks(self.path('blocked'))
        told = await asyncio.gather(*(kept.save(BlockedCircuits().add(range(1, n))) for n in (3, 31, 5)))
        self.assertEqual((told, json.loads(support.text_of(self.path('blocked')))), ([''] * 3, [1, 2, 3, 4]))
        self.assertEqual([*KeptBlocks(self.path('blocked')).now.circuits], [1, 2, 3, 4])
        with mock.patch.object(os, 'fsync') as synced:
            await kept.save(BlockedCircuits())
        self.assertTrue(synced.called, 'a crash of the machine empties the file')
        for octets in (b'', b'7', b'{"1": 2}', b'[1', b'[31, "a"]', b'\xff'):
            with mock.patch('e1gw.watcher.blocks.logger'):
                self.assertEqual(KeptBlocks(self.write('bad', octets)).now.circuits, {}, octets)
        kept = KeptBlocks(self.path('none/blocked'))
        self.assertRegex(await kept.save(BlockedCircuits()), 'none/blocked.*: No such file')


class BlockedTrunkTests(unittest.TestCase):
    def test_one_trunk(self) -> None:
        """Both roles, in calls and without: what clients are answered, what is shown, also by the next watcher, and
        that all is as before at the end."""
        world = World(config_of(range(1, 5), incoming=(2, 4)), '--state', '@/state')
        self.addCleanup(world.__exit__)
        aligned(world).exchange.pairs[2] = SEIZED
        call(world, 1)
        self.assertEqual(world.ask('block 1-4').splitlines(), [
            'block 1-4: blocking, until their calls have ended: circuits 1-2', 'block 1-4: done'])
        self.assertEqual(world.ask('seize 3'), f'seize 3: refused: {BY_OPERATOR}')
        self.assertEqual(world.ask('unblock 4 auto'), f'unblock 4: refused: {BY_OPERATOR}')
        os.kill(world.watcher(), signal.SIGKILL)        # (e1gw-trunk starts another one)
        world.connected()
        support.until(lambda: [(row['state'], row['blocked']) for row in world.recent_status()['circuits'][:5]] == [
            ('answered', 'blocking'), ('acked', 'blocking'), ('idle', 'blocked'), ('blocked', 'blocked'),
            ('idle', None)])
        words = 'blocked by the operator: 3-4; blocking, until their calls have ended: 1-2'
        self.assertIn(f'\n{words}\n', world.ask('status'))
        line = TrunkLine.from_status('west', typed(TrunkStatus, world.recent_status()))
        self.assertTrue(line.state.endswith(f'; {words}'))
        self.assertTrue(world.ask('status 3').endswith('\nblocked by the operator: 3'))
        self.assertIn('e1gw_circuit_blocked{circuit="1"} 1\n', exposition(typed(TrunkStatus, world.recent_status())))
        self.assertEqual(json.loads(support.text_of(world.path('state.blocked'))), [1, 2, 3, 4])
        events = world.follow()
        self.addCleanup(events.close)
        world.exchange.pairs[2] = IDLE
        world.until(lambda: world.state(2) == 'blocked')
        self.assertEqual(world.ask('block 1 now'), 'block 1: done')
        self.assertEqual(world.ask('block 1-31'), 'block 1-31: refused: circuits are 1 to 30')
        self.assertEqual(world.ask('unblock 1-4'), 'unblock 1-4: done')
        told = ((event.get('what', event['why'] if 'why' in event else ''), event['circuits'])
                for event in map(json.loads, events) if event['event'] in ('block', 'cleared'))
        self.assertEqual([next(told) for _ in range(4)], [
            ('blocked', [2]), ('the operator blocks them', [1]), ('blocked', [1]), ('unblocked', [1, 2, 3, 4])])
        self.assertEqual(world.ask('unblock 1-4'), 'unblock 1-4: refused: not blocked')
        world.until(lambda: {row['state'] for row in world.recent_status()['circuits'][:4]} == {'idle'})
        self.assertEqual({row['blocked'] for row in world.recent_status()['circuits']}, {None})
