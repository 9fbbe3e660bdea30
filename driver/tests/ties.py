"""Played drivers for ties, whose exchanges send what a test sets, and the clock of a loop."""
from __future__ import annotations

import asyncio
import json
import os
import subprocess
import time
import unittest
from contextlib import suppress
from typing import Any, Callable, Coroutine

from . import support
from .test_tie_circuit import COLUMN, DONE, INCOMING, OUTGOING
from e1gw_common.lines import Role, State
from e1gw_common.session import Command
from e1gw_tie.coding import Coding

IDLE, SEIZED, ANSWER, HELD = 0b10, 0b00, 0b01, 0b11         # bits a and b
G726, PCMA = Coding('g726-16', 96), Coding('pcma', 8)
TIE = os.path.join(support.TOP, 'bin', 'e1gw-tie')
QUIET = 0.001               # seconds without an event, after which the clock goes on
STEP = 0.01                 # seconds by which it goes on then, or in one turn


def said_by_tie(*words: str) -> tuple[int | None, str, list[dict[str, Any]]]:
    """The status, standard error, and the events of a tie that is ended when it has found no driver."""
    process = subprocess.Popen([TIE, '--control', '/none', *words], stdin=subprocess.DEVNULL, stdout=subprocess.PIPE,
                               stderr=subprocess.PIPE, text=True)
    assert process.stdout
    events = []
    for line in process.stdout:
        events.append(json.loads(line))
        if events[-1]['event'] == 'trunk gone':
            process.terminate()
    _, error = process.communicate(timeout=support.SECONDS)
    return process.returncode, error, events


class LoopClock:
    """The clock of an event loop from now on, whose tasks talk to one another: no stall of the machine counts, and idle
    time is short."""

    def __init__(self, loop: asyncio.AbstractEventLoop) -> None:
        selector = getattr(loop, '_selector')
        self._select, self._now, self._seen = selector.select, loop.time(), time.monotonic()
        selector.select = self.select
        setattr(loop, 'time', self.monotonic)

    def monotonic(self) -> float:
        return self._now

    def select(self, timeout: float | None = None) -> Any:
        """What is ready; if that is nothing the loop has waited until it has something to do, STEP at most."""
        wait = STEP if timeout is None else max(0.0, min(STEP, timeout))
        found = self._select(min(QUIET, wait))
        now, before = time.monotonic(), self._seen
        self._seen = now
        self._now += min(STEP, now - before) if found else wait
        return found


class ClockedCase(unittest.IsolatedAsyncioTestCase):
    """Tests in a loop with this clock, in which nothing goes wrong unseen."""

    async def asyncSetUp(self) -> None:
        self.tasks = list[asyncio.Task[Any]]()
        self.unhandled = list[dict[str, Any]]()
        asyncio.get_running_loop().set_exception_handler(lambda _, about: self.unhandled.append(about))
        LoopClock(asyncio.get_running_loop())

    async def asyncTearDown(self) -> None:
        unhandled = [*self.unhandled]           # (while a server is closed it may be about to accept somebody)
        for task in self.tasks:
            task.cancel()
        await asyncio.gather(*self.tasks, return_exceptions=True)
        self.assertEqual(unhandled, [])

    def begin(self, work: Coroutine[Any, Any, None]) -> asyncio.Task[None]:
        """Goes on until the test ends, at most."""
        self.tasks.append(asyncio.create_task(work))
        return self.tasks[-1]

    async def until(self, holds: Callable[[], object]) -> None:
        await support.eventually(holds, 0.01)


class StandInDriver:
    """A driver at a control socket, whose lines go by the tables and whose exchange sends what the test sets."""

    def __init__(self, path: str, roles: dict[int, Role]) -> None:
        self.path, self.roles = path, roles
        self.states = dict.fromkeys(roles, State.IDLE)
        self.since = dict.fromkeys(roles, 0.0)
        self.pairs = dict.fromkeys(roles, IDLE)
        self.seizures = dict.fromkeys(roles, 0)
        self.codecs = dict.fromkeys(roles, G726)
        self.blocked = set[int]()       # which the operator has blocked
        self.silent = False             # it answers nothing
        self.knows = True               # its program has told it the states
        self.life = 'a'
        self.alarm = self.acknowledges = False
        self.asked: list[str] = []
        self.behind: list[Callable[[], None]] = []      # what happens behind a status
        self.clients: list[asyncio.StreamWriter] = []
        self.server: asyncio.AbstractServer | None = None

    async def start(self) -> None:
        self.server = await asyncio.start_unix_server(self.client, self.path)

    async def stop(self) -> None:
        assert self.server
        self.server.close()
        for client in self.clients:
            client.close()
        self.clients = []

    def send_event(self, **event: Any) -> None:
        for client in self.clients:
            client.write(json.dumps(event).encode() + b'\n')

    async def client(self, reader: asyncio.StreamReader, writer: asyncio.StreamWriter) -> None:
        with suppress(ConnectionError, asyncio.CancelledError):
            while line := await reader.readline():
                words = line.decode().split()
                if words == ['events']:
                    self.clients.append(writer)
                if not self.silent:
                    writer.write(f'{self.obey(words)}\n\n'.encode())
                if words[0] == 'status' and self.behind:
                    self.behind.pop()()
        if writer in self.clients:
            self.clients.remove(writer)

    def obey(self, words: list[str]) -> str:
        self.asked.append(' '.join(words))
        if words[0] == 'status':
            return json.dumps(self.status())
        if words[0] in ('events', 'on-loss'):
            return f'{words[0]}: done'
        if words[0] == 'codec':
            return self.change(int(words[1]), Coding(words[2], int(words[3])))
        n, command = int(words[1]), next(each for each in Command if each.word == words[0])
        of, to = DONE[command]
        mine = (self.roles[n] is Role.OUTGOING) == (command in (Command.SEIZE, Command.CLEAR))
        is_taken = n in self.blocked and command in (Command.SEIZE, Command.UNBLOCK)
        is_kept = command in (Command.BLOCK, Command.UNBLOCK) and words[2:] != ['auto']     # (no tie's)
        answer = 'done' if mine and self.states[n] in of and not (is_taken or is_kept) else 'not idle'
        if answer == 'done':
            self.move(n, to)
        self.send_event(event='command', circuit=n, command=words[0], answer=answer)
        return f'{words[0]} {n}: {"refused: " * (answer != "done")}{answer}'

    def status(self) -> dict[str, Any]:
        none = {'frame': False, 'multiframe': False}
        trunk = {'life': self.life, 'trunk_up': True, 'clock': {'stalled': False}, 'law': 'A',
                 'alarm': {**none, 'frame': self.alarm}, 'remote_alarm': none}
        return trunk | {'circuits': [
            {'circuit': n, 'role': str(self.roles[n]), 'state': str(self.states[n]) if self.knows else 'unknown',
             'seizures': self.seizures[n], 'blocked': 'blocked' if n in self.blocked else None,
             'for': asyncio.get_running_loop().time() - self.since[n],
             'codec': self.codecs[n].codec, 'payload': self.codecs[n].payload,
             'configured_codec': G726.codec, 'configured_payload': G726.payload}
            for n in self.roles]}

    def change(self, n: int, coding: Coding) -> str:
        self.codecs[n] = coding
        self.send_event(event='codec', circuit=n, codec=coding.codec, payload=coding.payload)
        return f'codec {n}: done'

    def move(self, n: int, state: State) -> None:
        was, self.states[n] = self.states[n], state
        self.seizures[n] += state in (State.ACKED, State.SEIZED) and was is State.IDLE
        if state is not was:
            self.since[n] = asyncio.get_running_loop().time()
            self.send_event(event='state', circuit=n, role=str(self.roles[n]), was=str(was), state=str(state))
        if self.roles[n] is Role.OUTGOING and self.acknowledges:
            self.pairs[n] = {State.SEIZED: HELD, State.RELEASING: IDLE}.get(state, self.pairs[n])

    def send(self, n: int, pair: int) -> None:
        """The exchange sends these bits on a circuit, and they are recognised."""
        self.pairs[n] = pair
        self.recognise()

    def stands(self, n: int) -> tuple[State, Coding]:
        """The state of a circuit once what the exchange sends is recognised, and its codec."""
        self.recognise()
        return self.states[n], self.codecs[n]

    def recognise(self) -> None:
        for n in self.roles:
            table = INCOMING if self.roles[n] is Role.INCOMING else OUTGOING
            self.move(n, table[self.states[n]][COLUMN[self.pairs[n]]])
