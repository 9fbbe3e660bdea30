"""The control socket of a trunk, and the connection of its watcher with the program."""
from __future__ import annotations

import asyncio
import grp
import os
import socket
from typing import Any
from unittest import mock

from . import support
from .support import SECONDS
from e1gw_common.session import Command, CommandRefusal, Kind, Record, command_record
from e1gw.watcher import connection
from e1gw_common.unix_listener import unix_listener
from e1gw.watcher.connection import NoAnswer, ProgramConnection


class ControlSocketTests(support.FolderCase):
    def test_there_once_it_listens(self) -> None:
        """Who waited for it to be there was refused until it listened."""
        found = []
        path, listen = self.path('control'), socket.socket.listen

        def listens(line: socket.socket, most: int) -> None:
            found.append(os.path.lexists(path))
            listen(line, most)
        with mock.patch.object(socket.socket, 'listen', listens):
            for _ in range(2):                          # (of one that is left nobody listens, nor of one half made)
                self.write('control~', b'')
                with unix_listener(path, 0o600, None), socket.socket(socket.AF_UNIX) as client:
                    client.connect(path)
                    self.assertEqual(os.stat(path).st_mode & 0o777, 0o600)
        self.assertEqual((found, os.listdir(self.folder)), ([False, True], ['control']))

    def test_group(self) -> None:
        """By its name or its number."""
        for group in grp.getgrgid(os.getgid()).gr_name, '7':
            with mock.patch('os.chown') as given:
                unix_listener(self.path('control'), 0o660, group).close()
            given.assert_called_once_with(self.path('control~'), -1, 7 if group == '7' else os.getgid())


class ProgramConnectionTests(support.LoopCase):
    """Records that are given to programs, one after another, at a socket."""

    async def asyncSetUp(self) -> None:
        await super().asyncSetUp()
        path = self.path('program')
        self.listener, self.fault, self.reads = support.listening(path), '', 0
        self.addCleanup(self.listener.close)
        self.stood = list[tuple[str, bool, str]]()
        self.its = ProgramConnection(lambda: path, lambda what, on, why: self.stood.append((what, on, why)),
                                     self.read_reports_now, lambda: self.fault)
        self.enterContext(mock.patch.multiple(connection, PATIENCE=SECONDS, AGAIN=0.0))
        self.addCleanup(asyncio.create_task(self.its.run()).cancel)
        self.line = await self.accepted()

    def read_reports_now(self) -> None:
        self.reads += 1

    async def accepted(self) -> socket.socket:
        line = (await asyncio.to_thread(self.listener.accept))[0]
        self.addCleanup(line.close)
        await self.until(lambda: self.stood and self.stood[-1][1])
        return line

    def asks(self, circuit: int, reports: object = None, **more: Any) -> asyncio.Task[Record]:
        return asyncio.create_task(self.its.ask(command_record(circuit, Command.SEIZE), lambda: reports, **more))

    async def test_answers(self) -> None:
        """In their order. What has none when the program ends gets none, and what comes then goes to the next one."""
        first, lost = self.asks(1), self.asks(2)
        await asyncio.to_thread(support.read_from, self.line, 10)
        self.line.sendall(answer(1))
        self.assertEqual((await first).circuit, 1)
        self.line.close()
        with self.assertRaisesRegex(NoAnswer, 'the connection to the program is lost'):
            await lost
        later = self.asks(3)
        line = await self.accepted()
        self.assertEqual(await asyncio.to_thread(support.read_from, line, 5), command_record(3, Command.SEIZE))
        line.sendall(answer(3, CommandRefusal.NOT_IDLE))
        self.assertIs((await later).refusal, CommandRefusal.NOT_IDLE)
        line.sendall(answer(9))             # (nobody has asked)
        await self.until(lambda: len(self.stood) > 3)
        gone = f'{self.path("program")}: it'
        self.assertEqual(self.stood[:4], [
            ('control', True, ''), ('control', False, f'{gone} has closed the connection'), ('control', True, ''),
            ('control', False, f'{gone} sent an unexpected record')])

    async def test_an_answer_waits_for_its_report(self) -> None:
        """Of two that are alike each has its own; one waits no more when nobody tells, or another one does."""
        both, other = [self.asks(1, 'this one') for _ in range(2)], self.asks(2)
        for circuit in 1, 1, 2:
            self.line.sendall(answer(circuit))
        await other
        for n in 0, 1:
            self.assertFalse(both[n].done())
            self.its.on_command_told(command_record(1, Command.SEIZE))
            await both[n]
        self.assertGreater(self.reads, 0)
        told = list[object](['this one', 'this one', 'another'])
        late = asyncio.create_task(self.its.ask(command_record(4, Command.SEIZE), lambda: told.pop(0)))
        self.line.sendall(answer(4))
        await late

    async def test_with_no_program(self) -> None:
        """Who waits is told why there is none; what may be left out waits for none."""
        self.listener.close()
        self.line.close()
        await self.until(lambda: not self.stood[-1][1])
        with self.assertRaisesRegex(NoAnswer, '^no connection to the program$'):
            await self.asks(1, waits=False)
        waits = self.asks(1)
        await asyncio.sleep(0.01)
        self.assertFalse(waits.done())
        self.fault = 'standby'
        with self.assertRaisesRegex(NoAnswer, '^standby$'):
            await waits


def answer(circuit: int, refusal: int = 0) -> bytes:
    """What a program answers to a command."""
    return bytes([Kind.ANSWER, circuit, 0, 2, Kind.COMMAND, refusal])
