"""The connection to the program of now: C and K records, and their answers. It is made again whenever it is lost."""
from __future__ import annotations

import asyncio
import socket
import time
from collections import deque
from contextlib import suppress
from dataclasses import dataclass, field
from typing import Callable

from e1gw_common.faults import words_of_fault
from e1gw_common.session import HEAD, Kind, Record

AGAIN = 0.1                 # seconds between two tries to connect
NEXT = 1.5                  # seconds that the next program has to come: less than e1gw-tie waits for an answer
PATIENCE = 0.3              # seconds that an answer of the program waits for its report
SOON = 0.002                # seconds between two looks whether it has told


class NoAnswer(Exception):
    """Why a record has no answer, and whether it was given to a program."""

    def __init__(self, why: str, is_given: bool) -> None:
        super().__init__(why)
        self.is_given = is_given


@dataclass(eq=False)
class GivenRecord:
    """A record that was given to the program. `told` is set once it is reported."""

    record: bytes
    answer: asyncio.Future[Record]
    told: asyncio.Event = field(default_factory=asyncio.Event)


class ProgramConnection:
    """Gives records to the program that listens at a socket. `stands` is called with whether there is one, and why
    not; `read_reports_now` while an answer waits for its report."""

    def __init__(self, path: Callable[[], str], stands: Callable[[str, bool, str], None],
                 read_reports_now: Callable[[], None], fault: Callable[[], str]) -> None:
        """`fault` says why there is no program, if that is known."""
        self._path, self._stands, self._read_reports_now, self._fault = path, stands, read_reports_now, fault
        self._given = deque[GivenRecord]()
        self._writer: asyncio.StreamWriter | None = None
        self._lost = time.monotonic()           # when the last connection was

    async def run(self) -> None:
        """Connects, again and again."""
        while True:
            try:
                reader, self._writer = await asyncio.open_unix_connection(self._path())
                self._stands('control', True, '')
                while True:
                    kind, circuit, length = HEAD.unpack(await reader.readexactly(HEAD.size))
                    self._parse_answer(kind, circuit, await reader.readexactly(length))
            except asyncio.IncompleteReadError:
                why = 'it has closed the connection'
            except (ValueError, IndexError):
                why = 'it sent an unexpected record'
            except OSError as fault:
                why = words_of_fault(fault)
            finally:
                self._on_disconnect()
            self._stands('control', False, f'{self._path()}: {why}')
            await asyncio.sleep(AGAIN)

    def _parse_answer(self, kind: int, circuit: int, body: bytes) -> None:
        """An answer of the program. ValueError or IndexError if it is none."""
        record = Record(Kind(kind), circuit, body)
        record.refusal      # pylint: disable=pointless-statement
        [each for each in self._given if not each.answer.done()][0].answer.set_result(record)

    def _on_disconnect(self) -> None:
        if self._writer:
            self._writer.close()
            self._lost = time.monotonic()
        self._writer = None
        for each in self._given:
            if not each.answer.done():
                each.answer.set_exception(NoAnswer('no answer, the connection to the program is lost', True))

    async def ask(self, record: bytes, report_connection: Callable[[], object], waits: bool = True) -> Record:
        """The answer to a record, once the record is reported, too: what follows from it is known then.
        `report_connection` returns the connection at which reports come now, or None. If it is another one than when
        the record was given, the report may never come and is not waited for. With no program it `waits` for the next
        one. A record is given once. NoAnswer if there is none."""
        while waits and not self._writer and not self._fault() and time.monotonic() < self._lost + NEXT:
            await asyncio.sleep(SOON)
        if not self._writer:
            raise NoAnswer(self._fault() or 'no connection to the program', False)
        self._given.append(given := GivenRecord(record, asyncio.get_running_loop().create_future()))
        self._writer.write(record)
        reports = report_connection()
        try:
            answer = await given.answer
            until = time.monotonic() + PATIENCE
            while reports and report_connection() is reports and not given.told.is_set() and time.monotonic() < until:
                self._read_reports_now()
                await asyncio.sleep(SOON)
            return answer
        finally:
            with suppress(ValueError):
                self._given.remove(given)

    def on_command_told(self, record: bytes) -> None:
        """A record is reported."""
        for each in self._given:
            if each.record == record and not each.told.is_set():
                return each.told.set()


def connected(path: str) -> socket.socket:
    """A connection to a Unix socket, on which nothing waits."""
    line = socket.socket(socket.AF_UNIX)
    line.setblocking(False)
    try:
        line.connect(path)
    except OSError:
        line.close()
        raise
    return line
