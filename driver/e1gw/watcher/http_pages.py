"""What is seen from outside: the status, its table, page and metrics, each made once a quarter of a second at most
however many ask, and served over HTTP."""
from __future__ import annotations

import asyncio
import functools
import socket
import time
from dataclasses import replace
from typing import Awaitable, Callable

from e1gw_common.lines import Line
from e1gw_common.web import PageAnswer, PageRequest, StatusTexts, Stream, WebServer
from ..ctl_all import asked_trunks
from ..metrics import exposition, table
from ..priority import put_behind
from ..status import TrunkStatus
from ..udp_tables import sockets_of
from .page import HOST, POLICY, PageNotes, Parts, message_of, page_of, parts_of, trunks_page, waiting_page
from .process import python_words, run_process, start_process

EVERY = 0.25                        # seconds between two statuses
TOLD, MOST_READERS = 1.0, 256       # seconds between two messages to those who read events, and who may
MOST_HELD, AT_ONCE = 32 << 10, 16   # octets that wait for one of them; how many are told before others have their turn
FRESH, DRAWN = 5.0, 60.0            # seconds in which nobody gets another picture, and for one to be drawn
NICE = 15                           # of the process that draws
WAITED, PATIENCE = 1.0, 0.5         # seconds for which somebody waits for it, and for the answer of another trunk
WHOLE = b'</html>\n'
DRAWING = "default-src 'none'; style-src 'unsafe-inline'"       # what one that is drawn may load


class TrunkTexts(StatusTexts[TrunkStatus]):
    """The texts of a trunk's status, with the parts of its page."""

    def __init__(self, status: TrunkStatus, notes: PageNotes) -> None:
        super().__init__(status, table, lambda its: exposition(its, its.name))
        self._notes = notes

    @functools.cached_property
    def parts(self) -> Parts:
        return parts_of(self.status, self._notes)


class TrunkPages:
    """The texts of a status of a moment ago, in which all is that was told before. `take` is called so that all that
    was told is known."""

    def __init__(self, status: Callable[[], TrunkStatus], take: Callable[[], None], lines: list[Line],
                 notes: PageNotes) -> None:
        self._status, self._take, self._lines, self._notes = status, take, lines, notes
        self._due, self._has_changed = 0.0, True
        self._last: TrunkTexts | None = None

    def mark_stale(self) -> None:
        """A change was told: what was made before it is old."""
        self._has_changed = True

    async def fresh(self) -> TrunkTexts:
        """The last one, or if something has changed since the next one."""
        self._take()
        wait = self._due - time.monotonic()
        if wait > 0 and self._has_changed:
            await asyncio.sleep(wait)
            self._take()
        if self._last is None or time.monotonic() >= self._due:
            self._has_changed, self._due = False, time.monotonic() + EVERY
            status, sockets = self._status(), sockets_of(self._lines)
            rows = (replace(row, socket=sockets.get(row.line.circuit)) for row in status.circuits)
            self._last = TrunkTexts(replace(status, circuits=(*rows,)), self._notes)
        return self._last


class TrunkServer(WebServer):
    """Who asks for a trunk's pages, which are at this host. `picture` are the words of the command that draws its last
    seconds, if that is wanted."""

    def __init__(self, fresh: Callable[[], Awaitable[TrunkTexts]], host: str, picture: list[str]) -> None:
        super().__init__(fresh)
        self._texts, self._readers = fresh, EventReaders(fresh)
        self._slow = {'/trunks': SlowPage(lambda: trunks_of(host))}
        if picture:
            self._slow['/picture'] = SlowPage(functools.partial(picture_of, picture))
        self.others = *self._slow, '/events'

    def stream_of(self, request: PageRequest) -> Stream | None:
        return self._readers.read if (request.method, request.path) == (b'GET', '/events') else None

    async def page(self, request: PageRequest) -> PageAnswer:
        if slow := self._slow.get(request.path):
            made = (await slow.fresh()).replace(HOST.encode(), request.host.encode())
            return PageAnswer(made, 'text/html', DRAWING) if made else \
                PageAnswer(b'it cannot be made\n', status='503 Service Unavailable')
        if request.path == '/' and request.is_of_browser:
            now = await self._texts()
            return PageAnswer(page_of(f'trunk {now.status.name}', now.parts, [*self._slow]), 'text/html', POLICY)
        return await super().page(request)


class EventReaders:
    """Who reads events: each second what has changed of the page, the same octets for all. Who takes too little is
    closed, and the oldest for one too many."""

    def __init__(self, fresh: Callable[[], Awaitable[TrunkTexts]]) -> None:
        self._fresh, self._writers = fresh, dict[asyncio.StreamWriter, None]()
        self._last: Parts = {}
        self._telling: asyncio.Task[None] | None = None

    async def read(self, reader: asyncio.StreamReader, writer: asyncio.StreamWriter) -> None:
        """Tells one all of the page, and then the changes, until it goes or says something."""
        if len(self._writers) >= MOST_READERS:
            del self._writers[oldest := next(iter(self._writers))]
            oldest.transport.abort()
        writer.get_extra_info('socket').setsockopt(socket.SOL_SOCKET, socket.SO_SNDBUF, MOST_HELD)
        if not self._writers:
            self._last = (await self._fresh()).parts
        self._writers[writer] = None
        self._telling = self._telling or asyncio.create_task(self._send_changes())
        writer.write(f'{PageAnswer(b"", "text/event-stream").head()}\r\n'.encode() + message_of(self._last))
        try:
            await reader.read(1)
        finally:
            self._writers.pop(writer, None)

    async def _send_changes(self) -> None:
        try:
            while self._writers:
                await asyncio.sleep(TOLD)
                before, self._last = self._last, (await self._fresh()).parts
                text = message_of({name: rows for name, rows in self._last.items() if before.get(name) != rows})
                for n, writer in enumerate([*self._writers]):
                    writer.write(text)
                    if writer.transport.get_write_buffer_size() > MOST_HELD:
                        writer.transport.abort()
                    if n % AT_ONCE == 0:
                        await asyncio.sleep(0)
        finally:
            self._telling = None
            for writer in self._writers:    # (none, unless this has failed)
                writer.transport.abort()


class SlowPage:
    """A page that takes a while to make: one is made at a time, however many ask."""

    def __init__(self, make: Callable[[], Awaitable[bytes | None]]) -> None:
        self._make, self._made, self._until = make, b'', 0.0
        self._making: asyncio.Task[None] | None = None
        self._began = 0.0

    async def fresh(self) -> bytes:
        """The page; nothing if it cannot be made. Who has waited for some seconds gets the last one, or one that says
        for how long it has been in the making."""
        if not self._making and time.monotonic() >= self._until:
            self._making, self._began = asyncio.create_task(self._work()), time.monotonic()
        if self._making:
            await asyncio.wait([self._making], timeout=WAITED)
        if self._made.endswith(WHOLE):
            return self._made
        return waiting_page(time.monotonic() - self._began, DRAWN) if self._making else b''

    async def _work(self) -> None:
        try:
            made = await self._make()
            self._made = self._made if made is None else made
        except OSError:
            self._made = b''
        finally:
            self._making, self._until = None, time.monotonic() + FRESH


async def picture_of(words: list[str]) -> bytes | None:
    """What a process behind the calls draws by the command with these words; None if it takes too long."""
    command = python_words('e1gw_picture.main', *words)
    process = await start_process(command[0], command)
    put_behind(process.pid, NICE)
    status, _, drawn = await run_process(process, b'', DRAWN)
    return None if status is None else drawn


async def trunks_of(host: str) -> bytes:
    """The page of all trunks of this machine, each of which has some time to answer."""
    return await asyncio.to_thread(lambda: trunks_page(asked_trunks(PATIENCE), host))
