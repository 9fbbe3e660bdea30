"""A status over HTTP: its table, its JSON and its metrics, each made once a status, one request a connection."""
from __future__ import annotations

import asyncio
import functools
import json
import re
import socket
from collections.abc import Awaitable, Callable
from dataclasses import dataclass
from typing import Generic, TypeVar

from .faults import named
from .plain import plain_of

SECONDS, MOST_VISITORS = 10.0, 64   # for one request, and who may ask at once
MOST_REQUEST = 8192                 # octets of it, to the line that is empty
HEAD = ('HTTP/1.0 {status}\r\nContent-Type: {kind}; charset=utf-8\r\nContent-Security-Policy: {policy}\r\n'
        'X-Content-Type-Options: nosniff\r\nCache-Control: no-store\r\nConnection: close\r\n')
NOTHING = "default-src 'none'"      # what a page may load

S = TypeVar('S')
Stream = Callable[[asyncio.StreamReader, asyncio.StreamWriter], Awaitable[None]]


class StatusTexts(Generic[S]):
    """A status, and the texts of it, each made once."""

    def __init__(self, status: S, table_of: Callable[[S], str], metrics_of: Callable[[S], str]) -> None:
        self.status, self._table_of, self._metrics_of = status, table_of, metrics_of

    @functools.cached_property
    def json(self) -> str:
        return json.dumps(plain_of(self.status))

    @functools.cached_property
    def table(self) -> str:
        return self._table_of(self.status)

    @functools.cached_property
    def metrics(self) -> str:
        return self._metrics_of(self.status)


@dataclass(frozen=True)
class PageRequest:
    """What somebody asks for, at which host as he sees it; it is of a browser if it names HTML as what it accepts."""

    method: bytes
    path: str
    host: str
    is_of_browser: bool

    @classmethod
    def parse(cls, head: bytes) -> PageRequest:
        """That of the head of a request. ValueError if it is none."""
        method, target = head.split(b' ', 2)[:2]
        accepted = b','.join(re.findall(rb'(?im)^accept:(.*?)\r?$', head)).lower().split(b',')
        wanted = [words[1:] for each in accepted if (words := b''.join(each.split()).split(b';'))[0] == b'text/html']
        host = re.search(rb'(?im)^host:[ \t]*([\w.-]+|\[[\da-f:.]+\])(?::\d+)?[ \t]*\r?$', head)
        path = target.partition(b'?')[0].decode(errors='replace')
        return cls(method, path, host[1].decode() if host else 'localhost',
                   any(not re.fullmatch(rb'q=0(\.0*)?', words[0] if words else b'') for words in wanted))


@dataclass(frozen=True)
class PageAnswer:
    """A page: its octets, their kind, what it may load, and the status."""

    body: bytes
    kind: str = 'text/plain'
    policy: str = NOTHING
    status: str = '200 OK'

    def head(self) -> str:
        return HEAD.format(status=self.status, kind=self.kind, policy=self.policy)

    def encode(self, is_whole: bool) -> bytes:
        return f'{self.head()}Content-Length: {len(self.body)}\r\n\r\n'.encode() + self.body * is_whole


def web_listener(host: str, port: int) -> socket.socket:
    """Where pages are asked for. OSError says what is refused."""
    try:
        return socket.create_server((host, port), family=socket.AF_INET6 if ':' in host else socket.AF_INET)
    except OSError as fault:
        raise named(fault, f'--http {host}:{port}') from None


class WebServer:
    """Who asks for pages: one request a connection; the oldest goes for one too many. `fresh` has the texts of now."""

    others: tuple[str, ...] = ()        # paths beside those of the status

    def __init__(self, fresh: Callable[[], Awaitable[StatusTexts[S]]]) -> None:
        self._fresh, self._visitors = fresh, dict[asyncio.Task[None], None]()

    async def on_connect(self, reader: asyncio.StreamReader, writer: asyncio.StreamWriter) -> None:
        """A visitor has connected."""
        task = asyncio.current_task()
        assert task
        if len(self._visitors) >= MOST_VISITORS:
            next(iter(self._visitors)).cancel()
        self._visitors[task] = None
        try:
            async with asyncio.timeout(SECONDS):
                request = PageRequest.parse(await reader.readuntil(b'\r\n\r\n'))
                stream = self.stream_of(request)
                if not stream:
                    writer.write((await self._answer(request)).encode(request.method != b'HEAD'))
                    await writer.drain()
            if stream:
                del self._visitors[task]
                await stream(reader, writer)
        except (OSError, TimeoutError, ValueError, asyncio.CancelledError, asyncio.IncompleteReadError,
                asyncio.LimitOverrunError):
            pass                # (it goes, or has sent no request)
        finally:
            self._visitors.pop(task, None)
            writer.close()

    def stream_of(self, request: PageRequest) -> Stream | None:
        """What goes on with a connection in place of an answer."""
        return None

    async def _answer(self, request: PageRequest) -> PageAnswer:
        if request.method not in (b'GET', b'HEAD'):
            return PageAnswer(b'there are GET and HEAD\n', status='405 Method Not Allowed')
        return await self.page(request)

    async def page(self, request: PageRequest) -> PageAnswer:
        """The page that somebody asks for."""
        now = await self._fresh()
        match request.path:
            case '/':
                return PageAnswer(now.table.encode())
            case '/metrics':
                return PageAnswer(now.metrics.encode(), 'text/plain; version=0.0.4')
            case '/status':
                return PageAnswer(f'{now.json}\n'.encode(), 'application/json')
        there = ', '.join(('/', '/metrics', '/status', *self.others))
        return PageAnswer(f'there are {there}\n'.encode(), status='404 Not Found')
