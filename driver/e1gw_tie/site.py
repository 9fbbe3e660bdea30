"""The connection with the other site's tie: one at a time, with keepalives, and with TLS if asked for."""
from __future__ import annotations

import asyncio
import ipaddress
import os
import ssl
from collections import Counter
from typing import TYPE_CHECKING, Collection, Mapping, TypeVar

from e1gw_common.faults import words_of_fault
from .events import NoConnection
from .messages import MOST, BadMessage, Greeting, Message, encode_message, message_of

if TYPE_CHECKING:
    from .tie import Tie

ALIVE = 0.5                 # seconds between two keepalives
GONE = 2.0                  # seconds without one after which the connection is given up
AGAIN = 0.25                # seconds until a connection is retried
HANDSHAKE = 5.0             # seconds for a connection until it has greeted
STRANGERS = 64              # connections that have not greeted, and those that the system queues
MOST_WAITING = 1 << 20      # octets not yet taken by the other site
MINUTE, MOST_REASONS = 60.0, 10     # seconds in which a reason for no connection is reported once, and how many are
T = TypeVar('T')


class SiteRefused(Exception):
    """A refused connection; the words say why."""


def has_name(names: Collection[tuple[str, str]], name: str) -> bool:
    """Whether a certificate with these names has that of a host or its address."""
    try:
        wanted = ipaddress.ip_address(name)
        return wanted in [ipaddress.ip_address(text.strip()) for kind, text in names if kind == 'IP Address']
    except ValueError:
        return ('DNS', name.lower()) in [(kind, text.lower()) for kind, text in names]


class Reasons:
    """Which reasons for no connection are told: each once a minute, ten of them at most."""

    def __init__(self) -> None:
        self._told: dict[str, float] = {}       # when each was

    def is_told(self, why: str, now: float) -> bool:
        """Whether this one is told now."""
        self._told = {each: at for each, at in self._told.items() if now < at + MINUTE}
        if why in self._told or len(self._told) >= MOST_REASONS:
            return False
        self._told[why] = now
        return True


def one_too_many(strangers: Mapping[T, str], known: str) -> T | None:
    """Which stranger is closed for another one, if there are too many: the oldest of the address that has most, but of
    the known one only where there is no other."""
    crowd = Counter(strangers.values()) | {known: 0}
    return max(strangers, key=lambda each: crowd[strangers[each]]) if len(strangers) >= STRANGERS else None


class Site:
    """The other site."""

    def __init__(self, place: tuple[str, int], listens: bool, context: ssl.SSLContext | None, name: str | None,
                 tie: Tie) -> None:
        self.place, self.listens, self.context, self.name = place, listens, context, name
        self._tie, self._tell = tie, tie.put_report
        self._writer: asyncio.StreamWriter | None = None    # the present connection
        self._run = self._address = ''                      # the program at its other end; the address of the last one
        self._strangers: dict[asyncio.Task[None], str] = {}  # the address of each, the oldest first
        self._reasons = Reasons()

    def send(self, message: Message) -> None:
        """Sends to the other site if it is connected. A site that does not read is given up."""
        if self._writer is not None and not self._writer.is_closing():
            if self._writer.transport.get_write_buffer_size() > MOST_WAITING:
                self._writer.transport.abort()
            else:
                self._writer.write(encode_message(message))

    def close(self) -> None:
        """Closes all connections."""
        for task in self._strangers:
            task.cancel()
        if self._writer is not None:
            self._writer.transport.abort()

    def report_refusal(self, why: str) -> None:
        """Tells why nobody is connected."""
        if self._reasons.is_told(why, asyncio.get_running_loop().time()):
            self._tell(NoConnection(why))

    async def run(self) -> None:
        """Keeps the connection up for ever. OSError if it cannot listen at this place."""
        host, port = self.place
        if self.listens:
            await (await asyncio.start_server(self._accept, host, port, limit=MOST, backlog=STRANGERS)).serve_forever()
        name = (self.name or host) if self.context else None
        while True:
            try:
                async with asyncio.timeout(HANDSHAKE):
                    streams = await asyncio.open_connection(host, port, limit=MOST, ssl=self.context,
                                                            server_hostname=name)
                await self._run_connection(*streams)
            except ssl.SSLError as fault:
                self.report_refusal(str(fault))
            except OSError as fault:
                why = os.strerror(fault.errno) if fault.errno and fault.errno > 0 else fault.strerror or 'no answer'
                self.report_refusal(f'{host}:{port}: {why}')
            await asyncio.sleep(AGAIN)

    async def _accept(self, reader: asyncio.StreamReader, writer: asyncio.StreamWriter) -> None:
        """A connection that comes; another one is closed if it is one too many."""
        task = asyncio.current_task()
        assert task
        if last := one_too_many(self._strangers, self._address):
            last.cancel()
            del self._strangers[last]
            self.report_refusal('too many connections that have not greeted')
        self._strangers[task] = address_of(writer)
        try:
            await self._run_connection(reader, writer)
        except asyncio.CancelledError:
            pass                # (it is one too many)
        finally:
            self._strangers.pop(task, None)

    async def _run_connection(self, reader: asyncio.StreamReader, writer: asyncio.StreamWriter) -> None:
        """Runs a connection from start to end."""
        why = ''
        try:
            async with asyncio.timeout(HANDSHAKE):
                greeting = await self._exchange_greetings(reader, writer)
            self._take_connection(greeting, writer)
            while self._writer is writer:
                self._tie.on_message(await read_one(reader))
        except EOFError:
            pass
        except Exception as fault:      # pylint: disable=broad-exception-caught
            late = 'no keepalive' if self._writer is writer else 'it sends nothing'
            why = words_of_fault(fault) if str(fault) else late
        finally:
            if self._writer is writer:
                self._on_disconnect(why or 'closed')
            elif why:
                self.report_refusal(why)
            writer.transport.abort()

    async def _exchange_greetings(self, reader: asyncio.StreamReader, writer: asyncio.StreamWriter) -> Greeting:
        """Exchanges greetings."""
        if self.listens and self.context:
            # (Not by the server, so that those in the handshake are counted; and before an octet is read.)
            await writer.start_tls(self.context)
            if self.name and not has_name(names_of(writer), self.name):
                raise SiteRefused(f'its certificate is not that of {self.name}')
        writer.write(encode_message(self._tie.own_greeting))
        try:
            greeting = await read_one(reader)
        except EOFError:
            raise SiteRefused('it closed the connection') from None
        if not isinstance(greeting, Greeting):
            raise SiteRefused('it sends no greeting')
        return greeting

    def _take_connection(self, greeting: Greeting, writer: asyncio.StreamWriter) -> None:
        """Makes this the present connection; another one of the same run is dead and not yet closed."""
        if (task := asyncio.current_task()) in self._strangers:
            del self._strangers[task]
        if self._writer is not None:
            if self._run != greeting.run:
                raise SiteRefused('another one is connected')
            self._writer.transport.abort()
            self._on_disconnect('closed')
        self._writer, self._run, self._address, self._reasons = writer, greeting.run, address_of(writer), Reasons()
        self._tie.on_connect(greeting)
        self._send_keepalives(writer)

    def _on_disconnect(self, why: str) -> None:
        self._writer = None
        self._tie.on_disconnect(why)

    def _send_keepalives(self, writer: asyncio.StreamWriter) -> None:
        """Sends keepalives as long as this is the present connection."""
        if self._writer is writer:
            self.send(None)
            asyncio.get_running_loop().call_later(ALIVE, self._send_keepalives, writer)


def names_of(writer: asyncio.StreamWriter) -> Collection[tuple[str, str]]:
    """Those of the other end's certificate."""
    return tuple((writer.get_extra_info('peercert') or {}).get('subjectAltName', ()))


def address_of(writer: asyncio.StreamWriter) -> str:
    return str((writer.get_extra_info('peername') or ('',))[0])


async def read_one(reader: asyncio.StreamReader) -> Message:
    """The next message. EOFError at the end, TimeoutError if it is late, BadMessage if it is invalid."""
    async with asyncio.timeout(GONE):
        try:
            line = await reader.readline()
        except ValueError:
            raise BadMessage('a line is too long') from None
    if not line:
        raise EOFError
    return message_of(line)
