"""What the standby at the other machine is fed: a head, a state, and the records behind it, in pieces, to the last one;
at each turn of the log another state. Nothing waits for a standby: one that lacks what the log has written over, or
says nothing for seconds, is dropped, connects again and gets another state, so it has no gap."""
from __future__ import annotations

import asyncio
import json
import logging
import ssl
import struct
import time
import tomllib
from contextlib import closing, suppress
from dataclasses import dataclass
from operator import itemgetter
from typing import TYPE_CHECKING, Any

from e1gw_common.faults import words_of_fault
from e1gw_common.tasks import Tasks
from ..log_folder import STATE_ROOM, FolderReader, LogBegun, LogFiles, LogPiece

if TYPE_CHECKING:
    from .held import HeldTrunk

FORMAT, VERSION = 'e1gw_feed', 8
PIECE = struct.Struct('>di')    # before a piece: when it was all that the log had, or 0, and how many octets follow
# In place of the latter: nothing follows; it may have the trunk; it is to carry it; another state follows; it is to
# carry it no more, since it was silent; the circuits that the operator has blocked follow, each a bit.
END, YOURS, GO, STATE, BACK, BLOCKS = -1, -2, -3, -4, -5, -6
LENGTH = struct.Struct('>I')    # octets of that state, or those bits
MARK = struct.Struct('>d')      # what a standby says: the time of the last piece, up to which it has all, or 0
TAKES, CARRIES = -1.0, -2.0     # in place of that: it takes the trunk, again and again until it carries it
NOTHING = b'no trunk\n'         # in place of a head, where there is none
MOST_HEAD, MOST_PIECE = 64 << 10, 256 << 10
TICK, HURRY = 0.01, 0.001   # seconds between two pieces, and of one who hands over: nobody carries the trunk
PULSE = 0.25                # seconds after which a piece without octets says that all goes on
FRESH = 2.0                 # seconds up to which a standby that has said nothing is fed
ANSWERS = 50                # ticks, each behind what has come meanwhile, in which a standby that is there says a word
PATIENCE = 10.0             # seconds for the other end to take or to say anything
ELSEWHERE = frozenset(('local_port', 'peer_port', 'peer_host'))     # keys that may differ at the other one

logger = logging.getLogger(__name__)


class FeedRefused(Exception):
    """Why a feed is not followed."""


def configured(path: str) -> tuple[str, dict[str, object]]:
    """The law of a configuration, and its circuits by their numbers, without what may differ elsewhere."""
    with open(path, 'rb') as file:
        tables = tomllib.load(file)
    circuits = sorted(tables.get('circuit', ()), key=itemgetter('number'))
    return tables.get('law', 'A'), {str(its['number']): {key: its[key] for key in its if key not in ELSEWHERE}
                                    for its in circuits}


@dataclass(frozen=True)
class FeedHead:
    """The head of a feed: the law and the circuits, the process number of the program, the place of the first state and
    the octet of the trunk there; of a trunk that has packets the number of the one with its octet 0, and how many
    octets each has, else 0; and the length of the state."""

    law: str
    circuits: dict[str, object]
    program: int
    place: int
    octets: int
    zero: int
    size: int
    state: int

    def spell(self) -> bytes:
        return json.dumps({FORMAT: VERSION, **vars(self)}).encode() + b'\n'


def head_of(line: bytes) -> FeedHead:
    """The head of a feed. FeedRefused if it is none of this version."""
    with suppress(ValueError, TypeError, KeyError, AttributeError, RecursionError):
        plain: dict[str, Any] = json.loads(line)
        if plain[FORMAT] != VERSION:
            raise FeedRefused(f'a feed of version {str(plain.pop(FORMAT))[:20]}, and this is {VERSION}')
        del plain[FORMAT]
        head = FeedHead(**plain)
        numbers = head.program, head.place, head.octets, head.zero, head.size, head.state
        if isinstance(head.law, str) and isinstance(head.circuits, dict) and all(
                type(n) is int and n >= 0 for n in numbers) and head.state <= STATE_ROOM:
            return head
    raise FeedRefused('what comes there is no feed of e1gw-watch')


class FeedServer:
    """Feeds the standby, which connects from one address, while this machine carries the trunk; over TLS if there is a
    context for that."""

    def __init__(self, peer: str, trunk: HeldTrunk, context: ssl.SSLContext | None = None) -> None:
        self._peer, self._trunk, self._context = peer, trunk, context
        self._said_blocks, self._tasks = -1, Tasks()            # which circuits are blocked, as it was said last
        self._writer: asyncio.StreamWriter | None = None        # to the standby that is fed
        self._said = self._fresh = 0.0          # when it has said something, and up to when it has all
        self.hands_over = False                 # at the end of the program
        self.is_carried = False                 # the standby has said that it carries the trunk that was handed over
        self._due = 0.0                         # when something is to be sent to it though nothing was logged

    def age(self) -> float | None:
        """How many seconds ago the standby had all that the log had; None if there is none."""
        return time.monotonic() - self._fresh if self._fresh else None

    async def is_up_to_date(self) -> bool:
        """Whether the standby says within a moment that it has all up to now."""
        since = time.monotonic()
        for _ in range(ANSWERS):
            if self._fresh >= since:
                return True
            self._due = 0.0
            await asyncio.sleep(TICK)
        return False

    async def finish(self, seconds: float) -> None:
        """Waits until the standby has the rest of what it is fed, so long at most."""
        until = time.monotonic() + seconds
        while self._writer and time.monotonic() < until:
            await asyncio.sleep(TICK)
        if self._writer:
            self._writer.transport.abort()

    def on_connect(self, reader: asyncio.StreamReader, writer: asyncio.StreamWriter) -> asyncio.Task[None]:
        """Somebody has connected."""
        return self._tasks.create(self._serve(reader, writer))

    async def _serve(self, reader: asyncio.StreamReader, writer: asyncio.StreamWriter) -> None:
        """It is the standby, in place of itself before, or a stranger."""
        address = str(writer.get_extra_info('peername')[0])
        if address != self._peer:
            logger.warning('feed: %s is not --fed-from, and is fed nothing', address, extra={'kind': 'stranger'})
            return writer.transport.abort()
        try:
            if self._context:       # (not by the server, where strangers would hold descriptors meanwhile)
                await writer.start_tls(self._context, ssl_handshake_timeout=PATIENCE)
            if not (program := self._trunk.carried_by()):
                return writer.write(NOTHING)
            if self._writer:
                self._writer.transport.abort()
            self._writer, self._said, self._fresh = writer, time.monotonic(), 0.0
            logger.info('a standby at %s is fed', address)
            await self._feed(program, reader, writer)
        except asyncio.CancelledError:
            writer.transport.abort()    # (the watcher ends)
        except Exception as fault:      # pylint: disable=broad-exception-caught
            logger.warning('feed of %s: %s', address, words_of_fault(fault), extra={'kind': 'feed'})
            writer.transport.abort()
        finally:
            writer.close()
            if self._writer is writer:
                self._writer, self._fresh = None, 0.0

    async def _feed(self, program: int, reader: asyncio.StreamReader, writer: asyncio.StreamWriter) -> None:
        """Until the program has ended, and the standby has all and leaves. EOFError if it leaves before."""
        leaves = asyncio.ensure_future(self._read_standby(reader))
        try:
            with closing(LogFiles(self._trunk.places().log)) as files:
                log = self._begin(program, files, writer)
                while not leaves.done() and (now := time.monotonic()) < self._said + PATIENCE:
                    has_ended = self._trunk.state.program != program
                    has_room = writer.transport.get_write_buffer_size() < MOST_PIECE
                    if has_room and not self._send_news(log, writer, now) and has_ended:
                        return await self._finish(writer, leaves)
                    if log.is_overtaken():
                        raise EOFError('it is too far behind')
                    await asyncio.wait([leaves], timeout=HURRY if self.hands_over else TICK)
            raise EOFError('the connection is gone' if leaves.done() else 'it takes nothing')
        finally:
            leaves.cancel()

    def _begin(self, program: int, files: LogFiles, writer: asyncio.StreamWriter) -> FolderReader:
        """The head, and the newest state. What is behind that is read by what is returned."""
        trunk, reader = self._trunk, self._trunk.reader
        reader.read()               # (so it has read no more than what the pair has)
        if not (pair := files.last()):
            raise EOFError('there is no log yet')
        law, circuits = configured(trunk.config_path())
        head = FeedHead(law, circuits, program, pair.place, reader.octets_at(pair), *trunk.numbers(), len(pair.state))
        writer.write(head.spell() + pair.state)
        self._due, self._said_blocks = 0.0, -1
        return FolderReader(files, pair.place)

    def _say_blocks(self, writer: asyncio.StreamWriter) -> None:
        """Which circuits the operator has blocked, if that is not said yet."""
        bits = sum(1 << n for n in self._trunk.blocks().now.circuits)
        if bits != self._said_blocks:
            writer.write(PIECE.pack(0.0, BLOCKS) + LENGTH.pack(bits))
            self._said_blocks = bits

    def _send_news(self, log: FolderReader, writer: asyncio.StreamWriter, now: float) -> bool:
        """Sends what the log has now; whether that is anything. EOFError if a part of it was written over."""
        self._say_blocks(writer)
        news = log.read_news()
        for each in news:
            if isinstance(each, LogBegun):
                raise EOFError('it is too far behind')
            if isinstance(each, LogPiece):
                for start in range(0, len(each.octets), MOST_PIECE):
                    piece = each.octets[start:start + MOST_PIECE]
                    writer.write(PIECE.pack(0.0, len(piece)) + piece)
            else:
                writer.write(PIECE.pack(0.0, STATE) + LENGTH.pack(len(each.state.state)) + each.state.state)
        if news or now >= self._due:
            writer.write(PIECE.pack(now, 0))
            self._due = now + PULSE
        return bool(news)

    async def _finish(self, writer: asyncio.StreamWriter, leaves: asyncio.Future[None]) -> None:
        """The program has ended, and all of its log is sent."""
        writer.write(PIECE.pack(time.monotonic(), YOURS if self.hands_over else END))
        if self.hands_over:
            return await self._wait_for_takeover(leaves)
        await asyncio.wait([leaves], timeout=PATIENCE)

    async def _wait_for_takeover(self, leaves: asyncio.Future[None]) -> None:
        """Until the standby carries the trunk, or has left, or is silent: it says each moment that it is about to."""
        left, said = ANSWERS, self._said
        while left and not (self.is_carried or leaves.done()):
            await asyncio.wait([leaves], timeout=TICK)
            left, said = ANSWERS if self._said > said else left - 1, self._said
        if self._writer and not self.is_carried:
            self._writer.write(PIECE.pack(0.0, BACK))

    async def _read_standby(self, reader: asyncio.StreamReader) -> None:
        """What the standby says, until it leaves. It begins when it was told to, so not if that is too late."""
        goes = False
        with suppress(OSError, EOFError):
            while True:
                at, = MARK.unpack(await reader.readexactly(MARK.size))
                self._said = time.monotonic()
                self.is_carried |= at == CARRIES
                if at == TAKES and not goes and self._writer:
                    self._writer.write(PIECE.pack(0.0, GO))
                    goes = True
                self._fresh = max(self._fresh, min(at, self._said))
