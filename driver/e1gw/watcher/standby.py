"""The standby of a trunk: it writes what the other machine feeds into a log of its own, from which the next program
begins here. It opens no port, and sends nothing but up to when it has all. It keeps what it knows until another feed
has caught up: that is in FOLDER/fed, from where the holder takes it.

Each watcher is fed anew: only who was there knows how the clocks differ."""
from __future__ import annotations

import asyncio
import fcntl
import glob
import logging
import math
import os
import shutil
import tempfile
import time
from contextlib import closing, suppress
from typing import TYPE_CHECKING, Callable, Sequence

from e1gw_common.faults import words_of_fault
from e1gw_common.session import CIRCUITS, MULTIFRAME, OCTETS_A_SECOND, trunk_record, whole_records
from e1gw_common.tls import context_of
from ..events import Fed, NotFed, Tell
from .feed import (BACK, BLOCKS, CARRIES, END, FRESH, GO, LENGTH, MARK, MOST_HEAD, MOST_PIECE, NOTHING, PATIENCE,
                   PIECE, STATE, TAKES, YOURS, FeedHead, FeedRefused, configured, head_of)
from ..log_folder import LOCK, RECORDS_ROOM, STATE_ROOM, LogFiles, LogPair, LogWriter, NoRoom
from .replay import ReplayVersion

if TYPE_CHECKING:
    from .held import HeldTrunk

AGAIN, MOST_AGAIN = 0.1, 1.0            # seconds between two tries to be fed
SAYS = 0.05                 # seconds between two words of what it has
DRIFT = 1e-4                # by which the clocks of two machines differ at most, in seconds a second
MOST_AGE = 60.0             # seconds after which a state is of no use
ONES = trunk_record(b'\xff' * MULTIFRAME)
MANY = RECORDS_ROOM // 4 // len(ONES)   # of them that are put at once
FED = 'fed-'                # how folders begin of what is fed and has not caught up
AT_FDCWD, RENAME_EXCHANGE = -100, 2      # of renameat2(2): paths of this process; both are exchanged
NO_TRUNK = 'it carries no trunk, or this address is not its --fed-from'
NOTHING_KNOWN = 'nothing is known'
NO_CERTIFICATE = 'it refuses the certificate of this machine'

logger = logging.getLogger(__name__)


class FedLog:
    """The log of the other machine, as far as it is here: a state, and whole records behind it, in a folder of its
    own."""

    def __init__(self, within: str, place: int, octets: int, numbers: tuple[int, int] = (0, 0), pid: int = 0) -> None:
        """`octets` is the octet of the trunk at this place; `numbers` see FeedHead: of octet 0, and of octets."""
        self.folder = tempfile.mkdtemp(prefix=FED, dir=within)
        self.place, self.octets, self.numbers, self.pid, self._cut, self._has_trunk = \
            place, octets, numbers, pid, b'', False
        self._is, self._lock = os.stat(self.folder), -1
        self._writer = LogWriter(self.folder)
        self.lock()
        self.came = self._took = time.monotonic()       # when the machine that it is of had octets of the trunk last
        self.fresh = self.came - FRESH          # of when it had all that the other log had
        self._ahead = math.inf                  # seconds by which this clock is ahead of the other one
        self._began = math.inf                  # when the trunk's octet 0 would have come
        self.circuits = list[int]()             # that are configured otherwise at the other machine

    def lock(self) -> None:
        """This process may write to it: who takes it meanwhile copies it. OSError if somebody has taken it."""
        if self._lock < 0:
            self._lock = os.open(os.path.join(self.folder, LOCK), os.O_RDWR | os.O_CREAT | os.O_CLOEXEC, 0o640)
            fcntl.flock(self._lock, fcntl.LOCK_EX | fcntl.LOCK_NB)

    def unlock(self) -> None:
        """It writes no more."""
        if self._lock >= 0:
            os.close(self._lock)
            self._lock = -1

    def begin(self, state: bytes, records: bytes = b'') -> None:
        """A state behind all that was taken, and records behind that."""
        self._writer.begin(self.place, state, records)
        self._count_octets(records)

    def take(self, piece: bytes) -> None:
        """A piece of the log. NoRoom if it has too many records behind a state."""
        octets = self._cut + piece
        whole = whole_records(octets)[0]
        self._cut = octets[whole:]
        self._append(octets[:whole])

    def _append(self, records: bytes) -> None:
        self._writer.append(records)
        self._count_octets(records)

    def _count_octets(self, records: bytes) -> None:
        trunk = whole_records(records)[1]
        self.place, self.octets = self.place + len(records), self.octets + trunk
        self._has_trunk |= trunk > 0

    def mark_complete(self, at: float) -> None:
        """What was taken was all that the log had at that time of the other clock. A word of that may wait here, and
        the one that waited least tells how the clocks differ. So it does of octets, which wait for that word: the last
        of them came behind the word before."""
        now, before = time.monotonic(), self.fresh
        drift, self._took = DRIFT * (now - self._took), now
        self._ahead = min(now - at, self._ahead + drift)
        self.fresh = at + self._ahead
        if self._has_trunk:
            came = self.octets / OCTETS_A_SECOND
            self._began = min(self.fresh - came, self._began + drift)
            self.came, self._has_trunk = min(self.fresh, max(before, self._began + came)), False

    def missing_octets(self) -> int:
        """How many octets of ones stand for the time since octets came, as if the trunk had given them: timers,
        timestamps and jitter buffers go on."""
        count = round(min(time.monotonic() - self.came, MOST_AGE) * OCTETS_A_SECOND / MULTIFRAME)
        self.came += count * MULTIFRAME / OCTETS_A_SECOND
        return count * MULTIFRAME

    async def fill(self, version: ReplayVersion) -> int:
        """Puts them into the log. Returns how many. OSError if there is no room for them."""
        count = self.missing_octets()
        left = count // MULTIFRAME
        while left:
            many = min(left, MANY)
            try:
                self._append(ONES * many)
                left -= many
            except NoRoom:
                await self._checkpoint(version)
        return count

    async def _checkpoint(self, version: ReplayVersion) -> None:
        """Another state, behind all records."""
        saved = os.path.join(self.folder, 'saved')
        status, said, _ = await version.run(['replay', '--save', saved], self.last())
        if status:
            raise OSError(0, f'the records of the other machine are not taken: {said.strip()}')
        with open(saved, 'rb') as file:
            self.begin(file.read())
        os.unlink(saved)

    def last(self) -> LogPair | None:
        """What it has."""
        with closing(LogFiles(self.folder)) as files:
            return files.last()

    def next_packet_number(self) -> int | None:
        """That of the next packet, of a trunk that has packets."""
        zero, size = self.numbers
        return zero + self.octets // size & 0xffff if size else None

    def move_to(self, folder: str) -> None:
        """It is in this folder from now on, in place of what that has. That is one step: a holder that takes the trunk
        meanwhile finds one of the two, and so does the next watcher if this one dies."""
        before, self.folder = self.folder, folder
        try:
            exchange_folders(before, folder)
        except FileNotFoundError:           # (there is none yet, or the holder has taken it)
            os.rename(before, folder)
        except OSError:                     # (some file systems cannot: there it is two steps)
            os.rename(folder, aside := tempfile.mkdtemp(prefix=FED, dir=os.path.dirname(folder)))
            os.rename(before, folder)
            before = aside
        shutil.rmtree(before, ignore_errors=True)

    def close(self) -> None:
        """It is known no more. (The holder may have taken it, and another one may be in its place.)"""
        self._writer.close()
        self.unlock()
        with suppress(OSError):
            if os.path.samestat(os.stat(self.folder), self._is):
                shutil.rmtree(self.folder, ignore_errors=True)


def exchange_folders(one: str, other: str) -> None:
    """Gives each of two folders the name of the other one, by one call of renameat2(2), which Python does not have.
    FileNotFoundError if one is not there, another OSError if the file system cannot."""
    import ctypes                       # (a trunk that stands by alone needs it, and the start of others is faster)
    libc = ctypes.CDLL(None, use_errno=True)
    if libc.renameat2(AT_FDCWD, os.fsencode(one), AT_FDCWD, os.fsencode(other), RENAME_EXCHANGE):
        number = ctypes.get_errno()
        raise OSError(number, os.strerror(number), other)


async def last_word(reader: asyncio.StreamReader) -> int:
    """What the other machine says behind all that it feeds; END if it leaves."""
    with suppress(OSError, EOFError):
        return int(PIECE.unpack(await reader.readexactly(PIECE.size))[1])
    return END


class TrunkStandby:
    """Is fed by the other machine, at this place of it, over TLS if there are files for that. `source` is the address
    from which it connects; `tell` reports who feeds it."""

    def __init__(self, place: tuple[str, int], source: str, tls: Sequence[str], trunk: HeldTrunk, tell: Tell) -> None:
        self._place, self._source, self._tls, self._trunk = place, source, tls, trunk
        self._folder, self._tell, self._by = trunk.places().folder, tell, f'{place[0]}:{place[1]}'
        self.on_handover: Callable[[bool], None] = lambda takes: None    # this machine carries the trunk, or no more
        self.carries: Callable[[], bool] = lambda: False        # whether it does
        self.blocks: Callable[[list[int]], None] = lambda circuits: None    # the operator has blocked these there
        self._taking: asyncio.Task[None] | None = None          # what says so to the other machine
        for left in glob.glob(os.path.join(glob.escape(self._folder), f'{FED}*')):     # (of a watcher before it)
            shutil.rmtree(left, ignore_errors=True)
        self.fed: FedLog | None = None
        self.why = ''           # why nothing feeds it
        self._wait = AGAIN

    def age(self) -> float | None:
        """How many seconds ago what it has was all; None if it has nothing."""
        return time.monotonic() - self.fed.fresh if self.fed else None

    def last(self) -> LogPair | None:
        """What it knows of the log, if that is anything."""
        return self.fed.last() if self.fed else None

    async def run(self) -> None:
        """Until it is cancelled. Whatever fails is begun again; why is reported once, however often it is tried."""
        while True:
            try:
                await self._receive_feed()
            except Exception as fault:      # pylint: disable=broad-exception-caught
                before, self.why = self.why, 'the feed has ended' if isinstance(fault, EOFError) else \
                    words_of_fault(fault) or f'nothing comes for {PATIENCE:g} s'
                if self.why != before:
                    self._tell(NotFed(self._by, self.why))
            await asyncio.sleep(self._wait)
            self._wait = min(MOST_AGAIN, 2 * self._wait)

    async def _receive_feed(self) -> None:
        """Takes a state, and what is logged behind it, to the end. FeedRefused if it is no feed of this trunk."""
        try:
            async with asyncio.timeout(PATIENCE):
                reader, writer = await asyncio.open_connection(
                    *self._place, local_addr=(self._source, 0), limit=MOST_HEAD, ssl=context_of(self._tls, False))
        except ConnectionResetError:
            raise FeedRefused(NO_TRUNK) from None
        fed = None
        try:
            async with asyncio.timeout(PATIENCE):
                fed = await self._receive_start(reader)
            await self._receive_pieces(fed, reader, writer)
        finally:
            if not (self._taking and not self._taking.done()):      # (which closes it)
                writer.close()
            if fed and fed is not self.fed:
                fed.close()

    async def _receive_start(self, reader: asyncio.StreamReader) -> FedLog:
        """The head, and the state."""
        if not (line := await reader.readline()):       # (TLS shows this machine's certificate last)
            raise FeedRefused(NO_CERTIFICATE if self._tls else NO_TRUNK)
        if line == NOTHING:
            raise FeedRefused(NO_TRUNK)
        head = head_of(line)
        circuits = self._changed_circuits(head)
        state = await reader.readexactly(head.state)
        fed = FedLog(self._folder, head.place, head.octets, (head.zero, head.size), head.program)
        fed.begin(state)
        fed.circuits = circuits
        return fed

    def _changed_circuits(self, head: FeedHead) -> list[int]:
        """The circuits that are configured otherwise there. FeedRefused if the law is another one."""
        law, circuits = configured(self._trunk.config_path())
        if law != head.law:
            raise FeedRefused(f'its law is {head.law[:20]}, and here it is {law}')
        return [n for n in CIRCUITS if circuits.get(str(n)) != head.circuits.get(str(n))]

    async def _receive_pieces(self, fed: FedLog, reader: asyncio.StreamReader, writer: asyncio.StreamWriter) -> None:
        """Takes pieces of the log, to its end, and says now and then up to when it has all."""
        said = 0.0
        while True:
            async with asyncio.timeout(PATIENCE):
                at, length = PIECE.unpack(await reader.readexactly(PIECE.size))
                if length > MOST_PIECE or not math.isfinite(at):
                    raise FeedRefused('a piece of the feed is too long, or has no time')
                if length == STATE:
                    fed.begin(await self._receive_state(reader))
                    continue
                if length == BLOCKS:
                    bits, = LENGTH.unpack(await reader.readexactly(LENGTH.size))
                    self.blocks([n for n in CIRCUITS if bits >> n & 1])
                    continue
                fed.take(await reader.readexactly(max(0, length)))
            if at:
                fed.mark_complete(at)
                if fed is not self.fed:
                    self._replace_known(fed)
            if length == YOURS and fed is self.fed:
                writer.write(MARK.pack(TAKES))
                continue
            if length == GO:
                self._taking = asyncio.create_task(self._announce_takeover(reader, writer))
                self.on_handover(True)
            if length < 0:
                raise EOFError
            if at > said + SAYS:
                writer.write(MARK.pack(at))
                said = at

    async def _receive_state(self, reader: asyncio.StreamReader) -> bytes:
        length, = LENGTH.unpack(await reader.readexactly(LENGTH.size))
        if length > STATE_ROOM:
            raise FeedRefused('a state of the feed is too long')
        return await reader.readexactly(length)

    async def _announce_takeover(self, reader: asyncio.StreamReader, writer: asyncio.StreamWriter) -> None:
        """Says that this machine takes the trunk until it carries it. It is given back if that lasts too long, or the
        other machine has taken it back, while this one stood still."""
        until, last = time.monotonic() + PATIENCE, asyncio.ensure_future(last_word(reader))
        carries = is_over = False
        while not (carries or is_over):
            writer.write(MARK.pack(TAKES))
            await asyncio.sleep(SAYS)
            is_over = time.monotonic() >= until or writer.is_closing() or last.done() and last.result() == BACK
            carries = self.carries() and not is_over
        if carries:
            writer.write(MARK.pack(CARRIES))
        else:
            self.on_handover(False)
        last.cancel()
        writer.close()

    def _replace_known(self, fed: FedLog) -> None:
        """A feed has given all that there is: it takes the place of what was known before."""
        self.publish(fed)
        self.why, self._wait = '', AGAIN
        if fed.circuits:
            logger.warning('the other machine has another configuration: the calls of circuits %s will not go on here',
                           ', '.join(map(str, fed.circuits)))
        self._tell(Fed(self._by, fed.pid))

    def publish(self, fed: FedLog | None) -> None:
        """This is what it knows from now on, and the holder finds."""
        if fed:
            fed.move_to(self._trunk.places().fed)
        before, self.fed = self.fed, fed
        if before:
            before.close()

    async def fill(self) -> str:
        """What it knows gets ones for the time since octets came. It forgets what is too old. Says what there is."""
        fed = self.fed
        if not fed:
            return 'what was fed to a watcher before' if os.path.exists(self._trunk.places().fed) else NOTHING_KNOWN
        if (age := time.monotonic() - max(fed.came, fed.fresh)) > MOST_AGE:
            self.publish(None)
            return f'what is known is {age:.0f} s old'
        try:
            fed.lock()
            with self._trunk.version() as version:
                count = await fed.fill(version)
        except OSError as fault:            # (the calls go on without them)
            return f'behind octet {fed.octets}, without ones: {words_of_fault(fault)}'
        return f'behind octet {fed.octets}, {count} of them ones'
