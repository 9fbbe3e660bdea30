"""What is kept of the trunk: a file, or a ring of files, copied from the log.

A thread writes, so no slow disk is waited for. What it has not written waits in memory; if that is more than
MOST_BEHIND octets, or it cannot be written, the recording ends with a line, and no call does. A service that follows
this one cuts the last file back to where this one has noted it, and goes on from there."""
from __future__ import annotations

import asyncio
import hashlib
import logging
import os
import stat
import threading
import time
from collections import deque
from contextlib import suppress
from dataclasses import dataclass
from typing import Callable

from e1gw_common.session import OCTETS_A_SECOND
from e1gw_common.session_files import FileAbout, FileStart
from e1gw_common.writers import open_to_append, write_all
from ..priority import put_behind
from ..recording_ring import RECORDS, Ring, seconds_of_file

MOST_BEHIND = 16 << 20      # octets that may wait to be written: half a minute of thirty calls
EVERY = 0.1                 # seconds between two looks of the thread
SOON = 0.005                # .. and between two of who waits for it
FLUSH = 5.0                 # seconds at the end for what is not copied yet
NICE = 10                   # of the thread
LEAST, TRIED = 32 << 20, 1 << 20    # octets that have to be free for a ring, and that are written to try it

logger = logging.getLogger(__name__)


@dataclass(frozen=True)
class RecordingWants:
    """What is kept: `session` is a file, or with `keep`, some seconds, the folder of a ring. `config_path` is the path
    of the configuration, for those who read it."""

    session: str
    keep: int | None
    name: str
    config_path: str
    wait: int                   # of a seizure, in milliseconds

    def is_long(self, octets: int) -> bool:
        """Whether a file is one of a ring, and has the octets of the trunk behind which the next one begins."""
        return self.keep is not None and octets >= seconds_of_file(self.keep) * OCTETS_A_SECOND


@dataclass(frozen=True)
class FileBegin:
    """Where another file begins: the octet of the trunk, the place of the log, and the state there, if it is no new
    gateway; the configuration of now; the time, by the monotonic clock, and the seconds of the trunk that are
    known to be lost before it."""

    octets: int
    place: int
    state: bytes
    config: bytes
    since: float
    lost: float


@dataclass(frozen=True)
class RecordingNote:
    """What the next service has to know of a recording: what it is, why it has ended, the files of a ring and their
    places, and of the last one the path, where it begins, and up to where it is written: the place of the log, that of
    the trunk, and its size."""

    session: str
    keep: int | None
    why: str
    own: tuple[tuple[str, int], ...]
    path: str
    begun: int
    place: int
    octets: int
    size: int


class TrunkRecording:
    """Writes what it is given, in its order. `note` has all of this noted for the next service; `left` is what the one
    before it has noted."""

    def __init__(self, wants: RecordingWants, note: Callable[[], None], left: RecordingNote | None) -> None:
        self.wants, self.why = wants, left.why if left else ''     # (why it has ended, if it has)
        self.ring = Ring(wants.session, wants.name, wants.keep, left.own if left else ()) if wants.keep else None
        self._path = left.path if left else ''
        self._written = (left.place, left.octets, left.size) if left else (0, 0, 0)
        self._waiting, self._octets = deque[FileBegin | tuple[bytes, int, int]](), 0
        self._slips = deque[tuple[int, float]]()
        self._note, self._loop = note, asyncio.get_running_loop()
        self._file = -1
        self._wakes, self._closes = threading.Event(), False
        self._thread = threading.Thread(target=self._run, name='recording', daemon=True)
        self._thread.start()

    def note(self, begun: int) -> RecordingNote:
        """What the next one has to know, with where the file of now begins."""
        place, octets, size = self._written
        return RecordingNote(self.wants.session, self.wants.keep, self.why, self.ring.own if self.ring else (),
                             self._path, begun, place, octets, size)

    def begin(self, begin: FileBegin) -> None:
        """Another file begins, behind what was put before."""
        self._waiting.append(begin)

    def record(self, octets: bytes, place: int, trunk: int) -> None:
        """Records, up to a place of the log and an octet of the trunk."""
        if self.why:
            return
        self._waiting.append((octets, place, trunk))
        self._octets += len(octets)
        if self._octets > MOST_BEHIND:
            self.end('it takes too little')

    def slip(self, place: int, seconds: float) -> None:
        """Octets of the trunk were lost at a place."""
        self._slips.append((place, seconds))

    def close(self) -> None:
        """Waits until all is written, FLUSH at most."""
        self._closes = True
        self._wakes.set()
        self._thread.join(FLUSH)

    async def wait_until_written(self, place: int, seconds: float) -> None:
        """Waits until all up to this place of the log is written, so long at most."""
        until = time.monotonic() + seconds
        while self._written[0] < place and not self.why and time.monotonic() < until:
            self._wakes.set()
            await asyncio.sleep(SOON)

    def is_over(self) -> bool:
        """Whether it has ended, and nothing is written any more."""
        return not self._thread.is_alive()

    def end(self, why: str) -> None:
        """It goes on no more, and the calls do."""
        if not self.why:
            self.why = f'{why}: {self.wants.session}'
            logger.warning('%s ended, the calls go on: %s', 'session', self.why)

    # ---- in the thread ----

    def _run(self) -> None:
        put_behind(threading.get_native_id(), NICE)
        is_last = False
        try:
            while not (is_last or self.why):
                self._wakes.wait(EVERY)
                self._wakes.clear()
                is_last = self._closes
                self._write()
        except Exception as fault:      # pylint: disable=broad-exception-caught
            self.end(getattr(fault, 'strerror', None) or f'{type(fault).__name__}: {fault}')
        self._waiting.clear()
        if self._file >= 0:
            os.close(self._file)
        if self.ring:
            self.ring.close()

    def _write(self) -> None:
        """Writes what waits."""
        while self._waiting and not self.why:
            each = self._waiting.popleft()
            if isinstance(each, FileBegin):
                self._begin(each)
                continue
            octets, place, trunk = each
            self._open()
            write_all(self._file, octets)
            self._octets -= len(octets)
            self._written = place, trunk, self._written[2] + len(octets)
        if self.ring and self._slips and self._file >= 0:
            self.ring.note(self._slips)

    def _begin(self, begin: FileBegin) -> None:
        """Another file."""
        if self._file >= 0 and self.ring:
            os.close(self._file)
            self._file = -1
        is_named = bool(self._path) and (not self.ring or not os.path.exists(f'{self._path}.json'))
        if not is_named:
            self._path = self.ring.next(begin.octets) if self.ring else self.wants.session
        self._written = begin.place, begin.octets, size_of(self.wants.session) if not self.ring else 0
        self._announce()
        if begin.lost:
            self._slips.appendleft((begin.octets, begin.lost))
        if self.ring:
            self.ring.begin(self._path, about_of(begin, self.wants), begin.state, begin.config)
        self._open()

    def _open(self) -> None:
        """Opens the file of now. One of the watcher before this one may have more than was noted."""
        path = self._path + RECORDS * bool(self.ring)
        if self._file >= 0:
            return
        if self.ring:
            self.ring.continue_file(self._path)
        if size_of(path) > self._written[2]:
            os.truncate(path, self._written[2])
        self._file = open_to_append(path)

    def _announce(self) -> None:
        """Waits until all is noted. So the next service knows of each file that is there."""
        noted = threading.Event()

        def note() -> None:
            try:
                self._note()
            finally:
                noted.set()
        self._loop.call_soon_threadsafe(note)
        noted.wait(FLUSH)


def about_of(begin: FileBegin, wants: RecordingWants) -> FileAbout:
    """What is said of a file."""
    day = time.time() - time.monotonic() + begin.since
    return FileAbout(wants.config_path, hashlib.sha256(begin.config).hexdigest(), round(day, 3), round(begin.since, 3),
                     begin.octets, wants.wait, FileStart.MIDDLE if begin.octets or begin.state else FileStart.START)


def size_of(file: int | str) -> int:
    """The octets of a file; 0 of what is no file, or not there."""
    with suppress(OSError):
        about = os.stat(file)
        return about.st_size if stat.S_ISREG(about.st_mode) else 0
    return 0


def has_room(folder: str) -> bool:
    """Whether a ring can be written in a folder. It may wait for the disk."""
    path = os.path.join(folder, 'room.new')
    try:
        os.makedirs(folder, mode=0o750, exist_ok=True)
        about = os.statvfs(folder)
        if about.f_bavail * about.f_frsize < LEAST:
            return False
        file = os.open(path, os.O_WRONLY | os.O_CREAT | os.O_TRUNC, 0o640)
        try:
            write_all(file, bytes(TRIED))
            os.fsync(file)
        finally:
            os.close(file)
            os.unlink(path)
    except OSError:
        return False
    return True
