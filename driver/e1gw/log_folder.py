"""The folder of a program's log: two pairs of a state and of the records behind it, which the program writes in turn.
Whoever reads them is never waited for, and knows whether what he has read was written over meanwhile."""
from __future__ import annotations

import functools
import os
import struct
import zlib
from contextlib import suppress
from dataclasses import dataclass
from typing import Mapping

from e1gw_common.writers import write_at

STATES, RECORDS, LOCK = ('state.0', 'state.1'), ('records.0', 'records.1'), 'lock'
STATE_ROOM, RECORDS_ROOM = 256 << 10, 8 << 20           # octets of the files
HEAD, SUM = struct.Struct('>4sQII'), struct.Struct('>I')    # mark, turn, length, sum of the octets; sum of the head
HEAD_LEN = HEAD.size + SUM.size
PLACED = struct.Struct('>4sQ')                          # before a state: mark, place
AREA_MARK, STATE_MARK = b'E1GL', b'E1GC'
HELD = 'log-'               # how the names of descriptors begin that are held for the next service
NEW = bytes(HEAD_LEN)                                   # of a file that was not written yet


class NoRoom(Exception):
    """Octets for which a file of a log has no room."""


@dataclass(frozen=True)
class Head:
    """The head of a file: in which turn it was written, and what its octets are."""

    turn: int
    length: int
    sum: int

    def spell(self) -> bytes:
        octets = HEAD.pack(AREA_MARK, self.turn, self.length, self.sum)
        return octets + SUM.pack(zlib.adler32(octets))


@functools.lru_cache(4)         # (a reader finds the same ones again and again)
def head_of(octets: bytes) -> Head | None:
    """The head that octets are; None if they are none that is whole."""
    if len(octets) < HEAD_LEN or zlib.adler32(octets[:HEAD.size]) != SUM.unpack_from(octets, HEAD.size)[0]:
        return None
    mark, turn, length, total = HEAD.unpack_from(octets)
    return Head(turn, length, total) if mark == AREA_MARK else None


@dataclass(frozen=True)
class LogState:
    """A state of the gateway, and its place: how many octets of records the log took before it."""

    turn: int
    place: int
    state: bytes


@dataclass(frozen=True)
class LogPair(LogState):
    """A state, and the octets of records behind it."""

    records: bytes

    @property
    def end(self) -> int:
        """The place behind the records."""
        return self.place + len(self.records)


def state_in(turn: int, octets: bytes) -> LogState | None:
    """The state that the octets of a file are; None if they are none."""
    if len(octets) < PLACED.size:
        return None
    mark, place = PLACED.unpack_from(octets)
    return LogState(turn, place, octets[PLACED.size:]) if mark == STATE_MARK else None


class LogFiles:
    """The four files of a folder, held open: they can be read when the folder is gone, too."""

    def __init__(self, folder: str) -> None:
        """OSError if one of them is not there."""
        self._files = dict[str, int]()
        try:
            for name in (*STATES, *RECORDS):
                self._files[name] = os.open(os.path.join(folder, name), os.O_RDONLY | os.O_CLOEXEC)
        except OSError:
            self.close()
            raise

    @classmethod
    def held(cls, files: Mapping[str, int]) -> LogFiles:
        """Those that a watcher before this one has held, by their names. KeyError if one of them is not there."""
        its = cls.__new__(cls)
        its._files = {name: files[HELD + name] for name in (*STATES, *RECORDS)}
        return its

    @property
    def files(self) -> dict[str, int]:
        """Their descriptors by names, for the next service."""
        return {HELD + name: file for name, file in self._files.items()}

    def close(self) -> None:
        while self._files:
            os.close(self._files.popitem()[1])

    def are_in(self, folder: str) -> bool:
        """Whether the folder has these files."""
        with suppress(OSError):
            return all(os.path.samestat(os.stat(os.path.join(folder, name)), os.fstat(file))
                       for name, file in self._files.items())
        return False

    def written(self, number: int) -> float:
        """When the records of a pair were written last, by the time of day."""
        return os.fstat(self._files[RECORDS[number]]).st_mtime

    def written_at(self, number: int) -> float:
        """When the state of a pair was written."""
        return os.fstat(self._files[STATES[number]]).st_mtime

    def head(self, name: str) -> Head | None:
        """The head of a file, if it is whole."""
        return head_of(os.pread(self._files[name], HEAD_LEN, 0))

    def octets(self, name: str, head: Head, start: int = 0) -> bytes | None:
        """The octets of a file from a start on, as this head has them; None if they were written over meanwhile. (A
        longer head of the same turn has these before others.)"""
        octets = os.pread(self._files[name], head.length - start, HEAD_LEN + start)
        now = self.head(name)
        is_same = now is not None and now.turn == head.turn and now.length >= head.length
        return octets if is_same and len(octets) == head.length - start else None

    def heads(self, number: int) -> Head | None:
        """The head of the records of a pair, if both files are of the same turn."""
        state, records = self.head(STATES[number]), self.head(RECORDS[number])
        return records if state and records and state.turn == records.turn else None

    def newest(self) -> int | None:
        """The number of the pair of the greater turn; None if there is none."""
        its = [(head.turn, number) for number in (0, 1) if (head := self.heads(number))]
        return max(its)[1] if its else None

    def state(self, number: int) -> LogState | None:
        """The state of a pair, if it is whole."""
        head = self.head(STATES[number])
        octets = self.octets(STATES[number], head) if head else None
        return state_in(head.turn, octets) if head and octets and zlib.adler32(octets) == head.sum else None

    def pair(self, number: int) -> LogPair | None:
        """A pair, if it is whole."""
        state, head = self.state(number), self.heads(number)
        octets = self.octets(RECORDS[number], head) if head else None
        if state and head and octets is not None and state.turn == head.turn and zlib.adler32(octets) == head.sum:
            return LogPair(state.turn, state.place, state.state, octets)
        return None

    def last(self) -> LogPair | None:
        """The newest pair that is whole."""
        first, second = map(self.pair, (0, 1))
        return second if second and not (first and first.turn > second.turn) else first


# ---- what is read, while the program writes ----

@dataclass(frozen=True)
class LogBegun:
    """The reading begins at a state. Before it this number of octets of records was missed, if one was read before;
    `is_anew` if that was of another log."""

    state: LogState
    missed: int
    is_anew: bool


@dataclass(frozen=True)
class LogPiece:
    """Whole records, at their place."""

    place: int
    octets: bytes


@dataclass(frozen=True)
class LogTurn:
    """The state behind all that was read."""

    state: LogState


LogNews = LogBegun | LogPiece | LogTurn


class FolderReader:
    """Reads a log while it is written. Who looks often enough sees all of it."""

    def __init__(self, files: LogFiles, place: int = -1) -> None:
        """`place` is up to where it was read before, if it was. `base` is that of the newest state."""
        self.files, self.place, self.base = files, place, 0
        self._turn, self.number = -1, 0     # of the pair that was read last

    def read_news(self) -> list[LogNews]:
        """What there is of news. Nothing while it is written over faster than it is read."""
        number, head = self._newest()
        if not head or head.turn < self._turn:      # (a head is written in this moment)
            return []
        if head.turn == self._turn:
            return self._read_more(number, head, self.base)
        state = self.files.state(number)
        if not state or state.turn != head.turn:
            return []
        found = self._rest(1 - number, state)
        if not state.place < self.place <= state.place + head.length:       # (else it was read before)
            found.append(self._at(state))
            self.place = state.place
        self._turn, self.number, self.base = state.turn, number, state.place
        return found + self._read_more(number, head, state.place)

    def _newest(self) -> tuple[int, Head | None]:
        """The number of the newest pair, and the head of its records. It is mostly the one that was read last: the
        head of the other one's state, which is written behind all else of that, is of an earlier turn."""
        other, head = self.files.head(STATES[1 - self.number]), self.files.head(RECORDS[self.number])
        if head and head.turn == self._turn and not (other and other.turn > self._turn):
            return self.number, head
        number = self.files.newest()
        return (number, self.files.heads(number)) if number is not None else (0, None)

    def is_overtaken(self) -> bool:
        """Whether what is to be read next is written over."""
        head = self._newest()[1]
        return head is not None and 0 <= self._turn < head.turn - 1

    def _at(self, state: LogState) -> LogNews:
        """How another state follows on what was read."""
        if self.place == state.place:
            return LogTurn(state)
        return LogBegun(state, max(0, state.place - self.place) if self.place >= 0 else 0, state.place < self.place)

    def _rest(self, number: int, state: LogState) -> list[LogNews]:
        """What the pair before a state has behind what was read; of one that was not read at all its state, too."""
        before = self.files.state(number) if 0 <= self.place < state.place else None
        head = self.files.heads(number) if before else None
        if not before or not head or not head.turn == before.turn < state.turn:     # (else it is written over)
            return []
        was, begun = self.place, [self._at(before)] if self.place < before.place else []
        self.place = max(was, before.place)
        if more := self._read_more(number, head, before.place):
            return begun + more
        self.place = was        # (it was written over meanwhile)
        return []

    def _read_more(self, number: int, head: Head, base: int) -> list[LogNews]:
        """The records of a pair, whose state is at `base`, behind what was read."""
        if not 0 <= self.place - base < head.length:
            return []
        octets = self.files.octets(RECORDS[number], head, self.place - base)
        if not octets:
            return []
        before, self.place = self.place, self.place + len(octets)
        return [LogPiece(before, octets)]


# ---- what is written: by who stands by for another machine, or begins with a state that was kept ----

class LogWriter:
    """A new log in a folder, which a program goes on from: a state at a place, and the records behind it."""

    def __init__(self, folder: str, turn: int = 0) -> None:
        """OSError if there is no room for its files, which are written whole now."""
        os.makedirs(folder, 0o700, exist_ok=True)
        self._files, self._turn, self._head = dict[str, int](), turn, Head(turn, 0, 1)
        try:
            for names, room in ((STATES, STATE_ROOM), (RECORDS, RECORDS_ROOM)):
                for name in names:
                    self._files[name] = file = os.open(
                        os.path.join(folder, name), os.O_RDWR | os.O_CREAT | os.O_CLOEXEC, 0o640)
                    write_at(file, bytes(room), 0)
        except OSError:
            self.close()
            raise

    def begin(self, place: int, state: bytes, records: bytes = b'') -> None:
        """A state, in the pair that was not written last, and records behind it. NoRoom if it is too long."""
        octets = PLACED.pack(STATE_MARK, place) + state
        if len(octets) > STATE_ROOM - HEAD_LEN or len(records) > RECORDS_ROOM - HEAD_LEN:
            raise NoRoom
        self._turn += 1
        self._write(STATES[self._turn % 2], Head(self._turn, len(octets), zlib.adler32(octets)), octets)
        self._head = Head(self._turn, len(records), zlib.adler32(records))
        self._write(RECORDS[self._turn % 2], self._head, records)

    def append(self, octets: bytes) -> None:
        """Records behind those that are there. NoRoom if there is none."""
        before = self._head
        if before.length + len(octets) > RECORDS_ROOM - HEAD_LEN:
            raise NoRoom
        self._head = Head(before.turn, before.length + len(octets), zlib.adler32(octets, before.sum))
        self._write(RECORDS[self._turn % 2], self._head, octets, before.length)

    def _write(self, name: str, head: Head, octets: bytes, start: int = 0) -> None:
        """Octets, and then the head that has them."""
        write_at(self._files[name], octets, HEAD_LEN + start)
        write_at(self._files[name], head.spell(), 0)

    def close(self) -> None:
        while self._files:
            os.close(self._files.popitem()[1])


def logged_by(folder: str) -> int:
    """The number of the program that has a log, or had it last; 0 if that is not known. (Nothing is locked here.)"""
    with suppress(OSError, ValueError), open(os.path.join(folder, LOCK), 'rb') as file:
        return int(file.readline(32))
    return 0
