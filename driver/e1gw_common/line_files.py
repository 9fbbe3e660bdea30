"""Files of lines, as of events and of calls: appended to by a thread of their own, and followed by others."""
from __future__ import annotations

import logging
import logging.handlers
import os
import threading
from collections import deque
from contextlib import suppress
from dataclasses import dataclass
from io import TextIOWrapper
from itertools import takewhile
from typing import Callable, TextIO

from .writers import append_line, open_to_append, write_all

MOST_OCTETS = 10 << 20      # of a file, before it is FILE.1
KEPT = 9                    # FILE.1 to FILE.9
LAST = 1 << 20              # octets of it, which have the lines of seconds
MOST_WAITING = 20_000       # lines that wait to be written; more are not kept
AGAIN = 60.0                # seconds between two tries to write
FLUSH = 2.0                 # seconds at the end for what is not written yet


def files_of(path: str) -> list[str]:
    """A file that lines are appended to, and those that it has followed, the newest first."""
    return [path, *takewhile(os.path.exists, (f'{path}.{n}' for n in range(1, KEPT + 1)))]


def has_line(path: str, line: str) -> bool:
    """Whether a line is among the last ones of a file and the one that it has followed."""
    for each in (path, f'{path}.1'):
        with suppress(OSError), open(each, 'rb') as file:
            file.seek(-min(LAST, file.seek(0, os.SEEK_END)), os.SEEK_END)
            if f'{line}\n'.encode() in file.read():
                return True
    return False


class LineFile(logging.handlers.RotatingFileHandler):
    """A file that is appended to: ten files of 10 MiB are kept, each with its head. A new one has the mode 640; one
    that somebody has moved or removed, or that has other columns, is followed by another one. One that is opened again
    is not waited for."""

    def __init__(self, path: str, head: str, is_again: bool) -> None:
        self._head, self._is_again = head, is_again
        super().__init__(path, maxBytes=MOST_OCTETS, backupCount=KEPT)
        if self._is_of_another_version():
            self.doRollover()

    def _is_of_another_version(self) -> bool:
        """Whether the file has begun with other columns."""
        if not self._head or not os.path.isfile(self.baseFilename):
            return False
        with open(self.baseFilename, encoding='utf-8', errors='replace') as file:
            first = file.readline().rstrip('\n')
        return first != self._head and first.partition(',')[0] == self._head.partition(',')[0]

    def _open(self) -> TextIOWrapper:
        stream = open(open_to_append(self.baseFilename, not self._is_again), 'a', encoding='utf-8')
        if self._head and os.fstat(stream.fileno()).st_size == 0:
            append_line(stream.fileno(), self._head)
        return stream

    def append(self, line: str) -> None:
        """Appends a line, or nothing of it. OSError if it cannot be."""
        its = os.fstat(self.stream.fileno())
        if not (os.path.exists(self.baseFilename) and os.path.samestat(os.stat(self.baseFilename), its)):
            self.stream.close()
            self.stream = self._open()
        if self.shouldRollover(logging.makeLogRecord({'msg': line})):
            self.doRollover()
        append_line(self.stream.fileno(), line)


@dataclass(frozen=True)
class LineStream:
    """A stream that is open already."""

    stream: TextIO

    def append(self, line: str) -> None:
        """Writes a line. OSError if it cannot be."""
        write_all(self.stream.fileno(), f'{line}\n'.encode())

    def close(self) -> None:
        """It stays open."""


class EventFile:
    """A file, or a stream, of lines, opened and written by a thread of its own: nothing waits for it. A line waits
    until it is written: what has failed is tried again each minute. `stands(name, why)` is called in any thread with
    why it fails, and with None once it goes on."""

    def __init__(self, name: str, file: TextIO | str, stands: Callable[[str, str | None], None],
                 head: str = '') -> None:
        self._name, self._file, self._stands, self._head = name, file, stands, head
        self._why, self._opened = None, None    # type: str | None, LineFile | LineStream | None
        self.waiting = deque[str]()             # lines that may not be written yet
        self._changed, self._is_closing = threading.Condition(), False
        self._thread = threading.Thread(target=self._write, daemon=True)
        self._thread.start()

    def _write(self) -> None:
        self._has_written()         # (it is opened at once, and says so if it can't be)
        is_last = False
        while self._wait_until(lambda: self.waiting) and self.waiting:
            if self._has_written(self.waiting[0]):
                self.waiting.popleft()
            elif is_last:
                return
            else:
                is_last = self._wait_until(lambda: False, AGAIN)

    def _wait_until(self, holds: Callable[[], object], seconds: float | None = None) -> bool:
        """Waits until something holds or it is closed, so long at most. Returns whether either is so."""
        with self._changed:
            return bool(self._changed.wait_for(lambda: holds() or self._is_closing, seconds))

    def _has_written(self, *lines: str) -> bool:
        """Writes a line, or none. A file that has failed is opened again."""
        try:
            puts = self._opened = self._opened or self._open()
            for line in lines:
                puts.append(line)
            self._report_state(None)
            return True
        except OSError as fault:
            self._report_state(fault.strerror or str(fault))
            if self._opened:
                self._opened.close()
            self._opened = None
            return False

    def _open(self) -> LineFile | LineStream:
        is_again = self._why is not None
        return LineFile(self._file, self._head, is_again) if isinstance(self._file, str) else LineStream(self._file)

    def _report_state(self, why: str | None) -> None:
        """Tells why it fails, once, or that it goes on."""
        before, self._why = self._why, why
        if bool(why) is not bool(before):
            self._stands(self._name, f'{why}: {self._file}' if why and isinstance(self._file, str) else why)

    def write_line(self, line: str) -> None:
        """Has a line written. (One for which there is no room is not kept.)"""
        with self._changed:
            if has_room := len(self.waiting) < MOST_WAITING:
                self.waiting.append(line)
                self._changed.notify()
        if not has_room:
            self._report_state('it takes too little')

    def close(self) -> None:
        """Waits until all is written, FLUSH at most; what has failed is tried once more."""
        with self._changed:
            self._is_closing = True
            self._changed.notify()
        self._thread.join(FLUSH)
