"""The log of a trunk, open for who reads it. A read that fails (a disk, a server of files) is told once and tried
again."""
from __future__ import annotations

import logging
import time
from contextlib import suppress
from typing import Callable, TypeVar

from e1gw_common.faults import words_of_fault
from ..log_folder import FolderReader, LogFiles, LogNews, LogPair, LogState
from .journal import NOTICE

T = TypeVar('T')

logger = logging.getLogger(__name__)


class OpenLog:
    """That of a folder. It can be read when that is gone, too. `place` is up to where it was taken."""

    def __init__(self, folder: str) -> None:
        self.folder, self.place = folder, -1
        self.files: LogFiles | None = None
        self.reader: FolderReader | None = None
        self._why = ''                          # why it cannot be read, as was told

    def is_there(self, folder: str = '') -> bool:
        """Whether the folder, or another one from now on, has the log that is read; opens one that is there."""
        self.folder = folder or self.folder
        if not self.files:
            with suppress(OSError):
                self.continue_with(LogFiles(self.folder))
        return bool(self.files and self.files.are_in(self.folder))

    def continue_with(self, files: LogFiles) -> None:
        """These are read from now on, from the same place."""
        self.close()
        self.files, self.reader = files, FolderReader(files, self.place)

    def close(self) -> None:
        if self.files:
            self.files.close()
        self.files = self.reader = None

    def follow_next(self, read: Callable[[], object]) -> None:
        """Another log that the folder has is read from now on, behind what is to be read of the one before."""
        if self.files and not self.files.are_in(self.folder):
            with suppress(OSError):
                files = LogFiles(self.folder)
                read()
                self.continue_with(files)

    # ---- what it has ----

    def read_news(self, written: float) -> tuple[list[LogNews], float]:
        """What is new, and when that was written; nothing was `written` since."""
        def reads(files: LogFiles) -> tuple[list[LogNews], float]:
            assert self.reader
            its = self.reader.read_news()
            return its, files.written(self.reader.number) if its else written
        return self._or_default(reads, (list[LogNews](), written))

    def last(self) -> LogPair | None:
        """What it has, also if it was taken away."""
        return self.files.last() if self.files else None

    def states(self) -> list[LogState]:
        """Those that it has now."""
        none = list[LogState]()
        if not self.is_there():
            return none
        return self._or_default(lambda files: [*filter(None, map(files.state, (0, 1)))], none)

    def pairs(self) -> list[LogPair]:
        """What it has now, the older one first."""
        none = list[LogPair]()
        if not self.is_there():
            return none
        its = self._or_default(lambda files: [*filter(None, map(files.pair, (0, 1)))], none)
        return sorted(its, key=lambda pair: pair.turn)

    def state_written(self) -> float:
        """When the newest state was written."""
        with suppress(OSError):
            if self.files and self.reader:
                return self.files.written_at(self.reader.number)
        return time.time()

    def _or_default(self, reads: Callable[[LogFiles], T], nothing: T) -> T:
        """What is read of it, which is nothing if that fails."""
        assert self.files
        try:
            found = reads(self.files)
        except OSError as fault:
            self._reopen_log(words_of_fault(fault))
            return nothing
        if self._why:
            logger.log(NOTICE, 'the log is read again')
        self._why = ''
        return found

    def _reopen_log(self, why: str) -> None:
        """A read has failed: the files are opened again, if they can be, and read from where they were taken."""
        if not self._why:
            logger.error('the log cannot be read: %s; it is tried again', why)
        self._why = why
        with suppress(OSError):
            self.continue_with(LogFiles(self.folder))
        if self.files:
            self.reader = FolderReader(self.files, self.place)
