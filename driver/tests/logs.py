"""A log that a test writes, as a program does."""
from __future__ import annotations

import unittest

from e1gw.log_folder import FolderReader, LogBegun, LogFiles, LogPiece, LogWriter, NoRoom
from e1gw_common.session import MULTIFRAME, trunk_record


class WrittenLog:
    """A log in a folder. `octets` are those of the trunk in it."""

    def __init__(self, folder: str) -> None:
        self._writer, self.place, self.octets = LogWriter(folder), 0, 0
        self.turns()

    def turns(self) -> None:
        """Another state is written, as when another program begins."""
        self._writer.begin(self.place, b'state')

    def multiframe(self) -> None:
        """Octets of the trunk come."""
        record = trunk_record(bytes(MULTIFRAME))
        try:
            self._writer.append(record)
        except NoRoom:
            self.turns()
            self._writer.append(record)
        self.place, self.octets = self.place + len(record), self.octets + MULTIFRAME

    def close(self) -> None:
        self._writer.close()


class LogCopy:
    """A log that another one writes, as far as it was looked at: its first state, and the records behind that."""

    def __init__(self, test: unittest.TestCase, folder: str) -> None:
        self._files, self.state, self.records = LogFiles(folder), b'', b''
        test.addCleanup(self._files.close)
        self._reader = FolderReader(self._files)

    def look(self) -> int:
        """Looks at more of it. Up to which place it is read."""
        for news in self._reader.read_news():
            if isinstance(news, LogBegun):
                assert not self.state, 'it was written over'
                self.state = news.state.state
            elif isinstance(news, LogPiece):
                self.records += news.octets
        return self._reader.place
