"""How much of a session is read, while that lasts."""
from __future__ import annotations

import sys
import time
from collections.abc import Callable, Iterator

from e1gw_common.session_files import RecordedSession
from .svg import duration

SOON, EACH = 2.0, 1.0        # seconds until it says how much is read, and between two such lines
CLEARED = '\r\x1b[K'         # a line of a terminal


class Progress:
    """Says how much of the trunk is read if that lasts: on a terminal each second, in place of what was said before,
    elsewhere once."""

    def __init__(self, session: RecordedSession, is_terminal: bool, now: Callable[[], float] = time.monotonic) -> None:
        self._files, self._file, self._is_terminal, self._now = session.files, 0, is_terminal, now
        self._due, self._told = now() + SOON, False

    def octets(self) -> Iterator[bytes]:
        """The octets of the session."""
        for self._file, path in enumerate(self._files, 1):
            yield from RecordedSession([path]).octets()

    def read(self, place: int) -> None:
        """The session is read up to a place."""
        if self._now() < self._due or self._told and not self._is_terminal:
            return
        self._due, self._told = self._now() + EACH, True
        words = self.words(place)
        if self._is_terminal:
            print(f'{CLEARED}{words}', end='', file=sys.stderr, flush=True)
        else:
            print(f'{words}; it goes on', file=sys.stderr, flush=True)

    def words(self, place: int) -> str:
        """What is said at a place."""
        where = f', file {self._file} of {len(self._files)}' if len(self._files) > 1 else ''
        return f'e1gw-picture: {duration(place)} of the trunk read{where}'

    def end(self) -> None:
        print(CLEARED * (self._told and self._is_terminal), end='', file=sys.stderr)
