"""What the program says, and `e1gw satop`: lines in files of the folder, a new one for each process."""
from __future__ import annotations

import logging
import os
from contextlib import suppress
from dataclasses import dataclass
from typing import Iterator, Sequence

from ..crc4 import Crc4, Crc4Note, counts_in
from ..events import Event, SatopChanged, Tell
from ..satop import SatopSeen, counts_of, is_here, status_of
from ..satop_numbers import begun_in
from ..slots import Slots, SlotsNote
from ..status import TransportStatus
from ..udp_tables import unheard
from .process import AT_END

MOST_SAID = 1 << 20         # octets that are read at once

logger = logging.getLogger(__name__)


@dataclass(frozen=True)
class SaidNote:
    """Which file it is, and up to where it was read."""

    inode: int = 0
    place: int = 0


class SaidFile:
    """Such a file, which is read line by line."""

    def __init__(self, path: str, note: SaidNote) -> None:
        self.path, self.note, self._file = path, note, -1

    def read_lines(self) -> Iterator[str | None]:
        """The whole lines that were said since; None where another process begins."""
        yield from self._lines()
        with suppress(FileNotFoundError):
            if os.stat(self.path).st_ino != self.note.inode or self._file < 0:
                yield from self._switch_to(os.open(self.path, os.O_RDONLY | os.O_CLOEXEC))

    def _switch_to(self, file: int) -> Iterator[str | None]:
        """Another file, or that of a watcher before this one."""
        self.close()
        self._file, inode = file, os.fstat(file).st_ino
        if inode != self.note.inode:
            self.note = SaidNote(inode)
            yield None
        yield from self._lines()

    def _lines(self) -> Iterator[str]:
        """Those of the file that is open. (One that had become too long was cut to nothing.)"""
        if self._file < 0:
            return
        if os.fstat(self._file).st_size < self.note.place:
            self.note = SaidNote(self.note.inode)
        octets = os.pread(self._file, MOST_SAID, self.note.place)
        octets = octets[:octets.rfind(b'\n') + 1]
        self.note = SaidNote(self.note.inode, self.note.place + len(octets))
        yield from filter(str.strip, octets.decode(errors='replace').splitlines())

    def close(self) -> None:
        if self._file >= 0:
            os.close(self._file)
        self._file = -1


@dataclass(frozen=True)
class LineNote:
    """What the next watcher goes on with."""

    program: SaidNote
    satop: SaidNote
    crc4: Crc4Note | None
    slots: SlotsNote | None
    seen: SatopSeen = SatopSeen()


class SaidLine:
    """What is known of the line by what was said: CRC-4, slot 16, packets of an emulated circuit. `words` are options
    of the program."""

    def __init__(self, said: str, satop: str, words: Sequence[str], note: LineNote | None, tell: Tell) -> None:
        self._program = SaidFile(said, note.program if note else SaidNote())
        self._satop = SaidFile(satop, note.satop if note else SaidNote())
        self.crc4, self.slots = Crc4() if '--crc4' in words else None, Slots() if '--slots' in words else None
        if note and note.crc4 and self.crc4:
            self.crc4.restore_note(note.crc4)
        if note and note.slots and self.slots:
            self.slots.restore_note(note.slots)
        self._seen, self._tell = note.seen if note else SatopSeen(), tell

    def take_lines(self) -> None:
        """Takes what was said since."""
        for line in self._program.read_lines():
            if line is not None:
                self._take_line(line)
            elif self.crc4:
                self.crc4.on_next_program()
            elif self.slots:
                self.slots.on_next_program()
        for line in self._satop.read_lines():
            if counts := counts_of(line or ''):
                self._take_counts(counts)
            elif line is None:
                self._seen = self._seen._replace(counts={})

    def _take_line(self, line: str) -> None:
        counts = counts_in(line) if self.crc4 else {}
        events: Sequence[Event] = self.slots.take(line) if self.slots and not counts else ()
        if self.crc4 and counts:
            events = self.crc4.take(counts)
        for event in events:
            self._tell(event)
        word, _, count = line.partition(' ')
        if not (counts or events or word in AT_END and count.isdecimal()):
            logger.info('program: %s', line)

    def _take_counts(self, counts: dict[str, int]) -> None:
        """What `e1gw satop` has counted."""
        before, self._seen = self._seen, self._seen.updated(counts, self._unheard())
        for each in (*before.holding, *self._seen.holding):
            if (each in before.holding) is not (on := each in self._seen.holding):
                self._tell(SatopChanged(each.words, on))

    def _unheard(self) -> int:
        """Datagrams that no socket takes. (Those of a far end at this machine may be our own.)"""
        _, far, *_ = begun_in(self._satop.path).words or ('', '')
        return unheard() if far and not is_here(far) else 0

    def on_close(self) -> None:
        """The line was closed."""
        if self.crc4:
            self.crc4.reset()

    def status(self, trunk: str) -> TransportStatus:
        """What the transport of a trunk tells of itself."""
        return TransportStatus(trunk, status_of(self._seen), self.slots.status() if self.slots else None)

    def noted(self) -> LineNote:
        return LineNote(self._program.note, self._satop.note, self.crc4.note() if self.crc4 else None,
                        self.slots.note() if self.slots else None, self._seen)

    def close(self) -> None:
        self._program.close()
        self._satop.close()
