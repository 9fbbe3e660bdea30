"""The line: a device, files, a Unix or TCP socket. A thread opens it, however long that takes; it is opened again when
it has ended, later and later if that was soon."""
from __future__ import annotations

import os
import select
import stat
import threading
import time
import zlib
from typing import TYPE_CHECKING, Mapping

from e1gw_common.fault_words import words_of_fault
from .decisions import Openings
from .journal import Severity, log_line
from .loop import Loop
from .note import HeldLineNote
from .options import LineWants

if TYPE_CHECKING:
    from ..dahdi import DahdiChannel

MOST_EVENTS = 128           # that are taken at once
NONE, REMOVED = 0, 20       # no event; the card is gone


class HeldLine:
    """Its descriptors, if it is open, by names that no other line has."""

    ends = 'line-in', 'line-out'

    def __init__(self, options: LineWants, files: dict[str, int], loop: Loop) -> None:
        """It takes those of its names from the `files` that this process was given."""
        self.options, self.loop = options, loop
        self.reads, self.writes = (f'{each}-{zlib.crc32(options.trunk.encode()):08x}' for each in self.ends)
        self.files = {name: files.pop(name) for name in (self.reads, self.writes) if name in files}
        self.fault, self.since = '', time.time()        # why it is not open; since when it is, or is not
        self.number: int | None = None          # of the first packet, if it has packets and that was said
        self.card: Card | None = None
        self._openings = Openings()
        self._thread: threading.Thread | None = None
        self._found: Mapping[str, int] | Exception | None = None
        if self.files:
            self.on_open()

    @property
    def program_files(self) -> tuple[int, int]:
        """Those for a program."""
        return self.files[self.reads], self.files.get(self.writes, self.files[self.reads])

    def stored_files(self) -> dict[str, int]:
        """Those for the next holder."""
        return self.files

    @property
    def reopen_time(self) -> float:
        """When it is opened again."""
        return self._openings.due

    # ---- opening ----

    @property
    def is_opening(self) -> bool:
        return self._thread is not None

    def try_to_open(self, now: float) -> bool:
        """To be called while it is not open: whether it has come to be known that it can or cannot be."""
        if self._thread is None and now >= self._openings.due:
            self._found, self._thread = None, threading.Thread(target=self._work, daemon=True)
            self._thread.start()
        if self._found is None:
            return False
        found, self._found, self._thread = self._found, None, None
        self._openings = self._openings.with_one(now)
        if isinstance(found, Exception):
            self.on_fault(f'the trunk cannot be opened: {words_of_fault(found)}', now)
            return True
        self.files = {**found}
        self.on_open()
        return True

    def on_fault(self, fault: str, now: float) -> None:
        """It is not open, and why: it is said once."""
        if fault != self.fault:
            log_line(Severity.WARNING, f'{fault}; it is tried again' if self.options.reopens else fault)
        self.fault = fault
        self._openings = self._openings.with_end(now)

    def _work(self) -> None:
        try:
            self._found = self.open_files()
        except Exception as fault:      # pylint: disable=broad-exception-caught
            self._found = fault
        self.loop.wake()

    def open_files(self) -> Mapping[str, int]:
        """Opens it, in a thread. (What only that wants is loaded here: who has the descriptors does without.)"""
        stream = self.options.open()
        return {self.reads: stream.reads} | ({self.writes: stream.writes} if stream.writes != stream.reads else {})

    def on_open(self) -> None:
        """It has come to be open."""
        self.fault, self.since = '', time.time()
        self.card = card_of(self.program_files[0], self.loop)

    # ---- while it is open ----

    def begin(self, now: float) -> None:
        """A program is to start on it."""
        if self.card:
            self.card.take_events()

    def step(self, now: float) -> None:
        """To be called now and then."""

    def why_ended(self, took: int) -> str:
        """Why it has ended: the other end has closed it; of a device, that a program `took` nothing of it before its
        end. Nothing if it has not."""
        if self.card and self.card.is_gone():
            return 'the card is gone'
        return 'the trunk has ended' if has_ended(self.program_files[0], took) else ''

    def note(self) -> HeldLineNote:
        """What the process has to know that this one becomes, which has all descriptors."""
        return HeldLineNote()

    def restore_note(self, note: HeldLineNote) -> None:
        """The reverse."""

    def end(self, why: str, now: float) -> None:
        """It is closed, to be opened again."""
        self.close()
        self.on_fault(why, now)
        self.since = time.time()

    def close(self) -> None:
        if self.card:
            self.card.close()
        self.card = None
        while self.files:
            os.close(self.files.popitem()[1])


def has_ended(reads: int, took: int) -> bool:
    """Whether the other end of a descriptor has closed it."""
    about = os.fstat(reads)
    if stat.S_ISCHR(about.st_mode) and not os.isatty(reads):
        return took == 0
    if stat.S_ISREG(about.st_mode):
        return os.lseek(reads, 0, os.SEEK_CUR) >= about.st_size
    poll = select.poll()
    poll.register(reads, select.POLLIN | select.POLLRDHUP)
    return any(events & (select.POLLHUP | select.POLLRDHUP | select.POLLERR) for _, events in poll.poll(0))


# ---- a DAHDI card ----

class Card:
    """The card of an open line. While an event waits all reads and writes fail, so they are taken at once. (Who shows
    alarms asks the driver for them.)"""

    def __init__(self, channel: DahdiChannel, loop: Loop) -> None:
        self._channel, self._loop, self._is_gone = channel, loop, False
        self.span = span_of(channel)
        loop.watch(channel.file, self.take_events, select.POLLPRI)

    def take_events(self) -> None:
        """Takes those that wait."""
        try:
            for _ in range(MOST_EVENTS):
                if (event := self._channel.event()) in (NONE, REMOVED):
                    self._is_gone = self._is_gone or event == REMOVED
                    break
        except OSError:
            self._is_gone = True
        if self._is_gone:
            self.close()

    def is_gone(self) -> bool:
        if not self._is_gone:
            self.take_events()
        return self._is_gone

    def close(self) -> None:
        """Watches it no more."""
        self._loop.unwatch(self._channel.file)


def span_of(channel: DahdiChannel) -> int:
    """The number of its span; 0 if the card is gone."""
    try:
        return channel.facts().span
    except OSError:
        return 0


def card_of(file: int, loop: Loop) -> Card | None:
    """The card of a descriptor, if it is one's that is known here."""
    if not stat.S_ISCHR(os.fstat(file).st_mode) or os.isatty(file):
        return None
    from ..dahdi import DahdiChannel, is_channel
    return Card(DahdiChannel(file), loop) if is_channel(file) else None
