"""What is known of slot 16 of a device that keeps slot 0, by what `e1gw trunk --slots 1-31` says: `slots lost`, and
`slots found N`, where N is by how many octets others are delayed from then on."""
from __future__ import annotations

import re
from dataclasses import dataclass

from .dahdi import SLOTS
from .events import SlotsChange, SlotsChanged

SAID = re.compile(r'slots (?:lost|found ([0-9]+))')


@dataclass(frozen=True)
class SlotsNote:
    """What another service goes on with."""

    silent: bool
    lost: int
    moved: int
    delay: int | None


@dataclass(frozen=True)
class SlotsStatus:
    """The same, as a status has it."""

    slots: str = 'clear'
    silent: bool = True
    slots_lost: int = 0
    slots_moved: int = 0


class Slots:
    """What is known of it over all devices that are opened, and all programs on them, one after another."""

    def __init__(self) -> None:
        self.silent, self.lost, self.moved = True, 0, 0
        self._delay: int | None = None      # as it was found last

    def take(self, line: str) -> list[SlotsChanged]:
        """A line that a program says; returns what is to be reported, nothing of another line."""
        if not (said := SAID.fullmatch(line)):
            return []
        self.silent = said[1] is None
        if self.silent:
            self.lost += 1
            return [SlotsChanged(SlotsChange.LOST)]
        before, self._delay = self._delay, int(said[1])
        if by := 0 if before is None else (self._delay - before) % SLOTS:
            self.moved += 1
            return [SlotsChanged(SlotsChange.MOVED, by)]
        return [SlotsChanged(SlotsChange.FOUND)]

    def on_next_program(self) -> None:
        """Another program follows, which has to find slot 16."""
        self.silent = True

    def status(self) -> SlotsStatus:
        return SlotsStatus('clear', self.silent, self.lost, self.moved)

    def note(self) -> SlotsNote:
        """The same, and what the next one is compared with."""
        return SlotsNote(self.silent, self.lost, self.moved, self._delay)

    def restore_note(self, note: SlotsNote) -> None:
        """What the watcher before this one has noted."""
        self.silent, self.lost, self.moved, self._delay = note.silent, note.lost, note.moved, note.delay
