"""What is known of the CRC-4 of a trunk (ITU-T G.704, 2.3.3), by what `e1gw trunk --crc4 --live` tells: counts after
each second of the trunk, and at its end."""
from __future__ import annotations

from dataclasses import dataclass, fields

from .events import Crc4Change, Crc4Changed

QUIET = 10                      # counts without an error after which errors are over


@dataclass(frozen=True)
class Crc4Status:
    """What is counted, and whether there was alignment at the last count, as a status has it."""

    submultiframes: int = 0
    errored: int = 0
    far_end_errored: int = 0
    multiframes_found: int = 0
    multiframes_lost: int = 0
    given_up: int = 0
    aligned: bool | None = None


COUNTS = tuple(each.name for each in fields(Crc4Status))[:-1]       # (the names that the program prints)


def counts_in(line: str) -> dict[str, int]:
    """The counts in a line that the program says: all of them behind `live`; none in another line."""
    live, *words = line.split() or ['']
    counts = {name: int(digits) for name, digits in zip(words[::2], words[1::2])
              if name in COUNTS and digits.isascii() and digits.isdecimal()}
    return counts if live == 'live' and len(counts) == len(COUNTS) else {}


class ErroredSubmultiframes:
    """Errored submultiframes of one end: told when they begin, and with their number once QUIET counts have none."""

    def __init__(self) -> None:
        self.on = False
        self._errored = self._checked = self._quiet = 0

    def add(self, what: Crc4Change, errored: int, checked: int) -> list[Crc4Changed]:
        """What is reported with further counts."""
        began = not self.on and errored > 0
        if began:
            self.on, self._errored, self._checked = True, 0, 0
        self._errored += errored
        self._checked += checked
        self._quiet = 0 if errored else self._quiet + 1
        if began or self.on and self._quiet >= QUIET:
            self.on = began
            return [Crc4Changed(what, began, self._errored, self._checked)]
        return []


@dataclass(frozen=True)
class Crc4Note:
    """What is counted, whether there was alignment at the last count, and that of the program of now."""

    counts: dict[str, int]
    aligned: bool | None
    last: dict[str, int]


class Crc4:
    """What is known of a trunk's CRC-4, over all devices that are opened, and all programs on them, one after another.
    A program that has found nothing yet says nothing of the alignment that stood: it has just begun."""

    def __init__(self) -> None:
        self.counts = dict.fromkeys(COUNTS, 0)
        self.aligned: bool | None = None        # whether alignment stood at the last count of this device
        self._errors = {'errored': ErroredSubmultiframes(), 'far_end_errored': ErroredSubmultiframes()}
        self._last = dict[str, int]()           # of this program, at the last count

    def take(self, counts: dict[str, int]) -> list[Crc4Changed]:
        """The counts of a program up to now; returns what is to be reported."""
        more = {name: counts[name] - self._last.get(name, 0) for name in COUNTS}
        for name, count in more.items():
            self.counts[name] += count
        stood, begins = self.aligned, not self._last and not counts['multiframes_found']
        self.aligned = counts['multiframes_found'] > counts['multiframes_lost'] or bool(stood and begins)
        self._last = counts
        return self._alignment(stood, more) + self._errored(more)

    def _alignment(self, stood: bool | None, more: dict[str, int]) -> list[Crc4Changed]:
        told = list[Crc4Changed]()
        if more['given_up']:
            told.append(Crc4Changed(Crc4Change.GIVEN_UP, True, more['given_up']))
        if self.aligned != stood:
            what = Crc4Change.FOUND if self.aligned else Crc4Change.LOST if stood else Crc4Change.NONE
            told.append(Crc4Changed(what, not self.aligned))
        if more['multiframes_lost'] and self.aligned:
            told.append(Crc4Changed(Crc4Change.LOST_AND_FOUND, True, more['multiframes_lost']))
        return told

    def _errored(self, more: dict[str, int]) -> list[Crc4Changed]:
        return [told for name, errors in self._errors.items() for told in errors.add(
            Crc4Change(name.replace('_', ' ')), more[name], more['submultiframes'])]

    def on_next_program(self) -> None:
        """Another program follows on this device, whose counts begin at 0."""
        self._last = {}

    def reset(self) -> None:
        """The device has ended: another one may have no CRC-4."""
        self.aligned, self._last = None, {}

    def note(self) -> Crc4Note:
        """All of it but for errors that were reported."""
        return Crc4Note(self.counts, self.aligned, self._last)

    def restore_note(self, note: Crc4Note) -> None:
        """Goes on where another one has left."""
        self.counts, self.aligned, self._last = note.counts.copy(), note.aligned, note.last.copy()

    def status(self) -> Crc4Status:
        return Crc4Status(**self.counts, aligned=self.aligned)
