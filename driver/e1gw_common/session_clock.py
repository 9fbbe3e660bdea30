"""The one clock of a kept session: the time of each place of the trunk, by what was noted of its files."""
from __future__ import annotations

import bisect
from collections.abc import Iterator, Sequence
from dataclasses import dataclass, replace
from datetime import datetime, time, timedelta, timezone
from functools import cached_property
from itertools import accumulate
from math import inf
from typing import NamedTuple

from .session import OCTETS_A_SECOND

OUTAGE = 1.0                # seconds without octets from which on it is one, and no slip
LEAST = 0.1                 # seconds that are missed before a file if they are to be noted as a slip, too
NEAR = 0.25                 # seconds by which the file and the slip may tell of them differently
SOON = 2 * OCTETS_A_SECOND  # octets behind the begin of a file within which that is noted


def second_of(text: str) -> float:
    """Seconds since 1970, or a date and time, in UTC if it names no zone. ValueError for others."""
    if text.replace('.', '', 1).isdecimal():
        return float(text)
    when = datetime.fromisoformat(text)
    return (when if when.tzinfo else when.replace(tzinfo=timezone.utc)).timestamp()


def local_second(text: str, now: float) -> float:
    """Seconds since 1970 of 14:03 (today), yesterday, yesterday 14:03, or a date and time, in local time if it names no
    zone. ValueError for others."""
    match text.split():
        case ['today' | 'yesterday' as day, *clocks] if len(clocks) < 2:
            pass
        case [clock] if ':' in clock[:3]:
            day, clocks = 'today', [clock]
        case _:
            return datetime.fromisoformat(text).timestamp()
    date = datetime.fromtimestamp(now).date() - timedelta(days=day == 'yesterday')
    clock = clocks[0] if clocks else '00:00'
    return datetime.combine(date, time.fromisoformat(clock if clock[1:2] != ':' else f'0{clock}')).timestamp()


class Break(NamedTuple):
    """A jump of the time of day at a place: from there on it is later by `seconds` than the octets before it say. Of
    the trunk `lost` seconds are missing there, less if the clock of the day was set."""

    place: int
    seconds: float
    lost: float

    @property
    def is_outage(self) -> bool:
        return self.lost >= OUTAGE

    def shifted(self, place: int) -> Break:
        """The same where the session begins at this place."""
        return self._replace(place=self.place + place)


@dataclass(frozen=True)
class SessionClock:
    """The times of a session: 256,000 octets are a second, and at its breaks more. `begin` is that of place 0 in
    seconds since 1970; without it times count from there."""

    begin: float | None = None
    breaks: tuple[Break, ...] = ()

    @cached_property
    def _later(self) -> list[float]:
        return [0.0, *accumulate(each.seconds for each in self.breaks)]

    def second(self, place: float) -> float:
        """The time of a place; where octets are missing, that of the octet behind them."""
        behind = bisect.bisect_right(self.breaks, place, key=lambda each: each.place)
        return (self.begin or 0.0) + place / OCTETS_A_SECOND + self._later[behind]

    def place(self, second: float) -> int:
        """The place at a time; of one at which octets are missing that of the octet behind them."""
        before = 0
        for later, place in zip(self._later, [*(each.place for each in self.breaks), inf]):
            found = max(before, round((second - (self.begin or 0.0) - later) * OCTETS_A_SECOND))
            if found < place:
                return found
            before = int(place)
        return before

    def seconds_lost(self, first: int, last: int) -> float:
        """The seconds of the trunk that are missing behind a place, up to another."""
        return sum(each.lost for each in self.breaks if first < each.place <= last)


@dataclass(frozen=True)
class FileNote:
    """What the .json of a file tells of its time: its first place on the trunk, the time of day and the monotonic clock
    there, and the slips that were noted while it was written, as places and seconds."""

    place: int
    time: float
    monotonic: float
    slips: tuple[tuple[int, float], ...]

    def since(self, before: FileNote) -> float:
        """The seconds since another file began, by the monotonic clock, which nobody sets; behind a boot, and without
        it, by the time of day."""
        passed = self.monotonic - before.monotonic
        return passed if passed > 0 else self.time - before.time

    def repeated_slip(self, owed: float, away: float) -> tuple[int, float] | None:
        """Which slip tells once more of what is missed before this file, and how many seconds more it has: the flow is
        measured through all files, and a gap is found behind the octets that end it. Of files that begin soon behind
        one another the slip tells of all, which are `owed`; of this one, that is `away`, if the measure began in
        between."""
        for number, (place, seconds) in enumerate(self.slips):
            if self.place < place <= self.place + SOON:
                for missed in (owed, away):
                    if missed >= LEAST and seconds >= missed - NEAR:
                        return number, seconds - missed
        return None


def in_their_files(notes: Sequence[FileNote]) -> list[FileNote]:
    """The same with each slip in the file that has its place. (A file may be begun at a place that was read before.)"""
    slips = sorted({slip for note in notes for slip in note.slips})
    ends = [*(note.place for note in notes[1:]), inf]
    return [replace(note, slips=tuple(slip for slip in slips if note.place <= slip[0] < end))
            for note, end in zip(notes, ends)]


def breaks_of(notes: Sequence[FileNote]) -> tuple[Break, ...]:
    """The breaks of files that follow one another, by their places."""
    return tuple(sorted(_breaks(in_their_files(notes)), key=lambda each: each.place)) if notes else ()


def _breaks(notes: Sequence[FileNote]) -> Iterator[Break]:
    """Each missed octet is in one of them: what the slips of a file explain is not missed before the next one."""
    first = last = notes[0]
    shift = inside = owed = 0.0
    for note in notes:
        place = note.place - first.place
        away = note.since(last) - (note.place - last.place) / OCTETS_A_SECOND - inside
        owed = (owed if note.place - last.place <= SOON else 0.0) + (away if away >= LEAST else 0.0)
        found, more = note.repeated_slip(owed, away) or (-1, 0.0)
        owed = 0.0 if found >= 0 else owed
        later = note.time - first.time - place / OCTETS_A_SECOND - shift + more
        last, inside = note, more
        if max(away + more, abs(later)) >= LEAST:       # (less is when the file was begun, and no jump)
            yield Break(place, later, max(0.0, away + more))
            shift += later
        for number, (at, seconds) in enumerate(note.slips):
            if number != found and at > note.place:         # (what a program had in hand is missed before its file)
                yield Break(at - first.place, seconds, seconds)
                shift, inside = shift + seconds, inside + seconds


def slips_of(notes: Sequence[FileNote]) -> list[tuple[int, float]]:
    """The slips of files that follow one another, from the first place on: what is an outage is none."""
    return [(place - notes[0].place, seconds) for note in notes for place, seconds in note.slips if seconds < OUTAGE]
