"""Pieces of SVG: a scale of time, boxes, marks and words."""
from __future__ import annotations

import html
import time
from collections.abc import Iterable, Sequence

from e1gw_common.session_clock import Break, SessionClock
from .facts import SECOND

LEFT, WIDE, RIGHT = 126, 1000, 14
TICK = 7.2                  # pixels of a character of a time above a drawing, at most
STEPS = (0.01, 0.02, 0.05, 0.1, 0.2, 0.5, 1, 2, 5, 10, 20, 30, 60, 120, 300, 600, 1200, 1800, 3600, 7200, 14400, 43200,
         86400)


def clock(second: float, digits: int = 3) -> str:
    """A time of the day, in UTC."""
    second = round(second, digits)
    return time.strftime('%H:%M:%S', time.gmtime(second)) + f'{second % 1:.{digits}f}'[1:]


class Scale:
    """The places of the trunk on the sheet, and their names. `breaks` are those of the facts. An outage takes room
    behind the octets before it: to scale, if all are at most half as long as the trunk that is drawn."""

    coarse = 1                          # by how much detail is reduced

    def __init__(self, start: int, end: int, begin: float | None, breaks: Sequence[Break] = ()) -> None:
        self.start, self.end, self.begin = start, max(end, start + 256), begin
        self.clock = SessionClock(begin, tuple(breaks))
        self.outages = [each for each in breaks if each.is_outage and start < each.place <= end]
        whole, long = sum(each.lost for each in self.outages) * SECOND, self.end - self.start
        part = min(1.0, long / 2 / whole) if whole else 0.0
        self.gaps = [(each.place, part * each.lost * SECOND) for each in self.outages]      # as they are drawn
        self.octets = (long + part * whole) / WIDE          # to a pixel

    def x(self, place: float) -> float:
        inside = min(max(place, self.start), self.end)
        return LEFT + (inside - self.start + sum(room for at, room in self.gaps if at <= inside)) / self.octets

    def place(self, x: float) -> int:
        """The place that is drawn there; in an outage the one behind it."""
        place = self.start + (x - LEFT) * self.octets
        for at, room in self.gaps:
            place = max(at, place - room) if place >= at else place
        return int(place)

    def words(self, place: int, before: float = 0.0) -> str:
        """The time of a place as text, or the time `before` seconds earlier."""
        seconds = self.clock.second(place) - before
        if self.begin is None:
            return f'{seconds:.3f} s' if seconds < 300 else f'{int(seconds) // 60}:{seconds % 60:06.3f} min'
        return clock(seconds)

    def long(self, first: int, last: int) -> str:
        """How long it is from a place to another, with what is missing of the trunk between them."""
        return duration(last - first + SECOND * self.clock.seconds_lost(first, last))

    def span(self, first: int, last: int) -> str:
        return f'{self.words(first)} to {self.words(last)}, {self.long(first, last)}'

    def ticks(self) -> list[tuple[float, str]]:
        """The places of round times, and their texts; none where octets are missing."""
        most = min(10, WIDE / 70)
        step = next((step for step in STEPS if self.octets * WIDE / SECOND / step <= most), STEPS[-1])
        out = []
        edges = [self.start, *(each.place for each in self.clock.breaks if self.start < each.place <= self.end),
                 self.end + 1]
        for first, last in zip(edges, edges[1:]):
            origin = self.clock.second(first) - first / SECOND
            n = -int(-self.clock.second(first) // step)
            while n * step <= origin + (last - 1) / SECOND + 1e-9:
                out.append((self.x((n * step - origin) * SECOND), self._tick(n * step, step)))
                n += 1
        return out

    def _tick(self, second: float, step: float) -> str:
        if self.begin is not None:
            return clock(second, 0 if step >= 1 else 2 if step < 0.1 else 1)
        if step < 60:
            return f'{second:g} s' if step >= 1 else f'{second:.2f} s'
        if step < 3600:
            return f'{int(second) // 60}:{int(second) % 60:02d} min'
        return f'{round(second) // 3600} h'


def duration(octets: float) -> str:
    """The duration of a number of octets of the trunk."""
    seconds = octets / SECOND
    if seconds < 0.9995:
        return f'{seconds * 1000:.4g} ms'
    if seconds < 119.995:
        return f'{seconds:.2f} s'
    if seconds < 7199.5:
        return f'{round(seconds) // 60} min {round(seconds) % 60} s'
    return f'{round(seconds / 60) // 60} h {round(seconds / 60) % 60} min'


class Sheet:
    """One drawing, from top to bottom. Words before LEFT are drawn by themselves: they stay where the rest is moved."""

    def __init__(self, height: float, label: str) -> None:
        self.height, self.label = height, label
        self.out, self.names = list[str](), list[str]()

    def box(self, x: float, y: float, wide: float, high: float, kind: str, title: str = '') -> None:
        """A rectangle of a class, wide enough to be seen."""
        rest = f'><title>{html.escape(title)}</title></rect>' if title else '/>'
        self.out.append(f'<rect x="{x:.1f}" y="{y:g}" width="{max(wide, 0.8):.1f}" height="{high:g}" '
                        f'class="{kind}"{rest}')

    def path(self, parts: Iterable[str], kind: str, title: str = '', width: float = 0.0) -> None:
        """A path of a class, of a text or its parts; nothing of none."""
        rest = f'><title>{html.escape(title)}</title></path>' if title else '/>'
        wide = f' style="stroke-width:{width:.1f}"' if width else ''
        if d := ''.join(parts):
            self.out.append(f'<path d="{d}" class="{kind}"{wide}{rest}')

    def words(self, x: float, y: float, words: str, kind: str = '', anchor: str = '') -> None:
        side = f' text-anchor="{anchor}"' if anchor else ''
        out = self.names if x < LEFT else self.out
        out.append(f'<text x="{x:.1f}" y="{y:g}" class="{kind}"{side}>{html.escape(words)}</text>')

    def grid(self, scale: Scale, top: float, bottom: float) -> None:
        """Lines at round times, with their texts above where there is room: slips bring times together."""
        free = 0.0
        for x, words in scale.ticks():
            right, half = LEFT + WIDE + RIGHT, TICK * len(words) / 2
            at, anchor, left = (right - 1, 'end', right - 2 * half) if x + half > right else (
                (x, 'middle', x - half) if x - half > LEFT else (x, 'start', x))
            if left >= free:
                self.words(at, top - 3, words, 'tick', anchor)
                free = left + 2 * half
        self.path((f'M{x:.1f} {top:g}V{bottom:g}' for x, _ in scale.ticks()), 'grid')

    def drawn(self) -> str:
        return (f'<div class="sheet"><svg class="names" viewBox="0 0 {LEFT} {self.height:g}" aria-hidden="true">'
                f'{"".join(self.names)}</svg><svg viewBox="{LEFT} 0 {WIDE + RIGHT} {self.height:g}" role="img" '
                f'aria-label="{html.escape(self.label)}">{"".join(self.out)}</svg></div>')


def runs(columns: Iterable[int], gap: float) -> list[tuple[int, int]]:
    """Columns in ascending order as stretches from first to last; those closer than the gap are one."""
    out: list[tuple[int, int]] = []
    for column in columns:
        if out and column - out[-1][1] <= gap:
            out[-1] = out[-1][0], column
        else:
            out.append((column, column))
    return out


def apart(columns: Iterable[int], least: int) -> list[int]:
    """Columns in ascending order, without those closer than this to the one before."""
    out: list[int] = []
    for column in columns:
        if not out or column - out[-1] >= least:
            out.append(column)
    return out
