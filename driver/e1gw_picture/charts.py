"""The drawings: the trunk, the circuits over time, and a circuit's datagrams in its jitter buffer."""
from __future__ import annotations

from bisect import bisect_left, bisect_right
from collections.abc import Callable
from functools import partial
from typing import NamedTuple, TypeVar

from e1gw_common.lines import OPEN
from e1gw_common.session import name_of
from .facts import NOT_OPEN, SECOND, WINDOW, Answer, Cell, Facts, Row, joined
from .svg import LEFT, WIDE, Scale, Sheet, apart, duration, runs

ROW = 30                    # of the circuits
NOTHING = 2 * SECOND        # of silence in mid-call before it is drawn
MOST_GAPS = 80              # of a circuit
MOST_RUNS = 160             # stretches of a lane
MOST_SPANS = 220            # of a line
MEANS = {'idle': 'idle', 'seized': 'seized', 'acked': 'acknowledged', 'answered': 'answered',
         'clearedback': 'hung up by the called', 'releasing': 'releasing', 'blocked': 'blocked', 'fault': 'fault'}
# The alarms of ITU-T G.704, G.706 and G.732, as in the journal.
ALARMS = {('here', 'frame'): 'LFA', ('here', 'multiframe'): 'no multiframe',
          ('there', 'frame'): 'RAI (bit A)', ('there', 'multiframe'): 'far multiframe (y)', ('here', 'ones'): 'AIS'}
# The bar of each state, besides its colour: height, top and hatching, as in the key of page.html.
SHAPES = {'idle': (3, 4, ''), 'seized': (7, 2, 'dots'), 'acked': (11, 0, ''), 'answered': (11, 0, ''),
          'clearedback': (11, 0, 'bars'), 'releasing': (7, 2, 'dots'), 'blocked': (11, 0, 'slant'),
          'fault': (11, 0, 'cross')}
# The mark of a command: its left end, its top, and the rest of its path.
COMMANDS = {Answer.DONE: (0, 2, 'l4 -6h-8z'), Answer.REFUSED: (-3, -5, 'l6 6m0 -6l-6 6'),
            Answer.AGAIN: (-3, -2, 'a3 3 0 1 0 6 0a3 3 0 1 0 -6 0z')}
# Datagrams that have a turn and came too late or too early: a triangle that points beyond the window.
UNTIMELY = {14: 'l3 -4h-6z', 16: 'l3 4h-6z'}
TOPS = (60, 120, 240, 430)  # milliseconds of a jitter buffer's drawing
HIGH, TOP = 92.0, 18.0      # pixels of its field
LANES = {'sent': 'sent', 'admitted': 'received', 'refused': 'discarded'}
Pixels = dict[int, Cell]
T = TypeVar('T')


class Odd(NamedTuple):
    """An anomaly of a circuit's speech in a word: samples of one direction that are `other` or `silent`, or packets
    whose samples do not match the step of their timestamps, which are `uneven`."""
    words: str
    way: str
    what: str

    def is_of(self, whole: Cell) -> bool:
        """Whether a whole circuit has it."""
        seen = whole.heard.get(self.way)
        if not seen:
            return self.what == 'uneven' and whole.is_uneven()
        return seen.is_other() if self.what == 'other' else seen.is_silence()

    def columns(self, seen: Pixels) -> list[int]:
        return sorted(x for x, cell in seen.items() if getattr(cell.heard.get(self.way, cell), self.what, 0))

    def mark(self) -> str:
        return 'silent' if self.what == 'silent' else 'unlike'


ODDS = (Odd('other law', 'came', 'other'), Odd('slot: other law', 'slot', 'other'),
        Odd('AAL2 packing', 'order', 'other'), Odd('silence', 'came', 'silent'),
        Odd('slot: silence', 'slot', 'silent'), Odd('other length', '', 'uneven'))


def label_odd(whole: Cell) -> list[Odd]:
    return [odd for odd in ODDS if odd.is_of(whole)]


def refusals(cell: Cell) -> str:
    """The refused datagrams, most first."""
    ordered = sorted(cell.refused.items(), key=lambda each: -each[1][0])
    return ', '.join(f'{seen[0]} {name_of(code)}' for code, seen in ordered)


# ---- the trunk ----

def trunk(facts: Facts, scale: Scale) -> str:
    """The alarms of both ends over time, and losses of octets that were noted."""
    rows = [(name, [(first, last, 0.0) for first, last, on in facts.alarms[which].between(scale.start, scale.end)
                    if on]) for which, name in ALARMS.items()]
    if facts.slips is not None:
        rows.append(('slips', [(place, place, seconds) for place, seconds in facts.slips
                               if scale.start <= place <= scale.end]))
    sheet = Sheet(20 + 16 * len(rows), 'The alarms of the trunk over time')
    sheet.grid(scale, 16, sheet.height - 2)
    for n, (name, marks) in enumerate(rows):
        _marks(sheet, scale, 20 + 16 * n, name, marks)
    outages(sheet, scale, 16, sheet.height - 2)
    return sheet.drawn()


def _marks(sheet: Sheet, scale: Scale, y: float, name: str, marks: list[tuple[int, int, float]]) -> None:
    """A row of the trunk: from, to, and the seconds that were lost. Those that begin in half a pixel are one."""
    sheet.words(LEFT - 8, y + 9, name, 'label', 'end')
    sheet.box(LEFT, y + 4, WIDE, 2, 's-good')
    groups: dict[int, list[tuple[int, int, float]]] = {}
    for mark in marks:
        groups.setdefault(int(scale.x(mark[0]) * 2 / scale.coarse), []).append(mark)
    for each in groups.values():
        first, last, lost = each[0][0], each[-1][1], sum(seconds for *_, seconds in each)
        title = f'{name}: {scale.span(first, last)}'
        if lost:
            title = f'{scale.words(first, each[0][2])}: {lost:.3f} s were lost'
        wide = max(scale.x(last) - scale.x(first), 2.4)
        for kind in ('s-alarm', 'h-cross') if wide > 5 else ('s-alarm',):
            sheet.box(scale.x(first), y, wide, 10, kind, title)


def outages(sheet: Sheet, scale: Scale, top: float, bottom: float) -> None:
    """Grey gaps where no octets of the trunk came, over what is drawn."""
    for (place, _, lost), (_, room) in zip(scale.outages, scale.gaps):
        wide, long = max(room / scale.octets, 2.4), duration(lost * SECOND)
        title = f'no octets of the trunk: {scale.words(place, lost)} to {scale.words(place)}, {long}'
        sheet.box(scale.x(place) - wide, top, wide, bottom - top, 'outage', title)
        if wide > 6.5 * len(long):
            sheet.words(scale.x(place) - wide / 2, top + 11, long, 'tick', 'middle')


# ---- the circuits ----

def pixels(row: Row, facts: Facts, scale: Scale) -> Pixels:
    """A circuit's cells by pixels of the sheet."""
    out: Pixels = {}
    for column, cell in (row.cells | {facts.column: row.cell}).items():
        place = column * facts.width
        if place + facts.width > scale.start and place < scale.end and not cell.is_empty():
            out.setdefault(int(scale.x(place) - LEFT), Cell()).join(cell)
    return out


def circuits(facts: Facts, rows: list[Row], scale: Scale, seen: dict[int, Pixels]) -> str:
    """The states of the lines over time, with commands and datagrams."""
    sheet = Sheet(24 + len(rows) * ROW, 'The states of the circuits over time')
    sheet.grid(scale, 16, sheet.height)
    for n, row in enumerate(rows):
        y, column = 26 + n * ROW, max(1.0, facts.width / scale.octets)
        sheet.words(LEFT - 8, y + 9, f'{row.number} {row.role}', 'label', 'end')
        _line(sheet, row, scale, y)
        _lanes(sheet, row, scale, seen[row.number], column, y + 13)
        _unheard(sheet, row, scale, seen[row.number], column, y + 13)
        _astray(sheet, row, scale, y + 13)
        _commands(sheet, row, scale, y)
    outages(sheet, scale, 16, sheet.height)
    return sheet.drawn()


def few(made: Callable[[float], list[T]], least: float, most: float) -> list[T]:
    """What is made with a measure, which is doubled until it is no more than `most`."""
    while len(out := made(least)) > most:
        least *= 2
    return out


def _spans(row: Row, scale: Scale, least: float) -> list[tuple[int, int, str, int]]:
    """The states of a line, those shorter than this joined: first, last, state, count."""
    out: list[tuple[int, int, str, int]] = []
    for first, last, state in row.states.between(scale.start, scale.end):
        before = out[-1] if out else None
        if before and last - first < least and before[1] - before[0] < least:
            out[-1] = before[0], last, min(before[2], state, key=row.states.rank.index), before[3] + 1
        else:
            out.append((first, last, state, 1))
    return out


def _line(sheet: Sheet, row: Row, scale: Scale, y: float) -> None:
    for first, last, state, count in few(partial(_spans, row, scale), scale.octets / 2, MOST_SPANS / scale.coarse):
        high, down, hatch = SHAPES[state]
        x, wide = scale.x(first), scale.x(last) - scale.x(first)
        means = f'{count} states, {MEANS[state]} among them' if count > 1 else MEANS[state]
        for kind in (f's-{state}', f'h-{hatch}') if hatch else (f's-{state}',):
            sheet.box(x, y + down, wide, high, kind, f'circuit {row.number} {means}: {scale.span(first, last)}')
        if wide > 7 * len(MEANS[state]) and state in ('acked', 'answered'):
            sheet.words(x + 4, y + 9, MEANS[state], f'in on-{state}')


def _lanes(sheet: Sheet, row: Row, scale: Scale, seen: Pixels, column: float, y: float) -> None:
    """Datagrams under a line's bar: sent, admitted, refused."""
    packet = column + 1.6 * row.ptime / 1000 * SECOND / scale.octets
    for n, what in enumerate(LANES):
        columns = sorted(x for x, cell in seen.items() if getattr(cell, what))
        for first, last in few(partial(runs, columns), packet if what != 'refused' else 4.0, MOST_RUNS / scale.coarse):
            whole = joined(seen[x] for x in range(first, last + 1) if x in seen)
            words = refusals(whole) if what == 'refused' else f'{getattr(whole, what)} {LANES[what]}'
            sheet.box(LEFT + first, y + 3.4 * n, last - first + 1, 2.2 + (n == 2), f'd-{what}',
                      f'circuit {row.number}: {words}')


def _gaps(row: Row, scale: Scale, seen: Pixels, column: float) -> list[tuple[float, float]]:
    """Stretches without datagrams on an open path: of two seconds or more, or from the start of a call to its end."""
    came = sorted(x for x, cell in seen.items() if cell.admitted or cell.refused)
    found = []
    for first, last, state in row.states.between(scale.start, scale.end):
        begin, end = scale.x(first) - LEFT, scale.x(last) - LEFT
        edges = [begin - column, *came[bisect_left(came, begin):bisect_right(came, end)], end] if state in OPEN else []
        least = max((NOTHING if len(edges) > 2 else SECOND / 2) / scale.octets, 2.0)
        found += [(before + column, after) for before, after in zip(edges, edges[1:])
                  if after - before - column >= least]
    while len(found) * scale.coarse > MOST_GAPS:
        found = sorted(found, key=lambda gap: gap[0] - gap[1])[:len(found) // 2]
    return found


def _unheard(sheet: Sheet, row: Row, scale: Scale, seen: Pixels, column: float, y: float) -> None:
    """Dashes in the middle line without datagrams, and marks on a line of another law or order, or of silence: the
    upper one for the time slot, the middle one for datagrams."""
    gaps = _gaps(row, scale, seen, column)
    sheet.path((f'M{LEFT + first:.0f} {y + 4.5:g}H{LEFT + last:.0f}' for first, last in gaps), 'nothing',
               f'circuit {row.number}: nothing comes, and the path is open')
    for odd in label_odd(joined(seen.values())):
        top = y - 1 if odd.way == 'slot' else y + 2.4
        sheet.path((f'M{LEFT + x} {top:g}h4v4.2h-4z' for x in apart(odd.columns(seen), 10)), odd.mark(),
                   f'circuit {row.number}: {odd.words}')


def _astray(sheet: Sheet, row: Row, scale: Scale, y: float) -> None:
    """Anomalies of what is sent, by a capture: dashes on the upper line if it goes to another host than the peer's,
    crosses if the network answers that it does not arrive."""
    if row.wire is None:
        return
    if row.wire.is_astray():
        sheet.path((f'M{scale.x(first):.0f} {y + 1.1:g}H{scale.x(last):.0f}'
                    for first, last, state in row.states.between(scale.start, scale.end) if state in OPEN),
                   'nothing astray', f'circuit {row.number}: goes to another address than the peer\'s come from')
    crosses = sorted({int(scale.x(place) / 8) * 8 for place in row.wire.places if scale.start <= place <= scale.end})
    sheet.path((f'M{x - 2} {y - 1:g}l4 4m0 -4l-4 4' for x in crosses), 'c-refused undelivered',
               f'circuit {row.number}: {", ".join(row.wire.answers)}')


def _commands(sheet: Sheet, row: Row, scale: Scale, y: float) -> None:
    """A triangle for a command done, a cross for one refused, a ring for a resynchronised jitter buffer."""
    drawn = set[tuple[int, Answer]]()
    for (_, answer), command in row.commands.items():
        key = int(scale.x(command.place) / (3 * scale.coarse)), answer
        if scale.start <= command.place <= scale.end and key not in drawn:
            drawn.add(key)
            left, top, rest = COMMANDS[answer]
            more = f' and {command.more} more' if command.more else ''
            sheet.path(f'M{scale.x(command.place) + left:.1f} {y + top}{rest}', f'c-{answer}',
                       f'{scale.words(command.place)}: {command.words} {row.number}: {command.answer}{more}')


# ---- datagrams against the playout ----

class PlayoutChart:
    """How long before its turn each datagram of a circuit arrived."""

    def __init__(self, row: Row, facts: Facts, scale: Scale, seen: Pixels) -> None:
        self.row, self.scale, self.seen, self.wide = row, scale, seen, facts.width / scale.octets
        self.whole = joined(seen.values())
        refused = self.whole.refused
        self.others = [code for code in sorted(refused, key=lambda code: -refused[code][0]) if code not in UNTIMELY]
        most = max(row.prefill, self.whole.high if self.whole.admitted else 0) / 8
        self.top = TOPS[-1] if 16 in refused else next((top for top in TOPS if most < top * 0.92), TOPS[-1])
        self.bottom = -0.22 * self.top if 14 in refused else -0.06 * self.top

    def y(self, ms: float) -> float:
        inside = min(max(ms, self.bottom), self.top)
        return TOP + (self.top - inside) / (self.top - self.bottom) * HIGH

    def drawn(self) -> str:
        row, whole = self.row, self.whole
        strips = [([x for x, cell in self.seen.items() if code in cell.refused], 1.4,
                   f'{whole.refused[code][0]} {name_of(code)}', 'tick' if code == NOT_OPEN else 'bad', 'p-strip')
                  for code in self.others]
        strips += [(odd.columns(self.seen), 4, odd.words, 'tick' if odd.what == 'silent' else 'bad', odd.mark())
                   for odd in label_odd(whole)]
        sheet = Sheet(TOP + HIGH + 6 + 13 * len(strips), f'Datagrams of circuit {row.number} against the '
                      f'jitter buffer: {whole.admitted} received; discarded: {refusals(whole) or "none"}')
        self._frame(sheet)
        self._timely(sheet)
        for n, strip in enumerate(strips):
            self._strip(sheet, TOP + HIGH + 8 + 13 * n, *strip)
        self._hover(sheet)
        outages(sheet, self.scale, TOP, sheet.height)
        words = [('label strong', f'circuit {row.number}'), ('tick', f'prefill {row.prefill / 8:g} ms')]
        words += [('bad', f'{whole.refused[code][0]} {name_of(code)}') for code in UNTIMELY if code in whole.refused]
        if whole.lost > 0:
            words.append(('tick', f'{whole.lost} lost'))
        for n, (kind, text) in enumerate(words):
            sheet.words(4, 30 + 14 * n, text, kind)
        return sheet.drawn()

    def _frame(self, sheet: Sheet) -> None:
        window = min(WINDOW / 8, self.top)
        sheet.box(LEFT, self.y(window), WIDE, self.y(0) - self.y(window), 'window')
        sheet.grid(self.scale, TOP, TOP + HIGH)
        step = next(step for step in (20, 40, 80, 100) if self.top / step <= 5)
        for ms in range(0, int(self.top) + 1, step):
            words = f'{ms} ms' if ms + step > self.top else str(ms)     # (beside the prefill there is little room)
            sheet.words(LEFT - 6, max(self.y(ms) + 3, TOP + 7), words, 'tick', 'end')
        sheet.path(f'M{LEFT} {self.y(0):.1f}h{WIDE}', 'zero')
        sheet.path(f'M{LEFT} {self.y(self.row.prefill / 8):.1f}h{WIDE}', 'prefill', 'the prefill')

    def _timely(self, sheet: Sheet) -> None:
        """Those admitted, from the least to the most, column by column, and triangles for Late and Full."""
        cells = sorted(self.seen.items())
        sheet.path((f'M{LEFT + x + self.wide / 2:.1f} {self.y(cell.high / 8) - 0.9:.1f}'
                    f'v{self.y(cell.low / 8) - self.y(cell.high / 8) + 1.8:.1f}' for x, cell in cells if cell.admitted),
                   'p-admitted', width=max(self.wide, 1.8))
        for code, tip in UNTIMELY.items():
            marks = []
            for x in apart([x for x, cell in cells if code in cell.refused], 3):
                _, low, high = self.seen[x].refused[code]
                top = max(self.y(low / 8), self.y(0) + 4) if code == 14 else min(self.y(400), self.y(high / 8)) - 1
                marks.append(f'M{LEFT + x} {top:.1f}{tip}')
            sheet.path(marks, 'p-refused')

    @staticmethod
    def _strip(sheet: Sheet, y: float, columns: list[int], least: float, words: str, kind: str, mark: str) -> None:
        """A row of marks at columns, with a least width, and its words: what has no place in the window."""
        sheet.words(LEFT - 6, y + 8, words, kind, 'end')
        sheet.path(f'M{LEFT} {y + 4.5}h{WIDE}', 'grid')
        sheet.path((f'M{LEFT + first} {y}h{max(last - first + 1, least):g}v9h-{max(last - first + 1, least):g}z'
                    for first, last in runs(sorted(columns), 1)), mark)

    def _hover(self, sheet: Sheet) -> None:
        """The contents of each stretch of the drawing, shown at the pointer."""
        wide = 20 * self.scale.coarse
        for begin in range(0, WIDE, wide):
            whole = joined(self.seen[x] for x in range(begin, begin + wide) if x in self.seen)
            words = f'{whole.admitted} received'
            if whole.admitted:
                words += f', {whole.low / 8:.1f} to {whole.high / 8:.1f} ms before their turn'
            if whole.refused:
                words += f'; discarded: {refusals(whole)}'
            if whole.admitted or whole.refused:
                title = f'{self.scale.words(self.scale.place(LEFT + begin))}, {duration(wide * self.scale.octets)}: '
                sheet.box(LEFT + begin, TOP, wide, sheet.height - TOP, 'over', title + words)
