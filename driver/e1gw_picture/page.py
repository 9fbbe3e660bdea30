"""The page: one file without network or scripts, made of page.html."""
from __future__ import annotations

import html
import math
import os
import re
import string
import time
from collections.abc import Iterable, Mapping, Sequence
from urllib.parse import quote

from e1gw_common.lines import OPEN, circuit_words
from e1gw_common.sound import HeardSamples
from . import charts
from .facts import SECOND, Cell, Facts, Row, joined
from .findings import NO_FAULT, Anomaly, findings
from .svg import Scale, duration

MOST = 1_900_000            # octets of a page
LISTED = 400                # rows of a table
FEW = 8                     # anomalies that are printed with their causes
PARTS, EACH = 24, 5         # of a call, at most, and seconds of each, at most if there are fewer
MINOR = ('silent came', 'silent slot', 'blocked', 'command', 'unacknowledged', 'fault', 'none', 'port')
FINE = f'<p class="fine">{NO_FAULT}</p>'
ARROW = ' \N{RIGHTWARDS ARROW} '
with open(os.path.join(os.path.dirname(__file__), 'page.html'), encoding='utf-8') as template:
    PAGE = string.Template(template.read())
KEY = re.compile(r'<span data-of="([\w -]+)">.*?</span>\n', re.DOTALL)     # an entry of the key, and what it is of


def escape(words: object) -> str:
    return html.escape(str(words))


def table(caption: str, heads: Iterable[str], rows: Sequence[tuple[object, ...]], kind: str = '') -> str:
    """A table with numbers at the right, of a class."""
    def cell(value: object) -> str:
        kind = ' class="n"' * isinstance(value, (int, float))
        return f'<td{kind}>{escape(value)}</td>'
    body = ''.join(f'<tr>{"".join(map(cell, row))}</tr>' for row in rows[:LISTED])
    more = f'<p class="note">{len(rows) - LISTED} rows more.</p>' if len(rows) > LISTED else ''
    return (f'<div class="wide"><table class="{kind}"><caption>{escape(caption)}</caption><tr>'
            f'{"".join(f"<th>{escape(head)}</th>" for head in heads)}</tr>{body}</table></div>{more}')


def is_quiet(row: Row, whole: Cell) -> bool:
    """Only idle, or a line that never left its first state, which is not known to be in fault."""
    states = [state for _, state in row.states.items]
    is_still = whole.is_empty() and not row.commands and not row.fault
    return is_still and states in (['fault'], ['fault', 'idle'], ['idle'])


def describe_levels(heard: Mapping[str, HeardSamples], way: str) -> str:
    """The levels of one direction, as played and in the other law or order."""
    seen = heard.get(way)
    if not seen or not (seen.power and seen.under_other):
        return ''
    return ' / '.join(f'{10 * math.log10(power / seen.looks):.0f}' for power in (seen.power, seen.under_other))


def found_item(group: list[Anomaly], shown: set[int]) -> str:
    """An anomaly of the trunk, or of all circuits that have it."""
    first, circuits, others = group[0], sorted({each.circuit for each in group}), {each.seen for each in group}
    if not first.circuit:
        who = 'the trunk'
    elif len(circuits) > 1:
        who = f'{len(circuits)} circuits ({circuit_words(circuits)})'
    else:
        who = f'circuit {circuits[0]}'
        who = f'<a href="#c{circuits[0]}">{who}</a>' if circuits[0] in shown else who
    seen = escape(first.seen)
    if 1 < len(others) <= 4:
        seen = '; '.join(f'{each.circuit}: ' * (len(circuits) > 1) + escape(each.seen) for each in group)
    elif len(others) > 1:
        seen += f' <span class="note">(circuit {first.circuit}; the others alike)</span>'
    seen, hint = (re.sub('`(.*?)`', r'<code>\1</code>', words) for words in (seen, escape(first.why())))
    return (f'<li class="{"alert" if first.bad() else "plain"}"><b>{who}</b>{seen}'
            f'<span class="hint"> &rarr; {hint}</span></li>')


def found_list(found: list[Anomaly], shown: set[int]) -> str:
    """Anomalies, one entry for circuits with the same."""
    groups: dict[tuple[object, ...], list[Anomaly]] = {}
    for each in found:
        groups.setdefault((each.kind, each.bad(), not each.circuit and each.seen), []).append(each)
    items = [found_item(group, shown)
             for group in sorted(groups.values(), key=lambda group: (not group[0].bad(), group[0].circuit > 0))]
    return f'<ul class="found{" many" * (len(items) > FEW)}">{"".join(items)}</ul>' if items else FINE


class PicturePage:
    """The drawings of facts."""

    def __init__(self, facts: Facts, title: str, circuits: list[int] | None = None,
                 notes: Iterable[str] = (), sound: str = '') -> None:
        self.facts, self.title, self.notes, self.sound = facts, title, list(notes), quote(sound)
        self.scale = Scale(facts.start, max(facts.place, facts.start + 256), facts.begin, facts.breaks)
        rows = [facts.rows[n] for n in circuits or sorted(facts.rows)]
        self.whole = {row.number: row.count() for row in rows}
        self.quiet = [] if circuits else [row.number for row in rows if is_quiet(row, self.whole[row.number])]
        self.rows = [row for row in rows if row.number not in self.quiet]
        self.seen = {row.number: charts.pixels(row, facts, self.scale) for row in self.rows}
        found = [each for each in findings(facts) if not each.circuit or each.circuit in self.whole]
        troubled = {each.circuit for each in found if each.kind not in MINOR}
        busy = [row for row in self.rows if self.whole[row.number].admitted or self.whole[row.number].refused]
        self.troubled = [row for row in busy if row.number in troubled]
        self.even = [row for row in busy if row.number not in troubled]
        self.found = found_list(found, {row.number for row in busy})

    def summary(self) -> str:
        """The first lines: time, duration, counts."""
        facts, wholes = self.facts, self.whole.values()
        when = '' if facts.begin is None else time.strftime('%Y-%m-%d %H:%M:%S UTC, ',
                                                            time.gmtime(self.scale.clock.second(facts.start)))
        calls, answers = (sum(whole.counts[name] for whole in wholes) for name in ('calls', 'answers'))
        up = sum(state in OPEN for row in self.rows
                 for *_, state in row.states.between(facts.start, facts.start + 1))
        return ' &middot; '.join((
            f'{when}{duration(facts.place - facts.start)} of the trunk',
            f'{calls} call{"s" * (calls != 1)}, {answers} answered{f", {up} connected before" if up else ""}',
            f'packets: {sum(whole.sent for whole in wholes)} sent, {sum(whole.admitted for whole in wholes)} received, '
            f'{sum(whole.discarded() for whole in wholes)} discarded{facts.told}'))

    def _playouts(self, rows: list[Row]) -> str:
        drawn = (f'<div class="wide end" id="c{row.number}">'
                 f'{charts.PlayoutChart(row, self.facts, self.scale, self.seen[row.number]).drawn()}</div>'
                 for row in rows)
        return f'<div class="two">{"".join(drawn)}</div>'

    def playouts(self) -> str:
        """The drawings of jitter buffers, the troubled circuits first."""
        out = ''
        if self.facts.under_way:
            circuits = circuit_words(self.facts.under_way)
            out = (f'<p class="note">Calls were up when the session began (circuits {circuits}): of the first '
                   'of them that each circuit has it is counted from its first datagram, as if that had come just the '
                   'prefill before its turn.</p>')
        if not (self.troubled or self.even):
            return out + '<p>No datagrams came. (A session that was kept of <code>serve</code> may hold none: give a ' \
                         'capture.)</p>'
        even = ''
        if self.even:
            names = circuit_words(row.number for row in self.even)
            even = (f'<details{" open" * (not self.troubled)}><summary>Circuits whose datagrams came in time and '
                    f'evenly: {names}</summary>{self._playouts(self.even)}</details>')
        return out + self._playouts(self.troubled) + even

    # ---- a call with its sound ----

    def player(self) -> str:
        """The sound of the whole call."""
        return (f'<h2>The speech</h2><audio controls preload="metadata" src="{self.sound}"></audio><p class="note">'
                'Left: what the trunk said; right: what it was sent of the network.</p>') * bool(self.sound)

    def sound_parts(self) -> str:
        """The call in parts of some seconds, each drawn for itself, with its sound."""
        facts, whole = self.facts, self.facts.place - self.facts.start
        count = min(PARTS, -(-whole // (EACH * SECOND)))
        inner = ((facts.start + n * whole // count) // facts.width * facts.width for n in range(1, count))
        edges = [facts.start, *inner, facts.place]      # (between columns, so that each is in one part)
        parts = map(self._part, edges, edges[1:])
        return f'<h2>Part by part</h2>{"".join(parts)}' if self.sound and self.scale.coarse < 4 else ''

    def _part(self, first: int, last: int) -> str:
        facts, scale = self.facts, Scale(first, last, self.facts.begin, self.facts.breaks)
        scale.coarse = self.scale.coarse
        seen = {row.number: charts.pixels(row, facts, scale) for row in self.rows}
        cell = joined(each for pixels in seen.values() for each in pixels.values())
        words = f'{scale.words(first)}, {duration(last - first)}: {cell.sent} sent, {cell.admitted} received'
        words += f'; discarded: {charts.refusals(cell)}' * bool(cell.refused)
        played = ''.join(charts.PlayoutChart(row, facts, scale, seen[row.number]).drawn() for row in self.rows)
        begin, end = ((place - facts.start) / SECOND + self.scale.clock.seconds_lost(facts.start, place)
                      for place in (first, last))
        return (f'<details><summary>{escape(words)}</summary><audio controls preload="none" '
                f'src="{self.sound}#t={begin:g},{end:g}"></audio><div class="wide end">'
                f'{charts.circuits(facts, self.rows, scale, seen)}{played}</div></details>')

    # ---- the tables ----

    def _counts_of(self, row: Row) -> tuple[object, ...]:
        whole, states = self.whole[row.number], row.states
        margin = (f'{whole.low / 8:.0f} / {whole.total / whole.admitted / 8:.0f} / {whole.high / 8:.0f}'
                  if whole.admitted else '')
        return (row.number, row.role, charts.MEANS[states.value], whole.counts['calls'],
                whole.counts['answers'], f'{self.facts.open_for(row) / SECOND:.1f}', whole.sent, whole.admitted,
                whole.discarded(), charts.refusals(whole), whole.counts['repetitions'], max(0, whole.lost),
                margin, describe_levels(whole.heard, 'order' if 'order' in whole.heard else 'came'),
                describe_levels(whole.heard, 'slot'),
                f'{row.codec} {row.payload}', ARROW.join(filter(None, (row.local, row.peer))))

    def counts(self) -> str:
        return table('Each circuit: counts; ms before their turn; levels, as played / in the other law or order', (
            'circuit', 'role', 'at the end', 'calls', 'answered', 'connected, s', 'sent', 'received', 'discarded',
            'causes', 'repeated', 'lost', 'least / mean / most ms', 'came, dBm0', 'slot, dBm0', 'codec, type',
            f'receives at{ARROW}sends to'), [self._counts_of(row) for row in self.rows], 'counts')

    def _times(self, first: int, last: int) -> tuple[str, str, str]:
        return self.scale.words(first), self.scale.words(last), self.scale.long(first, last)

    def tables(self) -> str:
        """The alarms, the commands and the states in words."""
        facts, scale = self.facts, self.scale
        alarms = [(name, *self._times(first, last)) for which, name in charts.ALARMS.items()
                  for first, last, on in facts.alarms[which].between(facts.start, facts.place) if on]
        alarms += [('no octets (outage)', scale.words(each.place, each.lost), scale.words(each.place),
                    duration(each.lost * SECOND)) for each in scale.outages]
        commands = [(row.number, scale.words(each.place), each.words + f', and {each.more} more' * (each.more > 0),
                     each.answer) for row in self.rows for each in row.commands.values() if each.place >= facts.start]
        states = [(row.number, *self._times(first, last), charts.MEANS[state]) for row in self.rows
                  for first, last, state in row.states.between(facts.start, facts.place)]
        return (table('Alarms of the trunk', ('alarm', 'from', 'to', 'for'), alarms)
                + table('Commands', ('circuit', 'at', 'command', 'answer'), commands)
                + table('The states of the circuits', ('circuit', 'from', 'to', 'for', 'state'), states))

    def drawn(self) -> str:
        facts, parts = self.facts, self.sound_parts()
        circuits = charts.circuits(facts, self.rows, self.scale, self.seen)
        quiet = f'<p class="note">Nothing but idle: circuits {circuit_words(self.quiet)}.</p>' if self.quiet else ''
        page = PAGE.substitute(
            title=escape(self.title), summary=self.summary(), found=self.found, quiet=quiet, counts=self.counts(),
            notes=''.join(f'<p><b>{escape(note)}</b></p>' for note in self.notes),
            trunk=charts.trunk(facts, self.scale), circuits=circuits, playouts=self.playouts(), tables=self.tables(),
            sound=self.player(), parts=parts)
        return KEY.sub(lambda entry: entry[0] * (f'class="{entry[1]}"' in circuits + parts), page)


def draw(facts: Facts, title: str, circuits: list[int] | None = None, notes: Iterable[str] = (), sound: str = ''
         ) -> str:
    """The page of facts, below 2 MB: detail is dropped if it would be longer. `sound` is that of a call, a file beside
    it."""
    page = PicturePage(facts, title, circuits, notes, sound)
    text = page.drawn()
    for coarse in (2, 4, 8, 16, 32):
        if len(text.encode()) <= MOST:
            break
        page.scale.coarse = coarse
        page.even.clear()
        del page.troubled[32 // coarse:]
        text = page.drawn()
    return text
