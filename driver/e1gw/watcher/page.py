"""The page of a trunk: the rows of its tables, made of the status, as HTML, and as what changes of them."""
from __future__ import annotations

import base64
import csv
import hashlib
import json
import os
import string
import time
from dataclasses import dataclass
from enum import StrEnum
from html import escape
from typing import Iterable, NamedTuple, Sequence

from e1gw_common.call_lines import CallLine
from e1gw_common.lines import State
from e1gw_common.session import CIRCUITS
from e1gw_common.session_clock import second_of
from ..ctl_all import TrunkHere, TrunkLine
from ..deaf import is_poor, refused_words, why_call_deaf, words_of_call, words_of_row
from ..events import ReadEvent
from ..files_status import FilesStatus
from ..metrics import NOT_OPEN, HeadLine, codec_word, head_of, states_of
from ..status import CircuitStatus, TrunkStatus


class Look(StrEnum):
    """How a row is shown, as its class: POOR where a hundredth of what should have come did not, BAD for a fault."""

    PLAIN = ''
    POOR = 'poor'
    BAD = 'bad'


class ShownRow(NamedTuple):
    """A row of a table: the texts of its cells."""

    cells: Sequence[str]
    look: Look = Look.PLAIN


Rows = Sequence[ShownRow]
Parts = dict[str, Rows]             # the rows of each body of a table, by its id

with open(os.path.join(os.path.dirname(__file__), 'page.html'), encoding='utf-8') as template:
    WHOLE = template.read()
STYLE, SCRIPT = (WHOLE.partition(f'<{tag}>')[2].partition(f'</{tag}>')[0] for tag in ('style', 'script'))
PAGE = string.Template(WHOLE)
STILL = string.Template(WHOLE.replace(f'<script>{SCRIPT}</script>', ''))
LATER = '<noscript><meta http-equiv="refresh" content="10"></noscript>'
SOON, AT_ONCE = (f'<meta http-equiv="refresh" content="{seconds}">' for seconds in (5, 1))
# Each table: its class, what it has, the heads of its columns, and the ids of its bodies.
TABLES: tuple[tuple[str, str, tuple[str, ...], Sequence[str]], ...] = (
    ('state', '', (), ['state']),
    ('alarms', '', ('alarm', 'since, UTC'), ['alarms']),
    ('circuits', 'Circuits', ('n', 'state', 'role', 'call for', 'codec', 'lost', 'jitter', 'discarded'),
     [f'c{n}' for n in CIRCUITS]),
    ('last calls', 'The last calls', ('ended, UTC', 'n', 'direction', 'for', 'by', 'codec', 'received', 'lost', 'late',
                                      'discarded', 'its speech, packets and picture'), ['calls']),
    ('last', 'The last events', ('at, UTC', 'event'), ['events']))
# What the page may do (Content Security Policy): it has this style and this script, and nothing else.
POLICY = "default-src 'none'; connect-src 'self'; base-uri 'none'; form-action 'none'; frame-ancestors 'none'"
POLICY += ''.join(f"; {what}-src 'sha256-{base64.b64encode(hashlib.sha256(text.encode()).digest()).decode()}'"
                  for what, text in (('style', STYLE), ('script', SCRIPT)))


@dataclass(frozen=True)
class PageNotes:
    """What a page shows beside the status: events, and lines of calls that have ended, the newest first; and by which
    words e1gw-call finds a call behind its id, if calls are kept."""

    events: Iterable[ReadEvent]
    ended: Iterable[str]
    kept: str | None


def clock(seconds: float) -> str:
    """A day and its time in UTC."""
    return time.strftime('%m-%d %H:%M:%S', time.gmtime(seconds))


def length(seconds: float) -> str:
    """A duration: 1:05, or 1:00:05."""
    hours, rest = divmod(max(0, int(seconds)), 3600)
    return f'{hours}:{rest // 60:02}:{rest % 60:02}' if hours else f'{rest // 60}:{rest % 60:02}'


def state_words(status: TrunkStatus, row: CircuitStatus) -> str:
    """The state of a circuit, with how far its block by the operator is, and why it hears nothing."""
    return NOT_OPEN if status.fault else ', '.join(filter(None, (*states_of(row), words_of_row(row))))


def look_of_circuit(status: TrunkStatus, row: CircuitStatus) -> Look:
    """That of a circuit, as far as is known."""
    is_bad = not status.fault and bool(words_of_row(row) or row.line.state is State.FAULT)
    return Look.BAD if is_bad else Look.PLAIN


def look_of_call(call: CallLine) -> Look:
    """That of a call, by its packets."""
    return Look.POOR if is_poor(call) else Look.PLAIN


def look_of_line(line: HeadLine) -> Look:
    """That of a line above the circuits."""
    return Look.BAD if line.is_bad else Look.POOR if line.is_poor else Look.PLAIN


def circuit_row(status: TrunkStatus, row: CircuitStatus) -> ShownRow:
    """A circuit: number, state, role, and of its call, if it is in one, how long it lasts, codec, loss and jitter, and
    what was discarded."""
    look, number = look_of_circuit(status, row), str(row.line.circuit)
    cells = [number, state_words(status, row), row.line.role]
    if not (call := next((call for call in status.calls if call.circuit == number), None)):
        return ShownRow([*cells, '', '', '', '', ''], look)
    begin = call.seized or call.answered
    age = status.time - second_of(begin) if begin else row.line.for_
    lost = call.lost.removeprefix('0')      # (shown if there is any)
    jitter = f'{row.packets.jitter_ms:.1f}' if {call.received, call.discarded} - {'', '0'} else ''
    return ShownRow([*cells, length(age), codec_word(row), lost, jitter, refused_words(call)],
                    look or look_of_call(call))


def ended_row(line: str, kept: str | None) -> ShownRow:
    """A call that has ended, by its line."""
    call = CallLine(*next(csv.reader([line])))
    begin, end = call.seized or call.answered, second_of(call.ended)
    lasted = length(end - second_of(begin)) if begin else ''
    return ShownRow([clock(end), call.circuit, call.direction, lasted, call.by, call.codec, call.received, call.lost,
                     call.late, words_of_call(call), call.call if kept is None else f'e1gw-call {call.call}{kept}'],
                    Look.BAD if why_call_deaf(call) else look_of_call(call))


def parts_of(status: TrunkStatus, notes: PageNotes) -> Parts:
    """The rows of all tables."""
    alarms = [ShownRow([each.words, clock(each.time)], Look.BAD) for each in status.alarms]
    return {'state': [ShownRow([line.text], look_of_line(line)) for line in head_of(status)],
            'alarms': alarms or [ShownRow(['no alarm', ''])],
            **{f'c{row.line.circuit}': [circuit_row(status, row)] for row in status.circuits},
            'calls': [ended_row(line, notes.kept) for line in notes.ended],
            'events': [ShownRow([clock(each.time), each.words]) for each in notes.events]}


def message_of(parts: Parts) -> bytes:
    """What a reader of events gets of some parts."""
    return f'data: {json.dumps(parts)}\n\n'.encode()


# ---- HTML ----

def body_of(name: str, rows: Rows) -> str:
    """A body of a table; its state, by which it is coloured, is the second cell of its first row."""
    state = rows[0].cells[1] if rows and rows[0].cells[1:] else ''
    return f'<tbody id="{name}" data-s="{escape(state)}">{"".join(map(row_of, rows))}</tbody>'


def row_of(row: ShownRow) -> str:
    """A row of a table. (The script of the page makes the same of it.)"""
    cells = ''.join(f'<td>{escape(cell)}</td>' for cell in row.cells)
    return f'<tr class="{row.look}">{cells}</tr>' if row.look else f'<tr>{cells}</tr>'


def table_of(kind: str, caption: str, heads: Iterable[str], bodies: Iterable[str]) -> str:
    """A table of a class."""
    head = ''.join(f'<th>{escape(each)}</th>' for each in heads)
    return (f'<div class="wide"><table class="{kind}">' + f'<caption>{escape(caption)}</caption>' * bool(caption)
            + f'<thead><tr>{head}</tr></thead>' * bool(head) + f'{"".join(bodies)}</table></div>')


def page_of(name: str, parts: Parts, more: Iterable[str]) -> bytes:
    """The page of a trunk, with links to `more` paths that there are."""
    tables = (table_of(kind, caption, heads, [body_of(each, parts[each]) for each in ids if each in parts])
              for kind, caption, heads, ids in TABLES)
    links = ''.join(f'<a href="{path}">{path[1:]}</a>' for path in (*more, '/status', '/metrics'))
    return PAGE.substitute(title=escape(name), refresh=LATER, links=links, tables='\n'.join(tables)).encode()


def outages_page(rows: Sequence[Sequence[str]]) -> str:
    """A page to print of outages, whose first row has the heads of the columns."""
    heads = [head.replace('_', ' ') for head in rows[0]]
    return STILL.substitute(title='Outages', refresh='', links='', tables=table_of(
        'last outages', '', heads, [body_of('outages', [*map(ShownRow, rows[1:])])]))


def waiting_page(seconds: float, most: float) -> bytes:
    """In place of one that has been in the making for so long, and takes `most` seconds at most."""
    words = f'The page is being drawn: {seconds:.0f} s of {most:.0f} at most. It comes by itself.'
    return STILL.substitute(title='e1gw', refresh=AT_ONCE, links='', tables=(
        f'<p>{words}</p><progress value="{seconds:.0f}" max="{most:.0f}"></progress>')).encode()


# ---- all trunks of a machine ----

HOST = '\0'             # in place of the host by which a reader has come


def look_of_trunk(trunk: TrunkHere) -> Look:
    """That of a trunk: BAD if it does not answer, or a line above its circuits tells of a fault."""
    is_bad = any(line.is_bad for line in head_of(trunk.status)) if trunk.status else trunk.is_in_service
    return Look.BAD if is_bad else Look.PLAIN


def trunk_row(trunk: TrunkHere, here: str) -> str:
    """A trunk with its circuits, a square each, and where its page is, as a reader sees it who has come to `here`;
    nothing of one that serves no page."""
    status = trunk.status or TrunkStatus(files=FilesStatus(http=('', 0)))
    if not status.files.http:
        return trunk_row(TrunkHere(False, TrunkLine(trunk.line.name, state='serves no page (--http)')), here)
    name, *cells, state = [escape(each) for each in trunk.line]
    host, port = status.files.http
    host = HOST if host in (here, '0.0.0.0', '::') else f'[{host}]' if ':' in host else host
    name = f'<a href="//{escape(host)}:{port}/">{name}</a>' if port else name
    lines = ''.join(square_of(status, row) for row in status.circuits)
    rest = ''.join(f'<td>{cell}</td>' for cell in reversed(cells))
    return f'<tr><td>{name}</td><td>{lines}</td><td class="{look_of_trunk(trunk)}">{state}</td>{rest}</tr>'


def square_of(status: TrunkStatus, row: CircuitStatus) -> str:
    """A circuit, coloured by its state."""
    state, look = escape(state_words(status, row)), circuit_row(status, row).look
    return f'<i class="{look}" data-s="{state}" title="{row.line.circuit} {state}"></i>'


def trunks_page(trunks: Iterable[TrunkHere], here: str) -> bytes:
    """The page of all trunks of this machine; those with the host `here`, or any, are where its reader has come to."""
    heads = 'trunk', 'circuits 1 to 30', 'state', 'late', 'lost', 'calls', 'up since, UTC', 'e1gw'
    rows = ''.join(trunk_row(each, here) for each in trunks)
    return STILL.substitute(title='Trunks of this machine', refresh=SOON, links='', tables=table_of(
        'trunks', '', heads, [f'<tbody>{rows}</tbody>'])).encode()
