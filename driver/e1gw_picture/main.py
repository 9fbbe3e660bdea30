"""e1gw-picture: a session as one page of HTML."""
from __future__ import annotations

import argparse
import os
import sys
from collections.abc import Iterator

from e1gw_common.faults import Parser, checked
from e1gw_common.frames import raw_words_of
from e1gw_common.lines import read_config
from e1gw_common.session import OCTETS_A_SECOND, circuits_of
from e1gw_common.session_clock import second_of
from e1gw_common.session_files import InputError, RecordedSession
from .beginning import Begun, begin
from .capture import merged
from .facts import Facts
from .page import draw
from .progress import Progress
from .reading import SessionReading, facts_of

UNITS = {'ms': 0.001, 's': 1.0, 'm': 60.0, 'h': 3600.0, 'd': 86400.0}

ABOUT = '''Draws a session as one page of HTML without scripts or network: the trunk's alarms in both directions, the
thirty circuits over time with their datagrams and commands, each troubled circuit's datagrams in its jitter buffer, the
counts with their causes, and anomalies in words.

SESSION is the session given to the gateway (e1gw-session(5)): a file, - for standard input, or a folder of sessions
kept by e1gw-watch. What the gateway did comes from `e1gw replay`. --capture takes the datagrams from a capture (pcap or
pcapng), by the ports of the configuration.'''


def span(text: str) -> int:
    """The octets of the trunk in a time of 1 ms to some years. ValueError for others."""
    unit = text[len(text.rstrip('mshd')):]
    value = float(text.removesuffix(unit)) * UNITS.get(unit or 's', 0.0)
    if not 0.001 <= value <= 1e9:
        raise ValueError
    return int(value * OCTETS_A_SECOND)


def parser() -> argparse.ArgumentParser:
    words = Parser(prog='e1gw-picture', description=ABOUT,
                   formatter_class=argparse.RawDescriptionHelpFormatter,
                   epilog='Example: e1gw-picture --config trunk1.toml -o page.html trunk1.rec')
    words.add_argument('session', metavar='SESSION', help='the session given to the gateway')
    words.add_argument('--config', metavar='FILE', help='the configuration [default: that of the kept session]')
    words.add_argument('--capture', metavar='FILE', help='a capture of the datagrams')
    words.add_argument('-o', '--output', metavar='PAGE', help='the page to write [default: standard output]')
    words.add_argument('--last', type=checked(span, 'a time such as 60s, 5m or 250ms'), metavar='TIME',
                       help='only the last part, such as 60s or 5m')
    words.add_argument('--circuits', metavar='LIST', help='only these circuits, such as 1,2,7 or 3-9', type=checked(
        lambda text: sorted({n for word in text.split(',') for n in circuits_of(word)}),
        'a list of circuits, 1 to 30, such as 1,2,7 or 3-9'))
    words.add_argument('--begin', type=checked(second_of, 'a time such as 2026-11-23T07:30:00Z'), metavar='TIME',
                       help='when the session began, in UTC')
    words.add_argument('--program', metavar='E1GW', help='the program [default: that of this repository, or e1gw]')
    return words


def captured(options: argparse.Namespace, begun: Begun, octets: Iterator[bytes]) -> tuple[Facts, Iterator[bytes]]:
    """The facts of a session, and its octets, with the datagrams of a capture if asked."""
    session, facts = begun.session, facts_of(begun, options.last)
    begin = options.begin if options.begin is not None else session.begin
    if options.capture:
        octets, begin = merged(octets, options.capture, read_config(begun.config), facts, begin, session.place)
        facts.told = ' (placed by the times of the capture)'
    facts.begin = None if begin is None else begin - begun.place / OCTETS_A_SECOND
    return facts, octets


def gathered(options: argparse.Namespace, begun: Begun) -> tuple[Facts, str]:
    """The facts of a session, and a word about its end."""
    progress = Progress(begun.session, sys.stderr.isatty())
    facts, octets = captured(options, begun, progress.octets())
    reading = SessionReading(facts, begun.replay, begun.program, begun.place)
    try:
        reading.read(octets, progress.read)
    finally:
        progress.end()
    return facts, begun.replay.end()


def failure_of(word: str, session: RecordedSession) -> str:
    """Why a session failed before its end, and for a trunk's octets the command that makes a session of them; nothing
    for one that ends inside a record, as one still being written."""
    if not word.startswith('fault') or 'Truncated' in word:
        return ''
    raw = raw_words_of(session.files[0]) if session.files[0] != '-' else None
    return f'{session.files[0]}: the session failed: {word}{f": {raw}" if raw else ""}'


def drawn(options: argparse.Namespace) -> tuple[str, bool]:
    """The page asked for, and whether its session is complete."""
    begun, middle = begin(options.session, options.last, options.config, options.program)
    facts, word = gathered(options, begun)
    failure = failure_of(word, begun.session)
    name = os.path.basename(os.path.normpath(options.session))
    title = f'e1gw: {name if name != "-" else "a session"}'
    notes = [*[f'{failure or word}; what was before it is drawn'] * bool(word), *[middle] * bool(middle)]
    for note in notes:
        print(f'e1gw-picture: {note}', file=sys.stderr)
    return draw(facts, title, options.circuits, notes), not failure


def main() -> int:
    options = parser().parse_args()
    try:
        page, is_whole = drawn(options)
        if options.output and options.output != '-':
            with open(options.output, 'w', encoding='utf-8') as file:
                file.write(page)
        else:
            sys.stdout.write(page)
            sys.stdout.flush()
    except BrokenPipeError:
        os.dup2(os.open(os.devnull, os.O_WRONLY), 1)
        return 1
    except OSError as fault:
        print(f'e1gw-picture: {fault.filename or ""}: {fault.strerror}', file=sys.stderr)
        return 1
    except (InputError, ValueError, KeyError) as fault:
        print(f'e1gw-picture: {fault}', file=sys.stderr)
        return 1
    return 0 if is_whole else 1
