"""A session that is to be drawn, and `e1gw replay` at its beginning: of a piece of a ring from the state next to it."""
from __future__ import annotations

import functools
import itertools
import os
import re
import subprocess
import tempfile
from collections.abc import Iterable, Iterator
from contextlib import suppress
from dataclasses import dataclass

from e1gw_common.session_files import InputError, RecordedSession, open_session
from e1gw_common.lines import wait_words
from e1gw_common.programs import program_of
from e1gw_common.session import MULTIFRAME, Kind, records_for
from .replay import Replay

MIDDLE = 'the session begins in the middle; calls that were under way show as fault or blocked until they end'
NO_CONFIG = 'no configuration: name it by --config'


@dataclass
class Begun:
    """A session, what its program was started with, and the place in a sent multiframe at which it begins."""
    session: RecordedSession
    config: str
    program: str
    replay: Replay
    place: int = 0


@functools.cache
def replaying(program: str | None) -> str:
    """The program, which need not be proved. (That is said once.)"""
    return program_of(program, '--unproved')


def started(session: RecordedSession, config: str, program: str | None, state: str = '') -> Begun:
    """A session with a new gateway, or with the one of a state."""
    path, place = replaying(program), session.place % MULTIFRAME if state else 0
    return Begun(session, config, path, Replay(path, config, state, session.wait), place)


def from_state(session: RecordedSession, config: str, program: str | None) -> tuple[Begun | None, str]:
    """A session that begins in the middle, with the state next to it; or why that is not used: the program refuses it,
    or begins a circuit as new since it was configured otherwise."""
    if not session.state:
        return None, f'{os.path.basename(session.files[0])} has no state next to it'
    begun = started(session, config, program, session.state)
    why = begun.replay.last_error()
    if not why:
        return begun, ''
    with suppress(InputError):
        begun.replay.end()
    return None, f'{session.state} is not used ({why})'


def begin(path: str, last: int | None, config: str | None, program: str | None) -> tuple[Begun, str]:
    """A session by its path, and a note about its beginning. The last octets of a ring may be enough. If the gateway is
    not known where the session begins, it is a new one."""
    notes, asked, session = list[str](), '', RecordedSession([path])
    for session in (open_session(path, last), open_session(path)) if path != '-' else (session,):
        asked = config or session.config or ''
        if not asked:
            if path != '-':
                open(session.files[0], 'rb').close()    # a path that is wrong has no configuration either
            raise InputError(f'{path}: {NO_CONFIG}')
        if not session.middle:
            return started(session, asked, program), '; '.join(notes)
        begun, why = from_state(session, asked, program)
        if begun:
            return begun, '; '.join(notes)
        notes += [why] * (why not in notes)
    return started(session, asked, program), '; '.join([*notes, MIDDLE])


def begin_at(session: RecordedSession, place: int, circuit: int, config: str, program: str | None,
             ) -> tuple[Begun, Iterator[bytes]]:
    """A session from about a place of it on, and its octets, as far as they concern a circuit: up to there it is
    replayed, and nothing is gathered. InputError if it cannot be known what the gateway was there."""
    if session.middle and not session.state:
        raise InputError(f'{os.path.basename(session.files[0])} has no state next to it')
    with tempfile.TemporaryDirectory(prefix='e1gw-cut-') as folder:
        path, saved = replaying(program), os.path.join(folder, 'state')
        pieces, at = _of_circuit(circuit, session.octets()), 0
        load = ['--load', session.state] if session.state else []
        with tempfile.TemporaryFile() as errors, subprocess.Popen(
                [path, 'replay', '--config', config, *load, *wait_words(session.wait), '--save', saved],
                stdin=subprocess.PIPE, stdout=subprocess.DEVNULL, stderr=errors) as process:
            assert process.stdin
            with suppress(BrokenPipeError), process.stdin as sink:      # (if it has ended, it says why)
                for piece, trunk in pieces:
                    if at + trunk > place:
                        pieces = itertools.chain([(piece, trunk)], pieces)
                        break
                    sink.write(piece)
                    at += trunk
            process.wait()
            errors.seek(0)
            others = re.compile(rf'circuit (?!{circuit} )\d+ begins as new')      # (whose configuration has changed)
            for said in errors.read().decode(errors='replace').splitlines():
                if not others.fullmatch(said):
                    raise InputError(f'{session.state or session.files[0]} is not used ({said}); --config names the '
                                     'file of that time')
        return started(session.cut(at), config, program, saved), (piece for piece, _ in pieces)


def _of_circuit(circuit: int, octets: Iterable[bytes]) -> Iterator[tuple[bytes, int]]:
    """The whole records that concern a circuit, many at a time, with the octets of the trunk in them. By the commands
    of the others it is known who speaks."""
    held = b''
    for piece in octets:
        held += piece
        size, trunk, records = records_for(circuit, held, Kind.COMMAND)
        yield records, trunk
        held = held[size:]
