"""Sessions that were kept: a file, or a folder of a ring, the .json of each file, and the octets."""
from __future__ import annotations

import json
import os
import shutil
import subprocess
import sys
from collections.abc import Iterator, Mapping
from contextlib import suppress
from dataclasses import dataclass, field, replace
from enum import StrEnum
from typing import IO

from .lines import SEIZURE_WAIT
from .plain import typed
from .session_clock import Break, FileNote, SessionClock, breaks_of, slips_of

PIECE = 1 << 16
ENDINGS = ('.e1gw', '.e1gw.zst', '.rec', '.rec.zst')


class InputError(Exception):
    """Why something can't be read or drawn, in words."""


class FileStart(StrEnum):
    """Whether a file begins where the gateway did."""

    START = 'start'
    MIDDLE = 'middle'


@dataclass(frozen=True)
class FileAbout:
    """What is said of a file of a ring in its .json (e1gw-watch(1))."""

    config: str | None = None
    config_sha256: str | None = None
    time: float | None = None
    monotonic: float = 0.0
    place: int | None = None
    seizure_wait: int = SEIZURE_WAIT
    begins: FileStart | None = None
    after: str | None = None
    slips: tuple[tuple[int, float], ...] = ()

    def note(self) -> FileNote | None:
        """For a clock; None if it does not say its place and its time."""
        if self.place is None or self.time is None:
            return None
        return FileNote(self.place, self.time, self.monotonic, self.slips)


@dataclass
class RecordedSession:
    """The files of a session, and the .json of the first of them."""
    files: list[str]
    config: str | None = None
    wait: int = SEIZURE_WAIT            # of a seizure, in milliseconds
    begin: float | None = None          # seconds since 1970
    middle: bool = False                # it does not begin where the gateway did
    slips: list[tuple[int, float]] | None = None        # place from its begin, and seconds; None where nobody noted
    breaks: list[Break] = field(default_factory=list)
    place: int = 0                      # where on the trunk it begins
    state: str = ''                     # the file of what the gateway was then; none for a new one

    @property
    def clock(self) -> SessionClock:
        """The times of its places."""
        return SessionClock(self.begin, tuple(self.breaks))

    def octets(self) -> Iterator[bytes]:
        """Those of its files, one behind the other; - is standard input."""
        for path in self.files:
            yield from pieces(sys.stdin.buffer) if path == '-' else octets_of(path)

    def cut(self, place: int) -> RecordedSession:
        """The same from a place on, where the gateway is another one."""
        return replace(self, begin=None if self.begin is None else self.clock.second(place), place=self.place + place,
                       slips=self.slips and [(at - place, seconds) for at, seconds in self.slips if at > place],
                       breaks=[each.shifted(-place) for each in self.breaks if each.place > place])


def open_session(path: str, last: int | None = None) -> RecordedSession:
    """A session in one file, or what was kept in a folder. Of a folder the last octets of the trunk,
    this number, are enough, if it was kept what the gateway was before them."""
    if not os.path.isdir(path):
        return _read_facts(RecordedSession([path]))
    files = _sessions_in(path)[-1]
    return _read_facts(RecordedSession(files[_enough(files, last):] if last else files))


def kept_between(folder: str, first: float, last: float) -> RecordedSession | None:
    """What was kept in a folder of a time: files of one session, of which the first one is the last that has begun by
    then, and of which it is known what the gateway was. None if all that is kept is behind it."""
    for files in reversed(_sessions_in(folder)):
        session = _read_facts(RecordedSession(files))
        begins = [session.clock.second((read_about(file).place or 0) - session.place) for file in files]
        if session.begin is not None and begins[0] < last:
            early = [n for n, begin in enumerate(begins) if begin <= first and state_of(files[n])]
            return _read_facts(RecordedSession(files[max(early, default=0):sum(begin < last for begin in begins)]))
    return None


def _sessions_in(path: str) -> list[list[str]]:
    """The files of each session that is kept in a folder."""
    every = {name for name in os.listdir(path) if name.endswith(ENDINGS)}
    # While one is packed both are there, and the packed one is not whole.
    names = sorted((name for name in every if not name.endswith('.zst') or name.removesuffix('.zst') not in every),
                   key=by_time)
    trunks = {name.rpartition('-')[0] for name in names}
    if not names:
        raise InputError(f'{path} holds no session (files of NAME.e1gw)')
    if len(trunks) > 1:
        raise InputError(f'{path} holds sessions of several trunks: {", ".join(sorted(trunks))}')
    abouts = {file: read_about(file) for file in (os.path.join(path, name) for name in names)}
    files = _in_order(abouts)
    edges = sorted({0, *_session_starts([abouts[file] for file in files]), len(files)})
    return [files[first:last] for first, last in zip(edges, edges[1:])]


def _in_order(files: Mapping[str, FileAbout]) -> list[str]:
    """Files that are sorted by their names, with what is said of each; one is behind the one that it says it follows,
    since the clock may have been set back in between."""
    following = {its.after: file for file, its in files.items() if its.after}
    names = {os.path.basename(front_of(file)) for file in files}
    found = dict[str, None]()
    for first, about in files.items():
        file = first if about.after not in names else None
        while file and file not in found:
            found[file] = None
            file = following.get(os.path.basename(front_of(file)))
    return [*found, *(file for file in files if file not in found)]


def _session_starts(abouts: list[FileAbout]) -> list[int]:
    """Which of the files begin a session: a new gateway, or one of another configuration than the file before."""
    sums = [about.config_sha256 for about in abouts]
    return [n for n, about in enumerate(abouts) if about.begins is FileStart.START
            or n and sums[n] and sums[n - 1] and sums[n] != sums[n - 1]]


def _enough(files: list[str], last: int) -> int:
    """With which of the files to begin for this number of octets at the end: all before it may be left out."""
    end = read_about(files[-1]).place or 0
    return next((n for n in reversed(range(len(files) - 1)) if (place := read_about(files[n]).place) is not None
                 and place + last <= end and state_of(files[n])), 0)


def front_of(path: str) -> str:
    """The path of a file that is kept, without its ending."""
    return next((path.removesuffix(ending) for ending in ENDINGS if path.endswith(ending)), path)


def by_time(path: str) -> tuple[str, int]:
    """By what the files of a ring are sorted: a second one that begins within a second ends in _2."""
    first, _, number = front_of(path).rpartition('_')
    return (first, int(number)) if first and number.isdecimal() else (front_of(path), 1)


def state_of(path: str) -> str:
    """The file of what the gateway was when a file of a ring begins; an empty text if there is none."""
    state = f'{front_of(path)}.state'
    return state if os.path.exists(state) else ''


def config_of(path: str) -> str:
    """The configuration of when a file of a ring begins; an empty text if there is none."""
    config = f'{front_of(path)}.toml'
    return config if os.path.exists(config) else ''


def read_about(path: str) -> FileAbout:
    """What is said of a file that is kept; nothing if that can't be read."""
    with suppress(OSError, ValueError), open(f'{front_of(path)}.json', encoding='utf-8') as file:
        return typed(FileAbout, json.load(file))
    return FileAbout()


def _read_facts(session: RecordedSession) -> RecordedSession:
    about = read_about(session.files[0])
    session.config, session.wait, session.begin = about.config, about.seizure_wait, about.time
    session.middle, session.place = about.begins is FileStart.MIDDLE, about.place or 0
    session.state = state_of(session.files[0]) if session.middle else ''
    if about.place is not None:
        session.config = config_of(session.files[0]) or about.config
        notes = [note for file in session.files if (note := read_about(file).note())]
        session.slips = slips_of(notes)
        session.breaks = [*breaks_of(notes)]
    return session


def pieces(file: IO[bytes]) -> Iterator[bytes]:
    read = getattr(file, 'read1', file.read)
    while piece := read(PIECE):
        yield piece


def octets_of(path: str) -> Iterator[bytes]:
    """The octets of a file, unpacked where it is packed by zstd, or has been since it was found."""
    if not os.path.exists(path) and os.path.exists(f'{path}.zst'):
        path = f'{path}.zst'
    if not path.endswith('.zst'):
        with open(path, 'rb') as file:
            yield from pieces(file)
        return
    if not shutil.which('zstd'):
        raise InputError(f'{path} is packed, and zstd is not installed')
    with open(path, 'rb') as packed, subprocess.Popen(
            ['zstd', '-dcq'], stdin=packed, stdout=subprocess.PIPE, stderr=subprocess.DEVNULL) as process:
        assert process.stdout
        yield from pieces(process.stdout)
