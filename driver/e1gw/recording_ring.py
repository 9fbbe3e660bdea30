"""A session that is kept in a folder: files one behind another, each of which says what it is."""
from __future__ import annotations

import json
import os
import re
import shutil
import time
from collections import deque
from concurrent.futures import ThreadPoolExecutor
from contextlib import suppress
from dataclasses import replace
from typing import Iterable

from e1gw_common.plain import plain_of
from e1gw_common.session import OCTETS_A_SECOND
from e1gw_common.session_files import FileAbout, by_time, read_about
from e1gw_common.writers import put_file
from .priority import run_last

UNITS = {'s': 1, 'm': 60, 'h': 3600, 'd': 86400}
FEWEST, MOST = 12, 360      # files into which the time that is kept is cut
SHORT = 10.0                # seconds of a file, if that makes no fewer and no more files than these
MOST_EARLIER = MOST         # files of earlier sessions
MOST_OWN = 2 * MOST         # of this one, whose programs may follow one another soon
MOST_SLIPS = 1000           # that are noted for a file
RECORDS, STATE, CONFIG = '.e1gw', '.state', '.toml'


def seconds_of(text: str) -> int:
    """A time as 90s, 30m, 1h or 2d. ValueError where it is none, or is under a minute."""
    number, unit = text[:-1], text[-1:]
    if unit not in UNITS or not (number.isascii() and number.isdecimal()) or int(number) * UNITS[unit] < 60:
        raise ValueError(f'{text} is no time such as 30m, 1h or 2d, of a minute or more')
    return int(number) * UNITS[unit]


def seconds_of_file(keep: int) -> float:
    """How long each file of a ring is that keeps so many seconds: who looks at the last ones replays what is before
    them in their file."""
    return min(keep / FEWEST, max(SHORT, keep / MOST))


class Ring:
    """The files of a session in a folder, of which those of the last seconds stay.

    A file is NAME-TIME.e1gw, packed once it is whole; NAME-TIME.json says what is in it, and where octets of the trunk
    were lost, which the octets themselves do not show; NAME-TIME.state is what the gateway was when it begins, and
    NAME-TIME.toml its configuration then. How old
    a file is, its place on the trunk says: the clock of the day may be set at any time, and tells no more than a
    name."""

    def __init__(self, folder: str, name: str, keep: int, own: Iterable[tuple[str, int]] = ()) -> None:
        """`own` are files that this session has already, without their endings, and their places on the trunk."""
        self._folder, self._name, self._keep = folder, name, keep * OCTETS_A_SECOND
        self.own = *own,
        self._about, self._front = FileAbout(), ''          # of the file that is written
        self.zstd = shutil.which('zstd')
        self._packs = ThreadPoolExecutor(1)

    def next(self, place: int) -> str:
        """The path of another file, without its ending, which begins at this place."""
        stamp = time.strftime('%Y%m%dT%H%M%SZ', time.gmtime())
        front = _fresh(os.path.join(self._folder, f'{self._name}-{stamp}'), (its for its, _ in self.own))
        self.own = *self.own, (front, place)
        return front

    def begin(self, front: str, about: FileAbout, state: bytes, config: bytes = b'') -> None:
        """The last file is written from now on. What is there of it stays; else this is what is said of it."""
        os.makedirs(self._folder, mode=0o750, exist_ok=True)
        before = next((os.path.basename(its) for its, _ in self.own[-2:-1]), None)
        there = read_about(front)
        self._front, self._about = front, replace(about, after=before) if there == FileAbout() else there
        for ending, octets in (STATE, state), (CONFIG, config):
            if octets and not os.path.exists(f'{front}{ending}'):
                put_file(f'{front}{ending}', octets, 0o640)
        self._put_about()
        self._drop_old(self.own[-1][1])
        if self.zstd:
            self._packs.submit(self._pack, self.zstd)

    def continue_file(self, front: str) -> None:
        """A file of the session before this one is written on."""
        if front != self._front:
            self._front, self._about = front, read_about(front)

    def note(self, slips: deque[tuple[int, float]]) -> None:
        """Notes slips at once: a reader sees what was noted before, or all of it."""
        its = [slips.popleft() for _ in range(len(slips))]
        self._about = replace(self._about, slips=(*self._about.slips, *its)[:MOST_SLIPS])
        self._put_about()

    def _put_about(self) -> None:
        put_file(f'{self._front}.json', json.dumps(plain_of(self._about)).encode() + b'\n', 0o640, '.part')

    def _pack(self, zstd: str) -> None:
        """Compresses the files that are whole and are not yet, in a thread of its own."""
        for path in (f'{front}{RECORDS}' for front, _ in self.own[:-1] if front != self._front):
            with suppress(OSError):
                if os.path.exists(path) and run_last([zstd, '-q', '-f', path, '-o', f'{path}.part'])[0] == 0:
                    os.rename(f'{path}.part', f'{path}.zst')
                    if not os.path.exists(path):    # (it was taken away meanwhile)
                        os.unlink(f'{path}.zst')
                    os.unlink(path)
            with suppress(OSError):
                os.unlink(f'{path}.part')

    def _drop_old(self, place: int) -> None:
        """Takes away what lies before the time that is kept."""
        while len(self.own) > MOST_OWN or self.own[1:] and self.own[1][1] + self._keep <= place:
            _drop(self.own[0][0])
            self.own = self.own[1:]
        own = {front for front, _ in self.own}
        earlier = [front for front in _fronts_in(self._folder, self._name) if front not in own]
        is_covered = self.own[0][1] + self._keep <= place
        for front in earlier if is_covered else earlier[:-MOST_EARLIER]:
            _drop(front)

    def close(self) -> None:
        """The last file stays as it is, since nobody waits for what would pack it."""
        self._packs.shutdown(wait=False)


def _fronts_in(folder: str, name: str) -> list[str]:
    """The files of a ring of this name that are there, without their endings, in the order of their times."""
    is_one = re.compile(rf'({re.escape(name)}-\d{{8}}T\d{{6}}Z(?:_\d+)?)\.(?:e1gw|json|state|toml)').match
    fronts = {found[1] for each in os.listdir(folder) if (found := is_one(each))}
    return [os.path.join(folder, front) for front in sorted(fronts, key=by_time)]


def _fresh(front: str, own: Iterable[str]) -> str:
    """The path of a file, without its ending; it gets a number behind those of this time that are there. (One that was
    taken away may still be packed, so no name is taken twice.)"""
    is_one = re.compile(rf'{re.escape(os.path.basename(front))}(?:_(\d+))?\b').match
    names = [os.path.basename(its) for its in own]
    with suppress(OSError):
        names += os.listdir(os.path.dirname(front))
    numbers = [int(found[1] or 1) for name in names if (found := is_one(name))]
    return f'{front}_{max(numbers) + 1}' if numbers else front


def _drop(front: str) -> None:
    """Takes a file away, and what says what it is behind it. (Who packs it has to find its part gone first.)"""
    for ending in (f'{RECORDS}.part', f'{RECORDS}.zst', RECORDS, '.json.part', '.json', f'{CONFIG}.new', CONFIG,
                   f'{STATE}.new', STATE):
        try:
            os.unlink(f'{front}{ending}')
        except FileNotFoundError:
            pass
        except OSError:
            return
