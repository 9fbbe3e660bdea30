"""How often each line was seized, by which calls are named: the next program, and the next service, go on counting.

A program counts seizures since it has begun, its session. A note in memory says what has to be
added to them, so that a watcher that is started again counts as the one before it did, and all other counts of a line.
It also says how the lines stood last: of another state, behind the death of both, that is all that is known.
"""
from __future__ import annotations

import json
import os
import secrets
from dataclasses import astuple
from typing import Mapping

from e1gw_common.lines import IN_CALL, Line, LineCounts
from e1gw_common.writers import put_file

Seizures = dict[int, int]       # by circuit


def note_of(tell: str) -> str:
    """The file of the note of a trunk reported at this socket: in the unit's folder, or next to the socket."""
    folder = os.environ.get('RUNTIME_DIRECTORY', '').partition(':')[0]
    return os.path.join(folder, 'calls.json') if folder else f'{tell}.calls'


class CallNames:
    """Counts seizures across sessions. `life` names the count: as long as it is the same, the count goes on. It is
    empty until a program has told how the lines stand."""

    def __init__(self, path: str) -> None:
        self.life, self._path = '', path
        self._session = ''
        self._base: Seizures = {}       # seizures before that session
        self._last = dict[int, LineCounts]()    # of all sessions, when the lines were looked at last
        self._in_call = list[int]()     # the lines that were in a call then
        self._noted, self._noted_life = '', ''
        self._read()

    def _read(self) -> None:
        """What another service has noted; nothing if that is not understood."""
        try:
            with open(self._path, encoding='utf-8') as file:
                self._noted = file.read()
            found = json.loads(self._noted)
            base = {int(n): int(count) for n, count in found['base'].items()}
            last = {int(n): LineCounts(*(its if isinstance(its, list) else (int(its),)))    # (one as of older versions)
                    for n, its in found['last'].items()}
            in_call = [int(n) for n in found['in_call']]
            self._noted_life, self._session, self._base = str(found['life']), str(found['session']), base
            self._last, self._in_call = last, in_call
        except (OSError, ValueError, KeyError, TypeError, AttributeError):
            pass

    def known(self, lines: Mapping[int, Line]) -> str:
        """Gives lines of which nobody has told yet the counts that were noted last. What names those counts."""
        for n, line in lines.items():
            line.count_on(self._last.get(n, LineCounts()))
        self.life = self.life or self._noted_life or secrets.token_hex(4)
        return self.life

    def begin(self, session: str, told: Seizures, lines: Mapping[int, Line], are_known: bool = False) -> None:
        """A program has told how all lines stand, and how often each was seized in its session. `are_known`: all of
        these seizures were counted before, by its log."""
        if not self.life:
            self.known(lines)
        before = {n: self._last.get(n, LineCounts()).seizures for n in told}
        if session != self._session and are_known:
            self._session, self._base = session, {n: before[n] - count for n, count in told.items()}
        elif session != self._session:
            # (a line that is in a call, and was in none, was seized while nobody looked)
            new = {n: bool(self._last) and lines[n].state in IN_CALL and n not in self._in_call for n in told}
            self._session = session
            self._base = {n: before[n] + max(new[n], count) - count for n, count in told.items()}
        for n, count in told.items():
            lines[n].seizures = self._base.get(n, 0) + count
        self.note_states(lines)
        self._note()

    def note_states(self, lines: Mapping[int, Line]) -> None:
        """To be called when another state of a line was told: notes how they stand."""
        last = {n: line.counts() for n, line in lines.items()}
        in_call = [n for n, line in lines.items() if line.state in IN_CALL]
        if (last, in_call) != (self._last, self._in_call):
            self._last, self._in_call = last, in_call
            self._note()

    def _note(self) -> None:
        last = {n: astuple(counts) for n, counts in self._last.items()}
        text = json.dumps({'life': self.life, 'session': self._session, 'base': self._base, 'last': last,
                           'in_call': self._in_call})
        self._noted_life = self.life
        if text != self._noted:
            self._noted = text
            try:
                put_file(self._path, text.encode())
            except OSError:
                pass        # another service then gives calls new names
