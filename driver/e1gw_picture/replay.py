"""`e1gw replay` of a session: its answers (e1gw-session(5)), and what it tells meanwhile (e1gw-tell(5))."""
from __future__ import annotations

import os
import queue
import select
import socket
import subprocess
import tempfile
import threading
from collections.abc import Callable
from contextlib import suppress

from e1gw_common.lines import SEIZURE_WAIT, wait_words
from e1gw_common.session import trunk_record
from e1gw_common.session_files import PIECE, InputError

PATIENCE = 60               # seconds in which the program answers whole records
NOTHING = trunk_record(b'')         # changes nothing; behind it a client of --tell is let in


class Replay:
    """A run of the program, from a saved state if one is named. Records are written by a thread, and answers and lines
    read as each is ready, so neither process waits for the other."""

    def __init__(self, program: str, config: str, state: str = '', wait: int = SEIZURE_WAIT) -> None:
        self._config, self._errors, self._socket = config, tempfile.TemporaryFile(), socket.socket(socket.AF_UNIX)
        self._waits = queue.SimpleQueue[bytes]()        # octets to be written, up to the empty ones
        self._told, self._is_told = b'', False          # lines not taken yet; the last one has come
        self._tells: list[socket.socket] = []           # the socket, while it is connected
        self.answered: Callable[[bytes], None] = lambda octets: None    # called with all that answers() returns
        with tempfile.TemporaryDirectory(prefix='e1gw-picture-') as folder:
            path = os.path.join(folder, 'tell')
            words = [program, 'replay', '--config', config, *(['--load', state] if state else []), *wait_words(wait),
                     '--tell', path]
            try:
                self._process = subprocess.Popen(words, stdin=subprocess.PIPE, stdout=subprocess.PIPE,
                                                 stderr=self._errors)
            except OSError as fault:
                raise InputError(f'{program}: {fault.strerror}: name it by --program') from fault
            assert self._process.stdin and self._process.stdout
            self._to, self._from = self._process.stdin, self._process.stdout
            threading.Thread(target=self._write, daemon=True).start()
            self._begin(path)

    def _begin(self, path: str) -> None:
        """Connects to the socket, which is open once a record is answered, and is let in behind the next record."""
        self.put_octets(NOTHING)
        if self.read_answers():
            self._socket.connect(path)
            self._socket.setblocking(False)
            self._tells.append(self._socket)
            self.put_octets(NOTHING)
            self.read_answers()

    def put_octets(self, octets: bytes) -> None:
        """Octets of the session; none: no more follow."""
        self._waits.put(octets)

    def _write(self) -> None:
        with suppress(BrokenPipeError), self._to:       # (if it has ended, it says why)
            while octets := self._waits.get():
                self._to.write(octets)
                self._to.flush()

    def read_answers(self) -> bytes:
        """More answers, empty at their end. The lines told before them have been read then."""
        while True:
            reads, _, _ = select.select([self._from, *self._tells], [], [], PATIENCE)
            if not reads:
                raise InputError(f'e1gw replay has answered nothing for {PATIENCE} s')
            octets = os.read(self._from.fileno(), PIECE) if self._from in reads else None
            self._read_lines()
            if octets is not None:
                self.answered(octets)
                return octets

    def _read_lines(self) -> None:
        """Reads the lines that have come."""
        with suppress(BlockingIOError):
            while self._tells:
                octets = self._socket.recv(PIECE)
                self._told += octets
                if not octets:
                    self._tells.clear()

    def take_lines(self) -> list[str]:
        """The lines told since the last call."""
        whole, _, self._told = self._told.rpartition(b'\n')
        lines = whole.decode('ascii', 'replace').split('\n') if whole else []
        self._is_told = self._is_told or lines[-1:] == ['end']
        return lines

    def last_error(self) -> str:
        """The last line on its standard error so far."""
        self._errors.seek(0)
        return self._errors.read().decode(errors='replace').strip().rpartition('\n')[2]

    def end(self) -> str:
        """The program's message at the session's end, empty if it ended well."""
        self.put_octets(b'')
        while self.read_answers():
            pass
        self.take_lines()
        status, words = self._process.wait(), self.last_error()
        self._from.close()
        self._socket.close()
        self._errors.close()
        if status == 2:
            from e1gw_common.config_faults import config_words      # (which is seldom wanted)
            cause = config_words(self._config)
            raise InputError(': '.join(filter(None, (words or 'e1gw replay: status 2', cause))))
        if not status and not self._is_told:
            raise InputError('e1gw replay has not told all: what it told was not read in time')
        return words if status else ''
