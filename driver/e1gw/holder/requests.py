"""The socket at which a holder is asked, a word a connection. One who does not end his line is asked nothing."""
from __future__ import annotations

import os
import socket
from contextlib import suppress
from typing import Callable

from e1gw_common.unix_listener import unix_listener
from .loop import Loop

MOST_OCTETS, MOST_CLIENTS = 64, 8


class HolderRequest:
    """One that was made, which is answered once."""

    def __init__(self, line: socket.socket | None, text: str) -> None:
        self.text, self._line, self.told = text, line, ''
        self.word = text.partition(' ')[0]

    @property
    def has_client(self) -> bool:
        return self._line is not None

    def answer_done(self) -> None:
        """It was done; with what was `told` of it in a line before."""
        self.answer(f'{self.word}: {self.told}\n' * bool(self.told) + f'{self.word}: done')

    def answer_refused(self, why: str, word: str = 'refused') -> None:
        self.answer(f'{self.word}: {word}: {" ".join(why.splitlines())}')

    def answer(self, words: str) -> None:
        if self._line:
            with suppress(OSError):
                self._line.send(f'{words}\n'.encode())
            self._line.close()
        self._line = None


class Door:
    """The socket. `asked` is called with each request."""

    def __init__(self, loop: Loop, asked: Callable[[HolderRequest], object]) -> None:
        self._loop, self._asked, self._path = loop, asked, ''
        self._line: socket.socket | None = None
        self._clients = dict[int, tuple[socket.socket, bytearray]]()

    def open_at(self, path: str) -> None:
        """Listens there, if it does not. OSError or CannotListen if it cannot."""
        if self._line and path == self._path and os.path.lexists(path):
            return
        self.close()
        self._line, self._path = unix_listener(path, 0o600, None), path
        self._line.setblocking(False)
        self._loop.watch(self._line.fileno(), self._accept)

    def close(self) -> None:
        if self._line:
            self._loop.unwatch(self._line.fileno())
            self._line.close()
        self._line = None

    def _accept(self) -> None:
        with suppress(OSError):
            assert self._line
            line = self._line.accept()[0]
            line.setblocking(False)
            if len(self._clients) >= MOST_CLIENTS:
                self._drop(next(iter(self._clients))).close()
            self._clients[line.fileno()] = line, bytearray()
            self._loop.watch(line.fileno(), lambda: self._read_request(line))

    def _drop(self, file: int) -> socket.socket:
        self._loop.unwatch(file)
        return self._clients.pop(file)[0]

    def _read_request(self, line: socket.socket) -> None:
        file, octets = line.fileno(), b''
        said = self._clients[file][1]
        with suppress(OSError):
            octets = line.recv(MOST_OCTETS + 1)
        said += octets
        text, end, _ = said.partition(b'\n')
        if end and len(text) <= MOST_OCTETS:
            self._drop(file)
            self._asked(HolderRequest(line, text.decode(errors='replace').strip()))
        elif not octets or len(said) > MOST_OCTETS:
            self._drop(file).close()
