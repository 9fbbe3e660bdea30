"""The exchange of bench/exchange as a process in lock step: built, given octets of the trunk and commands, and read."""
from __future__ import annotations

import os
import re
import struct
import subprocess
import sys
from typing import NamedTuple

HERE = os.path.normpath(os.path.join(os.path.realpath(__file__), '..', '..', '..', 'bench', 'exchange'))
HEAD = struct.Struct('>BBH')
MULTIFRAME = 512


class NoOpenR2(Exception):
    """The exchange cannot be built here; the text says why."""


class OpenR2Event(NamedTuple):
    """What happened at the exchange: milliseconds of the trunk, the circuit (0 is the trunk), and what."""

    ms: float
    circuit: int
    text: str


def build(folder: str) -> str:
    """Builds the exchange in a folder, and returns its path. NoOpenR2 if a package is not installed."""
    path = os.path.join(folder, 'exchange')
    done = subprocess.run([os.path.join(HERE, 'build'), path], stderr=subprocess.PIPE, text=True, check=False)
    if done.returncode == 2:
        raise NoOpenR2(done.stderr.strip())
    if done.returncode:
        raise RuntimeError(done.stderr)
    return path


def exchange_of(folder: str) -> str:
    """The exchange, built in a folder; status 2 if a package is not installed."""
    try:
        return build(folder)
    except NoOpenR2 as missing:
        print(missing, file=sys.stderr)
        sys.exit(2)


class OpenR2:
    """An exchange of thirty circuits. `events` is all that it has reported."""

    def __init__(self, program: str, *options: str) -> None:
        self._process = subprocess.Popen([program, *options], stdin=subprocess.PIPE, stdout=subprocess.PIPE)
        assert self._process.stdin and self._process.stdout
        self._input, self._output = self._process.stdin, self._process.stdout
        self.events: list[OpenR2Event] = []

    def command(self, text: str) -> None:
        """A command; what it brings is reported by the next step."""
        self._input.write(HEAD.pack(ord('L'), 0, len(text)) + text.encode())

    def step(self, received: bytes) -> bytes:
        """Gives whole multiframes to the exchange; returns as many that it sends."""
        self._input.write(HEAD.pack(ord('T'), 0, len(received)) + received)
        self._input.flush()
        while True:
            kind, _, length = HEAD.unpack(self._output.read(HEAD.size))
            body = self._output.read(length)
            if kind == ord('T'):
                return body
            ms, circuit, text = body.decode(errors='replace').split(' ', 2)
            self.events.append(OpenR2Event(float(ms), int(circuit), text))

    def found(self, circuit: int, pattern: str) -> list[re.Match[str]]:
        """The events of a circuit that a pattern matches from their first letter."""
        matches = (re.match(pattern, event.text) for event in self.events if event.circuit == circuit)
        return [match for match in matches if match]

    def end(self) -> None:
        self._input.close()
        self._process.wait()
        self._output.close()
