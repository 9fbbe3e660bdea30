"""What a trunk did while nobody followed it: the log has it, as far as it reaches, and a replay of that tells it."""
from __future__ import annotations

import asyncio
import os
import re
import select
import socket
import tempfile
import time
from asyncio.subprocess import Process
from dataclasses import dataclass

from ..log_folder import LogPair
from .connection import SOON, connected
from .process import kill_process
from .replay import ReplayVersion

PATIENCE = 10.0             # seconds in which the log is read again
PIECE = 4096                # octets that are written at once: the reports of them have room in the socket


@dataclass(frozen=True)
class MissedReports:
    """Reports (e1gw-tell(5)) from an octet of the trunk on, up to another one. Of these the ones behind `since` were
    missed; `is_new` if another machine or configuration begins there."""

    since: int
    is_new: bool
    first: int
    last: int
    text: bytes

    def is_complete(self) -> bool:
        """Whether they have all that was missed."""
        return self.first <= self.since

    def _ats(self) -> list[tuple[int, int]]:
        """Each octet in them, and where in the text that is."""
        return [(self.first + int(at[1]), at.start()) for at in re.finditer(rb'^at (\d+)$', self.text, re.M)]

    def messages_for(self, last: int) -> tuple[bytes, bytes, bytes]:
        """What a client is told that connects where something was missed: up to the alarms, then of the circuits, and
        what changes up to this octet."""
        ats = self._ats()           # (the first one is behind a record)
        since = max(self.since, ats[0][0])
        at, end = (next((start for octet, start in ats if octet > most), len(self.text)) for most in (since, last))
        head, state = [b'', b'at %d' % (since - self.first), b''], dict[tuple[bytes, ...], bytes]()
        for line in self.text[:at].splitlines(keepends=True):
            words = line.split()
            if words[0] in (b'e1gw', b'alarms'):
                head[2 * (words[0] == b'alarms')] = line.rstrip()
            elif words[0] in (b'line', b'counts'):
                state[(*words[:2],)] = line
        return b'\n'.join([*head, b'']), b''.join(state.values()), b'now\n' + self.text[at:max(at, end)]


async def replay_reports(version: ReplayVersion, pairs: list[LogPair], folder: str) -> bytes:
    """What a replay of pairs, one behind the other, tells from the first state on. OSError if it does not."""
    gives, given = os.pipe()
    state, nothing = os.memfd_create('e1gw'), os.open(os.devnull, os.O_WRONLY)
    with tempfile.TemporaryDirectory(prefix='again-', dir=folder) as within:
        path = os.path.join(within, 'tell')
        try:
            os.write(state, pairs[0].state)
            process = await version.start(['replay', '--load', f'/dev/fd/{state}', '--tell', path], [state], gives,
                                          nothing)
            try:
                line = await connect_to(path, process)
                with line:
                    return await asyncio.to_thread(pass_octets, line, given, b''.join(pair.records for pair in pairs))
            finally:
                await kill_process(process)
        finally:
            for file in (gives, given, state, nothing):
                os.close(file)


async def connect_to(path: str, process: Process) -> socket.socket:
    """A connection to a process that begins. OSError if it ends before, or its folder is removed."""
    until = time.monotonic() + PATIENCE
    while True:
        try:
            return connected(path)
        except OSError:
            may_come = process.returncode is None and os.path.exists(os.path.dirname(path))
            if not may_come or time.monotonic() > until:
                raise
            await asyncio.sleep(SOON)


def pass_octets(line: socket.socket, given: int, octets: bytes) -> bytes:
    """Writes octets to a replay, and reads all its reports."""
    told, waits = b'', memoryview(octets)
    os.set_blocking(given, False)
    null = os.open(os.devnull, os.O_RDONLY)
    try:
        while True:
            reads, writes, _ = select.select([line], [given] if waits else [], [], PATIENCE)
            if not reads and not writes:
                raise OSError(0, 'the log is not read again in time')
            if reads:           # (first: the replay waits for nobody while the socket has room)
                if not (piece := line.recv(1 << 20)):
                    return told
                told += piece
            elif writes:
                waits = waits[os.write(given, waits[:PIECE]):]
                if not waits:
                    os.dup2(null, given)        # (its end)
    finally:
        os.close(null)
