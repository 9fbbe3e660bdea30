"""The control sockets of this machine's trunks, and what is asked there."""
from __future__ import annotations

import json
import os
import socket
import struct
from contextlib import suppress
from typing import BinaryIO, Callable, Iterable, TypeVar

from e1gw_common.fault_words import group_of, named, words_of_fault
from e1gw_common.plain import typed

T = TypeVar('T')
SOCKETS, UNITS = '/run/e1gw', '/etc/e1gw'
PATIENCE = 5.0              # seconds that a trunk has to answer
LIMITS = {'reload': 120.0, 'promote': 60.0, 'demote': 60.0, 'move': 60.0}       # .. what may take it longer


def trunks_here() -> list[tuple[str, str]]:
    """The trunks that have a control socket: names and paths."""
    try:
        names = sorted(os.listdir(SOCKETS))
    except FileNotFoundError:
        return []
    return [(name, path) for name in names if os.path.exists(path := f'{SOCKETS}/{name}/control')]


def units_here() -> list[str]:
    """The trunks that have options of a unit."""
    try:
        names = os.listdir(UNITS)
    except OSError:         # (it is not there, or not to be read)
        return []
    return [name.removesuffix('.options') for name in names if name.endswith('.options')]


def with_group(fault: OSError, path: str) -> OSError:
    """The same error, which names the socket, and where this user may not command the group that may."""
    fault = named(fault, path)
    if isinstance(fault, PermissionError):
        for place in path, os.path.dirname(path):       # (a folder may hide what it has)
            with suppress(OSError):
                return OSError(fault.errno, f'{fault.strerror}; it is for the group {group_of(place)}')
    return fault


def connected(path: str, patience: float) -> socket.socket:
    """A connection to a trunk, within these seconds, which each answer has, too. OSError if there is none."""
    line = socket.socket(socket.AF_UNIX)
    try:
        # connect waits for a place only if the socket blocks; settimeout would have it refused at once.
        until = divmod(round(patience * 1e6), 1_000_000)
        line.setsockopt(socket.SOL_SOCKET, socket.SO_SNDTIMEO, struct.pack('ll', *until))
        line.connect(path)
        line.settimeout(patience)
    except OSError as fault:
        line.close()
        raise with_group(fault, path) from None
    return line


def answer_of(stream: BinaryIO) -> list[str]:
    """The lines of an answer. EOFError where the trunk ends before it."""
    lines: list[str] = []
    while (line := stream.readline()) not in (b'', b'\n'):
        lines.append(line.decode(errors='replace').rstrip('\n'))
    if line == b'' and not lines:
        raise EOFError
    return lines


def answer_to(line: socket.socket, stream: BinaryIO, command: str, patience: float) -> list[str]:
    """The lines that answer a command, which has as long as it may take. EOFError where the trunk ends before it."""
    line.settimeout(limit := max(patience, LIMITS.get(command.split()[0], 0.0)))
    with suppress(BrokenPipeError):     # (there is no answer then)
        line.sendall(command.encode() + b'\n')
    try:
        return answer_of(stream)
    except TimeoutError:
        raise TimeoutError(f'no answer within {limit:g} s, it may still be done') from None


def status_text(path: str, patience: float) -> bytes:
    """The status of a trunk, as JSON. OSError if the trunk does not answer."""
    with connected(path, patience) as line:
        stream: BinaryIO = line.makefile('rb')
        line.sendall(b'status json\n')
        return stream.readline()


def read_status(kind: type[T], path: str, patience: float) -> T:
    """What a value of this type has of the status of a trunk, which may be of an older version. OSError if the trunk
    does not answer, ValueError if the answer is no status."""
    return status_in(kind, status_text(path, patience))


def status_in(kind: type[T], text: str | bytes) -> T:
    """The same, of the JSON of a status. ValueError if that is none."""
    try:
        return typed(kind, json.loads(text))
    except ValueError:
        raise ValueError('its answer is no status') from None


def each_trunk(trunks: Iterable[tuple[str, str]], work: Callable[[str, str], None]) -> int:
    """Does a work with each trunk, by its name and its socket, and prints why it cannot; returns the status."""
    status = 0
    for name, path in trunks:
        try:
            work(name, path)
        except (OSError, ValueError) as fault:
            print(f'{name}: {words_of_fault(fault)}', flush=True)
            status = 1
    return status
