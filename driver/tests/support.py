"""What the tests share: the program that is looked at, an exchange, and a trunk in service."""
from __future__ import annotations

import asyncio
import atexit
import contextlib
import fcntl
import functools
import json
import os
import random
import re
import shutil
import signal
import socket
import subprocess
import sys
import tempfile
import termios
import unittest
from typing import Any, Callable, Iterator, Mapping

from . import limits
from .start import PROGRAM
from e1gw_common.start import COMMANDS
from e1gw_tools.far_exchange import Exchange
from e1gw_common.session import Kind, records_in
from e1gw_testing import service
from e1gw_testing.service import Service
from e1gw_testing.waits import SECONDS, eventually, until

TOP = os.path.dirname(os.path.dirname(os.path.dirname(os.path.abspath(__file__))))
sys.dont_write_bytecode = not sys.pycache_prefix or 'E1GW_MUTANT' in os.environ

__all__ = ['Exchange', 'FolderCase', 'LoopCase', 'SECONDS', 'Service', 'TOP', 'all_read', 'chance_of', 'config_text',
           'connected', 'eventually', 'in_memory', 'launcher', 'listening', 'octets_in', 'octets_of', 'program',
           'read_from', 'ran', 'remove', 'run', 'said_by', 'state_of', 'stopped', 'text_of', 'until', 'whole_lines']


def octets_of(path: str) -> bytes:
    """What a file has."""
    with open(path, 'rb') as file:
        return file.read()


def text_of(path: str) -> str:
    """The same as text."""
    return octets_of(path).decode(errors='replace')


def whole_lines(path: str) -> list[str]:
    """The whole lines of a file to which another process writes."""
    return text_of(path).rpartition('\n')[0].splitlines()


def said_by(process: subprocess.Popen[bytes], path: str, pattern: str | re.Pattern[str], since: int) -> re.Match[str]:
    """What a process prints to a file behind this place, in whole lines, once it is so. (It may end behind it.)"""
    def find_words() -> re.Match[str] | None:
        has_ended, text = process.poll() is not None, text_of(path)
        found = re.compile(pattern).search(text, since, text.rfind('\n') + 1)
        assert found or not has_ended, f'not said: {pattern}\n{text}'
        return found
    return until(find_words, 0.002)


def octets_in(session: bytes) -> bytes:
    """The octets of the trunk in a session."""
    return b''.join(record.body for record in records_in(session) if record.kind == Kind.TRUNK)


def config_text(circuits: Mapping[int, Mapping[str, object]], law: str = 'A') -> str:
    """A configuration in which circuits have these keys."""
    return f'law = "{law}"\n' + ''.join(f'[[circuit]]\nnumber = {circuit}\n' + ''.join(
        f'{key} = {json.dumps(value)}\n' for key, value in keys.items()) for circuit, keys in circuits.items())


def remove(folder: str) -> None:
    """Removes a folder. (Who packs a file of a ring may go on for a moment behind its service.)"""
    while os.path.lexists(folder):
        shutil.rmtree(folder, ignore_errors=True)


def in_memory() -> tempfile.TemporaryDirectory[str]:
    """A folder in memory, where there is one. (What tests of a mutant leave is found where they have all else.)"""
    has_memory = os.path.isdir('/dev/shm') and 'E1GW_MUTANT' not in os.environ
    return tempfile.TemporaryDirectory(dir='/dev/shm' if has_memory else None)


@functools.cache
def launcher(name: str) -> str:
    """The file that starts a command with the limits of tests. The other commands are next to it."""
    return os.path.join(_launchers(), f'e1gw-{name}')


@functools.cache
def _launchers() -> str:
    folder = in_memory()
    atexit.register(folder.cleanup)
    for name in COMMANDS:
        path = os.path.join(folder.name, f'e1gw-{name}')
        with open(path, 'w', encoding='utf-8') as file:
            file.write(PROGRAM.format(sys.executable, os.path.join(TOP, 'driver'), name))
        os.chmod(path, 0o755)
    return folder.name


service.LAUNCHER = launcher('trunk')
limits.put_here()


class FolderCase(unittest.TestCase):
    """Tests with a folder of their own."""

    def setUp(self) -> None:
        self.folder = tempfile.mkdtemp()
        self.addCleanup(remove, self.folder)

    def path(self, name: str) -> str:
        return os.path.join(self.folder, name)

    def held(self) -> list[str]:
        """The files of the folder that this process has open."""
        found = list[str]()
        for name in os.listdir('/proc/self/fd'):
            with contextlib.suppress(OSError):
                found.append(os.readlink(f'/proc/self/fd/{name}'))
        return sorted(path for path in found if path.startswith(f'{self.folder}/'))

    def write(self, name: str, octets: bytes | str) -> str:
        """Writes a file of the folder, and returns its path."""
        with open(self.path(name), 'wb') as file:
            file.write(octets.encode() if isinstance(octets, str) else octets)
        return self.path(name)


class LoopCase(FolderCase, unittest.IsolatedAsyncioTestCase):
    """Such tests in a loop."""

    async def asyncSetUp(self) -> None:
        asyncio.get_running_loop().set_debug(False)     # (which takes a third of the time)

    async def until(self, holds: Callable[[], Any]) -> Any:
        """Waits until something holds, and returns what it is."""
        return await eventually(holds)


def program() -> str:
    """The program that E1GW names, or that of the tree where it is built. The test is passed over without one."""
    path = os.environ.get('E1GW') or os.path.join(TOP, 'out', 'e1gw')
    if not os.access(path, os.X_OK):
        raise unittest.SkipTest('no program: --program names one, scripts/build builds it')
    return path


def seed() -> str:
    """That of scripts/test."""
    return os.environ.get('E1GW_SEED', '1')


def chance_of(test: unittest.TestCase) -> random.Random:
    """By what a test chooses: its name and the seed."""
    return random.Random(f'{test.id()} {seed()}')


def connected(path: str) -> socket.socket:
    """A connection to a Unix socket."""
    line = socket.socket(socket.AF_UNIX)
    line.connect(path)                      # (with a time limit it would be refused while there is no place)
    line.settimeout(SECONDS)
    return line


def listening(path: str) -> socket.socket:
    """A Unix socket at which one connection may wait."""
    listener = socket.socket(socket.AF_UNIX)
    listener.bind(path)
    listener.listen(1)
    listener.settimeout(SECONDS)
    return listener


def read_from(line: socket.socket, count: int) -> bytes:
    """Reads this number of octets. EOFError if the stream ends before."""
    octets = b''
    while len(octets) < count:
        octets += (piece := line.recv(count - len(octets)))
        if not piece:
            raise EOFError
    return octets


def all_read(line: socket.socket) -> None:
    """Returns once the other end of a Unix socket has read all that was sent."""
    until(lambda: not int.from_bytes(fcntl.ioctl(line, termios.TIOCOUTQ, bytes(4)), sys.byteorder), 0.001)


@contextlib.contextmanager
def stopped(*pids: int) -> Iterator[None]:
    """These processes stand still meanwhile."""
    for pid in pids:
        os.kill(pid, signal.SIGSTOP)
        until(lambda: state_of(pid) in 'TZ')
    try:
        yield
    finally:
        for pid in reversed(pids):
            os.kill(pid, signal.SIGCONT)


def state_of(pid: int) -> str:
    """The state of a process (proc(5)): Z has ended, T stands still; nothing if there is none."""
    try:
        return text_of(f'/proc/{pid}/stat').rpartition(')')[2].split()[0]
    except OSError:
        return ''


def ran(*words: str, **more: Any) -> tuple[int, str, str]:
    """The status of a command, what it writes, and what it says."""
    done = subprocess.run(words, capture_output=True, text=True, check=False, stdin=subprocess.DEVNULL, **more)
    assert 'Traceback' not in done.stderr, done.stderr
    return done.returncode, done.stdout, done.stderr


def run(*words: str, given: bytes = b'') -> bytes:
    """What the program writes of this input. Its status must be 0."""
    return subprocess.run([program(), *words], input=given, stdout=subprocess.PIPE, check=True).stdout
