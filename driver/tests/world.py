"""A trunk in service for tests: an exchange at the far end of it, which goes in lock step, and its control."""
from __future__ import annotations

import contextlib
import itertools
import json
import os
import signal
import socket
import subprocess
import sys
import tempfile
import time
from math import inf
from typing import Any, Callable, Mapping, Self

from . import limits, support
from .support import SECONDS
from e1gw.holder.options import FLAGS, TEXTS
from e1gw_tools.far_exchange import ACKNOWLEDGED, ANSWERED, IDLE, SEIZED
from e1gw_common.session import MULTIFRAME
from e1gw_testing import waits
from e1gw_testing.ports import free_ports
from e1gw_testing.service import ask

LAUNCHER = support.launcher('trunk')
ANSWERS_AFTER = 20          # multiframes


def trunk_command(*words: str) -> list[str]:
    """The command line of an e1gw-trunk, and behind -- those of these options that e1gw-watch has, which it starts."""
    its, watch = list[str](), list[str]()
    into = its
    for word in words:
        if word.startswith('--'):
            into = its if word[2:].partition('=')[0] in (*TEXTS, *FLAGS, 'help') else watch
        into.append(word)
    return [sys.executable, '-B', LAUNCHER, '--program', support.program(), *its, '--', *watch]


def words_of(pid: int) -> list[str]:
    """The command line of a process; nothing if it has ended."""
    with contextlib.suppress(OSError), open(f'/proc/{pid}/cmdline', 'rb') as file:
        return file.read().decode().split('\0')[:-1]
    return []


def children(parent: int, *words: str) -> list[int]:
    """The processes that a process has started with these words behind the program's name."""
    found = []
    for name in filter(str.isdecimal, os.listdir('/proc')):
        with contextlib.suppress(OSError), open(f'/proc/{name}/stat', encoding='utf-8', errors='replace') as file:
            is_child = int(file.read().rpartition(')')[2].split()[1]) == parent
            if is_child and words_of(int(name))[1:1 + len(words)] == [*words]:
                found.append(int(name))
    return sorted(found)


def config_of(circuits: range, codec: str = 'pcma', payload: int = 8, prefill: int = 160,
              incoming: tuple[int, ...] = ()) -> str:
    """A configuration in which each circuit speaks with its neighbour: 1 with 2, 3 with 4, .."""
    ports = dict(zip(circuits, free_ports(len(circuits))))
    return support.config_text({n: {
        'role': 'incoming' if n in incoming else 'outgoing', 'codec': codec, 'payload': payload, 'prefill': prefill,
        'local_port': ports[n], 'peer_port': ports.get(n + 1 if n % 2 else n - 1, ports[n])} for n in circuits})


NO_EFFECT = 'codec 30 g726-16 95'     # a command that is refused and changes nothing
NO_EFFECT_ANSWER = 'codec 30: refused: no payload type of the codec'


class World:
    """An e1gw-trunk at a Unix socket, with a folder of its own, in which its control socket is `ctl`. The exchange
    acknowledges and answers what is seized.

    It gives octets when a test does, and not by a clock. What it is asked it knows all of that was given before: each
    question comes behind a command that the gateway refuses, whose answer comes behind all of that."""

    def __init__(self, config: str, *options: str, answers: bool = True, front: tuple[str, ...] = (),
                 within: Mapping[str, Any] = {}, **streams: Any) -> None:
        self.folder = tempfile.mkdtemp()
        self.config = self.path('trunk.toml')
        self.configure(config)
        self.exchange = support.Exchange()
        self.answers = answers
        self.sent, self.heard = bytearray(), bytearray()
        self._ages: dict[int, int] = {}
        os.mkdir(self.path('run'))
        with support.listening(self.path('card')) as listener:
            streams = {'stdin': subprocess.DEVNULL, 'stdout': subprocess.DEVNULL, 'stderr': subprocess.PIPE} | streams
            self.process = subprocess.Popen(
                [*front, *trunk_command('--config', self.config, '--unix', self.path('card'), '--control',
                                        self.path('ctl'), *(word.replace('@', self.folder) for word in options))],
                env={**os.environ, 'RUNTIME_DIRECTORY': self.path('run'), **limits.around(limits.TELLS | within)},
                **streams)
            try:
                self.take(listener)
                self.connected()
            except BaseException:
                self.__exit__()
                raise

    def connected(self) -> None:
        """Waits until the service knows the state of the trunk, which it learns at the first octets that come."""
        end = time.monotonic() + waits.SECONDS
        while self.process.poll() is None and time.monotonic() < end:
            try:
                if self.ask_at_once(NO_EFFECT) == NO_EFFECT_ANSWER and self.status_at_once()['program']:
                    return
            except (OSError, EOFError):
                time.sleep(0.01)
            else:
                self.exchange_octets(b'\xff' * MULTIFRAME)
        raise AssertionError(f'the service does not come to know the trunk: {self.wait()}')

    def __enter__(self) -> Self:
        return self

    def __exit__(self, *_: object) -> None:
        self.line.close()
        if self.process.poll() is None:
            self.process.terminate()
        self.process.wait(SECONDS)
        if self.process.stderr:
            self.process.stderr.close()
        support.remove(self.folder)

    def path(self, name: str) -> str:
        return os.path.join(self.folder, name)

    def configure(self, text: str) -> None:
        """Writes its configuration."""
        with open(self.config, 'w', encoding='utf-8') as file:
            file.write(text)

    # ---- what it is asked ----

    def ask(self, command: str | bytes) -> str:
        """The answer to a command."""
        self.wait_for_service()
        return self.ask_at_once(command)

    def ask_at_once(self, command: str | bytes) -> str:
        """The answer of a service that may not know what was given before."""
        return ask(self.path('ctl'), command.encode() if isinstance(command, str) else command)

    def wait_for_service(self) -> None:
        """Returns once the service knows what was given. (It connects to another program a moment after its start.)"""
        support.until(lambda: self.ask_at_once(NO_EFFECT) == NO_EFFECT_ANSWER)

    def status_at_once(self) -> dict[str, Any]:
        """The status of a service that may not know what was given before."""
        found: dict[str, Any] = json.loads(self.ask_at_once('status json'))
        return found

    def recent_status(self) -> dict[str, Any]:
        """The status, which may be a moment old; every change that was told is in it."""
        self.wait_for_service()
        return self.status_at_once()

    def status(self) -> dict[str, Any]:
        """The status of now."""
        began = round(time.time(), 3)
        return support.until(lambda: found if (found := self.recent_status())['time'] >= began else None, 0.01)

    def state(self, circuit: int) -> str:
        return str(self.recent_status()['circuits'][circuit - 1]['state'])

    def follow(self) -> Any:
        """A stream of events."""
        line = support.connected(self.path('ctl'))
        line.sendall(b'events\n')
        stream = line.makefile('r', encoding='utf-8')
        assert stream.readline() == 'following\n' and stream.readline() == '\n'
        line.close()
        return stream

    def quit(self) -> tuple[int, str]:
        """Ends it; its status and what is on standard error."""
        self.ask('quit')
        return self.wait()

    def wait(self) -> tuple[int, str]:
        said = self.process.stderr.read() if self.process.stderr else b''
        return self.process.wait(SECONDS), said.decode()

    # ---- the trunk ----

    def take(self, listener: socket.socket) -> None:
        """Takes the service that comes there."""
        self.line = listener.accept()[0]
        self.line.settimeout(SECONDS)

    def kill(self, *words: str, number: int = signal.SIGKILL) -> None:
        """Sends a signal to the process that was started with these words, and waits until there is another one."""
        (before,) = support.until(lambda: children(self.process.pid, *words))
        os.kill(before, number)
        support.until(lambda: {*children(self.process.pid, *words)} - {before})

    def watcher(self) -> int:
        """The e1gw-watch of this trunk."""
        return support.until(lambda: next((pid for pid in children(self.process.pid) if 'e1gw-watch' in ' '.join(
            words_of(pid)[:3])), 0))

    def step(self, multiframes: int = 1) -> None:
        """Multiframes to and fro."""
        for _ in range(multiframes):
            self.exchange_octets(self.exchange.multiframe())
            if self.answers:
                self._answer()

    def exchange_octets(self, octets: bytes) -> bytes:
        """Octets to the service; as many that come back."""
        self.line.sendall(octets)
        back = support.read_from(self.line, len(octets))
        self.sent += octets
        self.heard += back
        self.exchange.receive(back)
        return back

    def _answer(self) -> None:
        pairs, ages = self.exchange.pairs, self._ages
        for circuit, pair in self.exchange.signals.items():
            if pair == SEIZED and pairs[circuit] in (IDLE, ACKNOWLEDGED):
                ages[circuit] = ages.get(circuit, 0) + 1
                pairs[circuit] = ACKNOWLEDGED if ages[circuit] <= ANSWERS_AFTER else ANSWERED
            elif pair == IDLE and ages.pop(circuit, 0):
                pairs[circuit] = IDLE

    def until(self, holds: Callable[[], object], most: float = inf) -> None:
        """Steps until something holds, at most this number of times."""
        for number in itertools.count():
            if holds():
                return
            assert number < most, 'it does not come to hold'
            self.step()
