"""A trunk in service: `e1gw-trunk` as a process, and its control."""
from __future__ import annotations

import contextlib
import json
import os
import socket
import subprocess
import sys
from typing import Any

from .waits import SECONDS

LAUNCHER = os.path.realpath(os.path.join(os.path.dirname(__file__), '../../bin/e1gw-trunk'))


def ask(path: str, command: bytes) -> str:
    """What a trunk answers to a command at the socket of its control. EOFError if it ends before that."""
    with socket.socket(socket.AF_UNIX) as line:
        line.connect(path)                              # waits for a place; with a time limit it would be refused
        line.settimeout(SECONDS)
        return answer_of(line, command)


def answer_of(line: socket.socket, command: bytes = b'') -> str:
    """The same over a connection that goes on; without a command to one that was given there before."""
    with contextlib.suppress(BrokenPipeError):          # (there is no answer then)
        line.sendall(command and command + b'\n')
    answer = b''
    while not answer.endswith(b'\n\n'):
        piece = line.recv(65536)
        if not piece:
            raise EOFError(answer)
        answer += piece
    return answer.decode().rstrip('\n')


class Service:
    """A trunk; what its programs print is kept in the folder, where the control is too. Options of e1gw-watch are
    behind --."""

    def __init__(self, folder: str, name: str, program: str, config: str, *options: str) -> None:
        self.name, self.control = name, os.path.join(folder, f'{name}.control')
        self.log = open(os.path.join(folder, f'{name}.log'), 'w+', encoding='utf-8')
        its = [*options, '--'].index('--')
        self.driver = subprocess.Popen(
            [sys.executable, '-B', LAUNCHER, '--config', config, '--program', program, *options[:its], '--',
             '--control', self.control, *options[its + 1:]], stdin=subprocess.DEVNULL, stdout=self.log,
            stderr=self.log)

    def ask(self, command: str) -> str:
        """The first line of the answer to a command."""
        return ask(self.control, command.encode()).partition('\n')[0]

    def status(self) -> dict[str, Any]:
        """All that is known; nothing where nobody answers."""
        try:
            found: dict[str, Any] = json.loads(self.ask('status json'))
            return found
        except (OSError, EOFError, ValueError):
            return {}

    def state(self) -> str:
        """That of circuit 1."""
        status = self.status()
        return str(status['circuits'][0]['state']) if status else ''

    def printed(self) -> str:
        """What was printed."""
        self.log.seek(0)
        return self.log.read()

    def end(self) -> int:
        """Ends it, where that was not done yet; its status."""
        if self.driver.poll() is None:
            self.driver.terminate()
        return self.driver.wait(SECONDS)
