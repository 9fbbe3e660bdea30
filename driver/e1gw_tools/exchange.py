"""Simulates an exchange at a Unix socket, in place of a card, to try e1gw-trunk with. Needs python3 alone.

  e1gw-exchange [--again] PATH

It waits for a client, and then sends and receives a trunk of 2048 kbit/s in real time. It acknowledges a seizure after
20 ms, answers after a second, and sends back the speech that it receives. Typed lines are seize N and clear N, for
circuits on which the exchange calls. It prints bits a and b of each line signal received, and ends when the client
does; with --again it then waits for the next client, with all circuits idle.
"""
import argparse
import errno
import os
import select
import signal
import socket
import stat
import sys
import time

from e1gw_common.faults import Parser
from e1gw_common.session import MULTIFRAME
from .far_exchange import ACKNOWLEDGED, ANSWERED, IDLE, SEIZED, Exchange

STEP = 0.002            # seconds of a multiframe
ACKNOWLEDGES, ANSWERS = 10, 500
PATIENCE = 0.1          # seconds after which octets that do not come back are lost


class Called:
    """The circuits on which the gateway calls: since how many multiframes each is seized."""

    def __init__(self) -> None:
        self.since: dict[int, int] = {}

    def step(self, exchange: Exchange) -> None:
        for circuit, pair in exchange.signals.items():
            if pair == SEIZED and (circuit in self.since or exchange.pairs[circuit] == IDLE):
                age = self.since[circuit] = self.since.get(circuit, 0) + 1
                if age >= ACKNOWLEDGES:
                    exchange.pairs[circuit] = ANSWERED if age >= ANSWERS else ACKNOWLEDGED
            elif circuit in self.since:
                del self.since[circuit]
                exchange.pairs[circuit] = IDLE


class TypedLines:
    """Lines that are typed, however many of them one read gives. (A reader of lines would keep those behind the first
    one, and `select` would not tell of them.)"""

    def __init__(self) -> None:
        self._rest = b''
        self._more = True       # can come

    def read_lines(self) -> list[str]:
        """Reads what there is; its lines."""
        if not self._more or not select.select([sys.stdin], [], [], 0)[0]:
            return []
        try:
            octets = os.read(sys.stdin.fileno(), 4096)
        except OSError:     # in the background of a terminal
            self._more = False
            return []
        self._more = octets != b''
        *lines, self._rest = (self._rest + (octets or b'\n')).split(b'\n')
        return [line.decode(errors='replace') for line in lines]


def obey(line: str, exchange: Exchange) -> None:
    """Obeys a line."""
    name, _, number = line.strip().partition(' ')
    if name in ('seize', 'clear') and number.isdecimal() and int(number) in exchange.pairs:
        exchange.pairs[int(number)] = SEIZED if name == 'seize' else IDLE
    elif line.strip():
        print('there are seize N and clear N', flush=True)


def receive(line: socket.socket, exchange: Exchange) -> bool:
    """Receives as many octets as were sent, but for those that are lost; returns whether the other end is there
    still."""
    heard = b''
    while len(heard) < MULTIFRAME and select.select([line], [], [], PATIENCE)[0]:
        piece = line.recv(MULTIFRAME - len(heard))
        if not piece:
            return False
        heard += piece
    before = dict(exchange.signals)
    exchange.heard.clear()
    exchange.receive(heard)
    exchange.speech.update(exchange.heard)
    for circuit, pair in exchange.signals.items():
        if before and before[circuit] != pair:
            print(f'{circuit}: {pair:02b}', flush=True)
    return True


def is_left_over(path: str) -> bool:
    """Whether there is a socket that nobody listens at: an exchange that was killed has left it."""
    if not (os.path.exists(path) and stat.S_ISSOCK(os.stat(path).st_mode)):
        return False
    with socket.socket(socket.AF_UNIX) as line:
        return line.connect_ex(path) == errno.ECONNREFUSED


def awaited(path: str) -> socket.socket:
    """Waits for one who connects to a socket at this path, which is removed then. One that is left over is replaced."""
    with socket.socket(socket.AF_UNIX) as listener:
        try:
            if is_left_over(path):
                os.unlink(path)
            listener.bind(path)
        except OSError as fault:
            sys.exit(f'e1gw-exchange: {path}: {fault.strerror}')
        listener.listen(1)
        line = listener.accept()[0]
    os.unlink(path)
    return line


def carry(line: socket.socket, typed: TypedLines) -> None:
    """Sends and receives the trunk until the other end goes."""
    exchange, called, due = Exchange(), Called(), time.monotonic()
    try:
        while True:
            line.sendall(exchange.multiframe())
            if not receive(line, exchange):
                return
            called.step(exchange)
            for each in typed.read_lines():
                obey(each, exchange)
            due += STEP
            time.sleep(max(0, due - time.monotonic()))
    except (BrokenPipeError, ConnectionResetError):
        pass


def main() -> None:
    words = Parser(description=__doc__, usage=argparse.SUPPRESS,
                   formatter_class=argparse.RawDescriptionHelpFormatter)
    words.add_argument('--again', action='store_true')
    words.add_argument('path', metavar='PATH')
    asked = words.parse_args()
    signal.signal(signal.SIGTTIN, signal.SIG_IGN)
    typed, is_due = TypedLines(), True
    while is_due:
        with awaited(asked.path) as line:
            carry(line, typed)
        is_due = asked.again

