"""A trunk with thirty calls whose program is killed again and again, for bench/kills: all octets of the trunk and all
datagrams that all programs sent have to be those of one session, never cut, of all records that the log had."""
from __future__ import annotations

import os
import random
import socket
import struct
import subprocess
import tempfile
import time
from collections import Counter
from contextlib import ExitStack, closing, suppress
from enum import Enum

from e1gw.log_folder import LogFiles
from e1gw_common.session import MULTIFRAME, Codec, Command, Kind, command_record, records_in, whole_records
from e1gw_tools.far_exchange import SEIZED, Exchange
from .datagrams import BITS, PACKET, SECONDS, bind_socket, packets, payload_of
from .ports import free_ports

CIRCUITS = range(1, 31)
PIECE = 5 * MULTIFRAME      # octets of the trunk that are given at once: 10 ms
TURN = 300                  # such pieces, whose records and those of their datagrams are more than 1 MiB
KILLED = 137                # the status of a program that died inside a write
CIRCUIT = '''[[circuit]]
number = {}
role = "incoming"
codec = "{}"
payload = {}
ptime = 10
prefill = 160
local_port = {}
peer_host = "127.0.0.1"
peer_port = {}
'''


class Death(Enum):
    """How a program dies."""

    ANYWHERE = 'at any instruction'
    APPEND = 'inside an append'
    FIRST = 'inside its first checkpoint'
    LATER = 'inside a checkpoint behind 1 MiB'


class KilledTrunk:
    """A trunk with thirty calls of a codec, its exchange, its peers, and all that its log had. `dies` is the library
    made of bench/die.c, if programs are to die inside writes."""

    def __init__(self, program: str, codec: Codec, dice: random.Random, held: ExitStack, dies: str = '') -> None:
        self.room = held.enter_context(tempfile.TemporaryDirectory(dir='/dev/shm'))
        self.program, self.codec, self.dice, self.dies, self.exchange = program, codec, dice, dies, Exchange()
        self.ports = free_ports(len(CIRCUITS))
        self.peers = [held.enter_context(bind_socket('127.0.0.1')) for _ in CIRCUITS]
        with open(self.path('trunk.toml'), 'w', encoding='ascii') as file:
            file.write('law = "A"\nhost = "127.0.0.1"\n')
            for circuit, port, peer in zip(CIRCUITS, self.ports, self.peers):
                its = circuit, codec.word('A'), payload_of(codec), port, peer.getsockname()[1]
                file.write(CIRCUIT.format(*its))
        os.mkdir(self.path('log'))
        self.turns, self.at = 0, 0                          # pieces that were given; the octet of the trunk
        self.had, self.octets = bytearray(), 0              # all records that the log has had, and of the trunk in them
        self.answers = list[tuple[int, bytes]]()            # of programs, each with its octet of the trunk
        self.datagrams = Counter[tuple[int, bytes]]()       # of circuits
        self.seconds = list[float]()                        # from a start to the first answer
        self.device: socket.socket
        self.process: subprocess.Popen[bytes]

    def path(self, name: str) -> str:
        return os.path.join(self.room, name)

    def start(self, **dies: int) -> None:
        """Another program goes on from the log."""
        self.device, its = socket.socketpair()
        self.device.settimeout(SECONDS)
        options = {'config': 'trunk.toml', 'log': 'log', 'control': 'control'}
        words = [word for option, name in options.items() for word in (f'--{option}', self.path(name))]
        more = {name: str(number) for name, number in dies.items()} | ({'LD_PRELOAD': self.dies} if dies else {})
        self.process = subprocess.Popen([self.program, 'trunk', *words], stdin=its.fileno(), stdout=its.fileno(),
                                        stderr=subprocess.PIPE, env=os.environ | more)
        its.close()
        self.at = self.octets

    def send_piece(self) -> None:
        """10 ms of the trunk, and a packet for each circuit."""
        head = struct.pack('>BBHII', 0x80, payload_of(self.codec), self.turns & 0xffff, self.turns * PACKET, 7)
        for peer, port in zip(self.peers, self.ports):
            peer.sendto(head + self.dice.randbytes(PACKET * BITS[self.codec] // 8), ('127.0.0.1', port))
        self.exchange.speech.update((circuit, bytearray(self.dice.randbytes(PACKET))) for circuit in CIRCUITS)
        with suppress(BrokenPipeError):
            self.device.sendall(b''.join(self.exchange.multiframe() for _ in range(PIECE // MULTIFRAME)))
        self.turns += 1

    def receive_piece(self) -> bool:
        """What answers that; whether it is all."""
        octets = b''
        with suppress(ConnectionResetError):
            while len(octets) < PIECE and (more := self.device.recv(PIECE - len(octets))):
                octets += more
        self.answers.append((self.at, octets))
        self.at += len(octets)
        for circuit, peer in zip(CIRCUITS, self.peers):
            self.datagrams.update((circuit, datagram) for datagram, _ in packets(peer))
        return len(octets) == PIECE

    def run(self, pieces: int) -> bool:
        """So many pieces; whether the program lives then."""
        for _ in range(pieces):
            self.send_piece()
            if not self.receive_piece():
                return False
        return True

    def calls(self) -> None:
        """A first program, with thirty calls."""
        self.start()
        self.run(6)
        self.exchange.pairs.update(dict.fromkeys(CIRCUITS, SEIZED))
        self.run(12)
        with socket.socket(socket.AF_UNIX) as line:
            line.connect(self.path('control'))
            line.settimeout(0.01)
            for circuit in CIRCUITS:
                line.sendall(command_record(circuit, Command.ANSWER))
                assert self._answer(line)[-1] == 0

    def _answer(self, line: socket.socket) -> bytes:
        """What the program answers a command, while the trunk goes on."""
        while True:
            with suppress(TimeoutError):
                return line.recv(6)
            self.run(1)

    def dies_by(self, death: Death) -> None:
        """Another program, which is killed."""
        began = time.monotonic()
        match death:
            case Death.ANYWHERE:
                self.start()
                pieces = self.dice.randrange(1, 60)
            case Death.APPEND:
                self.start(DIE_AT=self.dice.randrange(5, 400))
                pieces = TURN
            case Death.FIRST:
                self.start(DIE_AT=self.dice.randrange(1, 5))
                pieces = TURN
            case Death.LATER:
                self.start(DIE_IN_CHECKPOINT=self.dice.randrange(1, 5))
                pieces = TURN
        if lives := self.run(1):
            self.seconds.append(time.monotonic() - began)
            lives = self.run(pieces)
        if lives:
            assert death is Death.ANYWHERE, death
            self.send_piece()
            time.sleep(self.dice.random() * 0.002)
        self.end(death)

    def end(self, death: Death) -> None:
        """The program is killed if it has not died, and its log is read."""
        if death is Death.ANYWHERE:
            self.process.kill()
        _, words = self.process.communicate(timeout=SECONDS)
        assert death is Death.ANYWHERE or self.process.returncode == KILLED, (self.process.returncode, words)
        self.device.close()
        self.read()

    def read(self) -> None:
        """What the log has now."""
        with closing(LogFiles(self.path('log'))) as files:
            for pair in sorted(filter(None, map(files.pair, (0, 1))), key=lambda pair: pair.place):
                assert pair.place <= len(self.had), 'records were written over that this has not read'
                self.octets += whole_records(pair.records)[1] - whole_records(bytes(self.had[pair.place:]))[1]
                self.had[pair.place:] = pair.records

    def differ(self) -> tuple[int, int]:
        """Answers and datagrams that are not those of one session over all records."""
        words = [self.program, 'replay', '--config', self.path('trunk.toml')]
        out = subprocess.run(words, input=self.had, capture_output=True, check=True).stdout
        octets, wanted = bytearray(), set[tuple[int, bytes]]()
        for record in records_in(out):
            if record.kind is Kind.TRUNK:
                octets += record.body
            elif record.kind is Kind.DATAGRAM:
                wanted.add((record.circuit, record.body))
        return (sum(octets[at:at + len(answer)] != answer for at, answer in self.answers),
                sum(count > 1 or each not in wanted for each, count in self.datagrams.items()))


