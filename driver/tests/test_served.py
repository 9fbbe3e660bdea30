"""`e1gw serve` and `e1gw trunk` in lock step: what is sent for octets is read back before more are written."""
from __future__ import annotations

import contextlib
import random
import socket
import subprocess
from collections import deque
from typing import Callable, Iterator, Sequence

from . import support
from .hand_clock import threads_of
from .support import SECONDS, octets_in
from e1gw_tools.far_exchange import SEIZED, ServeProcess, slot_of
from e1gw_common.session import CIRCUITS, FRAME, Kind, Packet, datagram_record, records_in, trunk_record
from e1gw_testing.ports import free_ports

Step = tuple[list[tuple[int, bytes]], bytes]        # datagrams of circuits, and the octets after them
Exchanges = Callable[[bytes], bytes]                # gives octets; returns those that are sent
CIRCUIT_IN = {slot_of(circuit): circuit for circuit in CIRCUITS}
MOST = 4                                            # datagrams of a circuit before one octet
PIECES = 60


class TrunkProcess:
    """A trunk in service over a socket pair, which it may wait for."""

    def __init__(self, words: Sequence[str], passed: tuple[int, ...] = (), waits: bool = False) -> None:
        self.here, there = socket.socketpair()
        self.here.settimeout(SECONDS)
        there.setblocking(waits)
        self.serving = subprocess.Popen(words, stdin=there.fileno(), stdout=there.fileno(), stderr=subprocess.PIPE,
                                        pass_fds=passed)
        there.close()

    def __enter__(self) -> TrunkProcess:
        return self

    def __exit__(self, *_: object) -> None:
        self.here.close()
        assert self.serving.stderr
        self.serving.stderr.close()
        self.serving.kill()
        self.serving.wait()

    def passes(self, octets: bytes) -> bytes:
        """What comes back for these octets."""
        self.here.sendall(octets)
        return support.read_from(self.here, len(octets))

    def ends(self) -> tuple[int, str]:
        """The status and what was told, once no more octets come."""
        self.here.shutdown(socket.SHUT_WR)
        assert self.serving.stderr
        told = self.serving.stderr.read().decode()
        return self.serving.wait(SECONDS), told


def calls_of(speech: random.Random) -> tuple[bytes, bytes]:
    """What an exchange sends: a seizure of all circuits, then their calls."""
    exchange = support.Exchange()
    idle = b''.join(exchange.multiframe() for _ in range(20))
    exchange.pairs = dict.fromkeys(CIRCUITS, SEIZED)
    seizures = b''.join(exchange.multiframe() for _ in range(40))
    exchange.speech = {circuit: bytearray(speech.randbytes(1600)) for circuit in CIRCUITS}
    return idle + seizures, b''.join(exchange.multiframe() for _ in range(100))


def session_of(seed: int) -> list[Step]:
    """A random session: pieces of 1 to 2,048 octets, and before each some datagrams that are played soon."""
    pick = random.Random(seed)
    begun, calls = calls_of(pick)
    steps: list[Step] = [([], begun)]
    at = 0
    for number in range(PIECES):
        datagrams = []
        for circuit in pick.choices(CIRCUITS, k=pick.choice((0, 1, 5, 15))):
            for part in range(pick.choice((1, 1, 1, 6))):
                time = 1000 + at // FRAME + pick.randrange(12) + 8 * part
                packet = Packet(8, number, time, circuit, pick.randbytes(pick.randrange(1, 40)))
                datagrams.append((circuit, packet.encode()))
        length = round(2 ** pick.uniform(0, 11))
        steps.append((datagrams, calls[at:at + length]))
        at += length
    return steps


def records_of(steps: list[Step]) -> bytes:
    """The session as records: before an octet, the datagrams of the circuit whose slot is sent with it."""
    waiting: dict[int, deque[bytes]] = {circuit: deque() for circuit in CIRCUITS}
    records, place = [], 0
    for datagrams, octets in steps:
        for circuit, datagram in datagrams:
            waiting[circuit].append(datagram)
        for octet in octets:
            circuit = CIRCUIT_IN.get(place % FRAME, 0)
            for _ in range(min(MOST, len(waiting.get(circuit, ())))):
                records.append(datagram_record(circuit, waiting[circuit].popleft()))
            records.append(trunk_record(bytes([octet])))
            place += 1
    return b''.join(records)


def waiting_at(port: int) -> int:
    """The octets of memory that the datagrams in a socket take. The table comes in pieces: where other sockets are
    opened and closed meanwhile, a row may be there twice, or not at all."""
    while True:
        with open('/proc/net/udp', encoding='ascii') as table:
            rows = [line.split() for line in table]
        for row in rows:
            if row[1].endswith(f':{port:04X}'):
                return int(row[4].partition(':')[2], 16)


class PortsAskedTests(support.FolderCase):
    """A datagram that was there before a read's octets is received with them: thirty incoming circuits, each with a
    port and a peer's socket, in which the datagrams are before the octets are written. Expected is what `e1gw replay`
    does with the same as records, each datagram before the octet that the definition receives it before."""

    def setUp(self) -> None:
        super().setUp()
        self.ports = dict(zip(CIRCUITS, free_ports(len(CIRCUITS))))
        self.peers = {circuit: socket.socket(socket.AF_INET, socket.SOCK_DGRAM) for circuit in CIRCUITS}
        for peer in self.peers.values():
            self.addCleanup(peer.close)
            peer.bind(('127.0.0.1', 0))
            peer.settimeout(SECONDS)
        self.config = self.write('trunk.toml', support.config_text({circuit: {
            'role': 'incoming', 'local_port': self.ports[circuit], 'peer_port': peer.getsockname()[1]}
            for circuit, peer in self.peers.items()}))

    @contextlib.contextmanager
    def serve(self) -> Iterator[tuple[int, Exchanges]]:
        process = ServeProcess(support.program(), self.config)
        with process.process:
            yield process.process.pid, process.trunk
            self.assertEqual(process.end(), 0)

    @contextlib.contextmanager
    def trunk(self) -> Iterator[tuple[int, Exchanges]]:
        with TrunkProcess([support.program(), 'trunk', '--config', self.config], waits=True) as trunk:
            yield trunk.serving.pid, trunk.passes
            self.assertEqual(trunk.ends(), (0, ''))

    def send(self, circuit: int, datagram: bytes) -> None:
        """Sends a datagram to a circuit, and returns once it is in the circuit's socket."""
        port = self.ports[circuit]
        before = waiting_at(port)
        self.peers[circuit].sendto(datagram, ('127.0.0.1', port))
        support.until(lambda: waiting_at(port) > before, 0.001)

    def answers(self, steps: list[Step], pid: int, exchange: Exchanges) -> bytes:
        """The octets that a process sends in a session. Behind its answers it may still receive what was there before,
        so nothing is sent to it until it waits for octets."""
        back = b''
        for datagrams, octets in steps:
            support.until(lambda: all(each[0] == 'S' for each in threads_of(pid)), 0.001)
            for circuit, datagram in datagrams:
                self.send(circuit, datagram)
            back += exchange(octets)
        return back

    def test_what_was_there_is_received(self) -> None:
        for seed in range(2):
            steps = session_of(seed)
            wanted = support.run('replay', '--config', self.config, given=records_of(steps))
            packets = [record for record in records_in(wanted) if record.kind == Kind.DATAGRAM]
            played = [each for each in records_in(wanted) if each.kind == Kind.ANSWER and not each.refusal]
            self.assertGreater(len(played), 100)
            for served in (self.serve, self.trunk):
                with self.subTest(seed=seed, served=served.__name__):
                    with served() as process:
                        back = self.answers(steps, *process)
                    sent = [self.peers[record.circuit].recv(2048) for record in packets]
                    self.assertEqual(back, octets_in(wanted))
                    self.assertEqual(sent, [record.body for record in packets])
