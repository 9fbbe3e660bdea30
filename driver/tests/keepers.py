"""A trunk with thirty calls, whose program is killed or stopped, and another one goes on.

It goes in lock step, in records of one multiframe: the exchange waits for what comes back, or for e1gw-trunk to say
that another program goes on. What it hears is what one uncut replay of all records gives."""
from __future__ import annotations

import contextlib
import os
import random
import re
import socket
import subprocess
from typing import Any

from . import support
from .support import SECONDS
from .world import trunk_command
from e1gw_tools.far_exchange import ACKNOWLEDGED, ANSWERED, SEIZED
from e1gw.holder_state import TrunkPlaces
from e1gw.log_folder import LogFiles
from e1gw_common.session import (FRAME, MULTIFRAME, Codec, Command, Kind, Packet, codec_record, command_record,
                                 packet_of, records_in, trunk_record)
from e1gw_testing.ports import free_ports

NO_EFFECT = codec_record(1, Codec.G726_16, 1)    # no payload type of the codec: it is refused
CIRCUITS = range(1, 31)
GOES_ON = re.compile(r'program (\d+) (?:goes on|carries)(.*)')


class KeeperDevice:
    """A Unix socket that e1gw-trunk opens as its trunk, and the exchange at the other end of it."""

    def __init__(self, folder: str) -> None:
        self.path = os.path.join(folder, 'card')
        self.listener = support.listening(self.path)
        self.exchange = support.Exchange()
        self.speech = random.Random(5)
        self.line: Any = self.listener

    def accept(self) -> None:
        self.line = self.listener.accept()[0]
        self.line.settimeout(SECONDS)

    def multiframe(self) -> bytes:
        """The next one, with speech in each circuit."""
        for circuit in CIRCUITS:
            self.exchange.speech[circuit] = bytearray(self.speech.randbytes(16))
        return self.exchange.multiframe()

    def close(self) -> None:
        self.line.close()
        self.listener.close()


class RtpPeers:
    """Where the packets of all circuits go: one socket, which knows a circuit by the port that it sends from."""

    def __init__(self) -> None:
        self.socket = socket.socket(socket.AF_INET, socket.SOCK_DGRAM)
        self.socket.setsockopt(socket.SOL_SOCKET, socket.SO_RCVBUF, 8 << 20)
        self.socket.bind(('127.0.0.1', 0))
        self.socket.setblocking(False)
        self.circuits = {port: circuit for circuit, port in zip(CIRCUITS, free_ports(30))}
        self.packets: dict[int, list[bytes]] = {circuit: [] for circuit in CIRCUITS}

    def config(self) -> str:
        """Odd circuits are incoming, even ones outgoing."""
        return support.config_text({circuit: {
            'role': 'incoming' if circuit % 2 else 'outgoing', 'local_port': port,
            'peer_port': self.socket.getsockname()[1]}
            for port, circuit in self.circuits.items()})

    def take(self) -> None:
        while True:
            try:
                datagram, (_, port) = self.socket.recvfrom(65_536)
            except BlockingIOError:
                return
            self.packets[self.circuits[port]].append(datagram)

    def speak(self, number: int, host: str) -> None:
        """Each sends its packet of this number, 20 ms of an octet of its own, to the trunk at a host."""
        for port, circuit in self.circuits.items():
            packet = Packet(8, number & 0xffff, 160 * number & 0xffffffff, circuit, bytes([circuit]) * 160)
            self.socket.sendto(packet.encode(), (host, port))


class KeeperCase(support.FolderCase):
    """A trunk with a device, thirty calls, and what was given and heard. `control` is the program's socket."""

    def setUp(self) -> None:
        support.program()
        super().setUp()
        self.chance = support.chance_of(self)
        self.device, self.peers = KeeperDevice(self.folder), RtpPeers()
        self.addCleanup(self.device.close)
        self.addCleanup(self.peers.socket.close)
        self.config = self.write('trunk.toml', self.peers.config())
        self.given: list[bytes] = []            # what the gateway was given, in the order in which it took it
        self.unknown = 0                        # how many records a killed program had in hand, which nobody knows of
        self.heard: list[bytes | None] = []     # the answer to each record of the trunk, or None where it is lost
        self.told_from = 0                      # behind what was waited for
        self.program = 0
        self.speech_to, self.now, self._spoken = '', 0, -1  # where peers speak, by the trunk's time: 2 ms, and packets
        memory = support.in_memory()
        self.addCleanup(memory.cleanup)
        self.memory = memory.name
        self.places = TrunkPlaces(os.path.join(self.memory, f'trunk-{os.getuid()}'))
        self.control = self.places.control

    def starts(self, *options: str, **around: str) -> None:
        """Starts e1gw-trunk by hand, which opens the device."""
        words = trunk_command('--config', self.config, '--unix', self.device.path, '--folder', self.memory, *options)
        with open(self.path('told'), 'ab') as told:
            self.keeper = subprocess.Popen(words, stderr=told, stdin=subprocess.DEVNULL,
                                           env={**os.environ, **around})
        self.addCleanup(self._end)
        self.device.accept()
        self.goes_on()

    def _end(self) -> None:
        """Ends what a failed test leaves. (The program ends with e1gw-trunk.)"""
        if self.keeper.poll() is None:
            self.keeper.kill()
            self.keeper.wait()

    # ---- what is said ----

    def read_log(self) -> str:
        return support.text_of(self.path('told'))

    def awaits(self, pattern: str | re.Pattern[str]) -> re.Match[str]:
        """What e1gw-trunk says next that is so."""
        found = support.said_by(self.keeper, self.path('told'), pattern, self.told_from)
        self.told_from = found.end()
        return found

    def goes_on(self) -> str:
        """Waits for the next program. What is said of it."""
        found = self.awaits(GOES_ON)
        self.program = int(found[1])
        return found[2]

    # ---- the trunk ----

    def step(self, count: int = 1) -> None:
        """Multiframes to and fro."""
        for _ in range(count):
            self.take(self.send())

    def send(self, count: int = 1) -> int:
        """Sends multiframes that are not waited for yet."""
        for _ in range(count):
            if self.speech_to and self.now // 10 != self._spoken:
                self._spoken = self.now // 10
                self.peers.speak(self._spoken, self.speech_to)
            self.now += 1
            octets = self.device.multiframe()
            self.device.line.sendall(octets)
            self.given.append(trunk_record(octets))
        return count

    def take(self, count: int) -> None:
        """Takes the answers to this number of records."""
        for _ in range(count):
            back = support.read_from(self.device.line, MULTIFRAME)
            self.heard.append(back)
            self.device.exchange.receive(back)
            self.peers.take()

    def client(self) -> socket.socket:
        support.until(lambda: os.path.exists(self.control))     # (the program may answer octets before)
        return support.connected(self.control)

    def commands(self, circuits: range, command: Command) -> None:
        """Gives a command to each of these circuits, and sees it done."""
        with self.client() as line:
            for circuit in circuits:
                self.given.append(command_record(circuit, command))
                line.sendall(self.given[-1])
                self.assertEqual(line.recv(6)[4:], bytes([Kind.COMMAND, 0]), (circuit, command))

    def calls(self) -> None:
        """Thirty calls: the exchange seizes the odd circuits, the operator the even ones."""
        pairs = self.device.exchange.pairs
        self.step(40)
        pairs.update((circuit, SEIZED) for circuit in CIRCUITS if circuit % 2)
        self.commands(CIRCUITS[1::2], Command.SEIZE)
        self.step(20)
        pairs.update((circuit, ACKNOWLEDGED) for circuit in CIRCUITS[1::2])
        self.commands(CIRCUITS[::2], Command.ANSWER)
        self.step(20)
        pairs.update((circuit, ANSWERED) for circuit in CIRCUITS[1::2])
        self.step(20)
        self.assertEqual(self.device.exchange.signals, self.up())

    def up(self) -> dict[int, int]:
        """The signals of thirty calls."""
        return {circuit: ANSWERED if circuit % 2 else SEIZED for circuit in CIRCUITS}

    def logged(self) -> int:
        """How many octets of records the log has taken."""
        with contextlib.closing(LogFiles(self.places.log)) as files:
            pair = files.last()
        assert pair
        return pair.end

    def killed(self, number: int) -> None:
        """The program is sent a signal at any moment behind a record, and another one goes on."""
        before = self.logged()
        self.send()
        for _ in range(self.chance.randrange(0, 400)):
            pass
        with contextlib.suppress(ProcessLookupError):
            os.kill(self.program, number)
        self.goes_on()
        is_known = self.logged() > before
        back = self.settled()
        self.assertIn(len(back), (0, MULTIFRAME))
        if back:
            self.heard.append(back)
            self.device.exchange.receive(back)
        elif is_known:
            self.heard.append(None)     # its answer is lost
        else:
            self.given.pop()            # it was read and never known
            self.unknown += 1

    def settled(self) -> bytes:
        """What has come back, once all that was sent is read and answered: a client's answer comes behind that."""
        support.all_read(self.device.line)
        with self.client() as line:
            line.sendall(NO_EFFECT)
            self.assertEqual(len(line.recv(6)), 6)
        self.device.line.setblocking(False)
        try:
            back: bytes = self.device.line.recv(65_536)
            return back
        except BlockingIOError:
            return b''
        finally:
            self.device.line.settimeout(SECONDS)

    # ---- what must hold ----

    def peers_heard(self, count: int = 1) -> set[int]:
        """The circuits in which nothing but their peers was heard in the last records."""
        back = b''.join(each or b'' for each in self.heard[-count:])
        return {n for n in CIRCUITS if {*back[n + (n > 15)::FRAME]} == {n}}

    def uncut(self, *words: str, given: bytes = b'') -> tuple[list[bytes], dict[int, list[bytes]]]:
        """What one replay of all that was given answers: records of the trunk, and packets by circuit."""
        octets: list[bytes] = []
        packets: dict[int, list[bytes]] = {circuit: [] for circuit in CIRCUITS}
        given = given or b''.join(self.given)
        for record in records_in(support.run('replay', '--config', self.config, *words, given=given)):
            if record.kind is Kind.TRUNK:
                octets.append(record.body)
            elif record.kind is Kind.DATAGRAM:
                packets[record.circuit].append(record.body)
        return octets, packets

    def as_uncut(self) -> None:
        """All that was heard and received is what the uncut session gives, but for what is lost. All calls are up."""
        octets, packets = self.uncut()
        self.assertEqual(len(octets), len(self.heard))
        for place, (mine, its) in enumerate(zip(self.heard, octets)):
            self.assertIn(mine, (its, None), f'record {place}')
        lost = self.heard.count(None)
        self.peers.take()
        for circuit in CIRCUITS:
            due, came = packets[circuit], self.peers.packets[circuit]
            both = {*due} & {*came}
            got = [packet for packet in came if packet in both]
            self.assertLessEqual(len(due) - len(got), lost)
            self.assertEqual(got, [packet for packet in due if packet in both], f'circuit {circuit}')
            numbers = [packet_of(packet).sequence for packet in due]
            # A packet of a record in hand may have left before the program was killed: its number is sent again.
            early = [packet_of(packet).sequence for packet in came if packet not in both]
            self.assertLessEqual(len(early), self.unknown, f'circuit {circuit}')
            self.assertLessEqual({*early}, {*numbers}, f'circuit {circuit}')
            self.assertEqual(numbers, list(range(numbers[0], numbers[0] + len(numbers))))
        self.assertEqual(self.device.exchange.signals, self.up())
        self.assertFalse(self.device.exchange.remote_alarms)

    def ends(self) -> None:
        """It ends, and leaves nothing."""
        self.keeper.terminate()
        self.assertEqual(self.keeper.wait(SECONDS), 0, self.read_log())
        self.assertEqual(os.listdir(self.memory), [])
