"""A stranger speaks to a circuit in a call, of which e1gw-trunk resynchronises the jitter buffer: by the words of
--senders, and from where he speaks. (A slip gives the program the same record as late packets do: test_watch.)"""
from __future__ import annotations

import socket
import unittest

from . import support
from .test_trunk import aligned, call
from .world import World
from e1gw_common.session import Packet
from e1gw_testing.ports import free_ports

PEER, STRANGER = 0x31, 0x72             # octets of their speech
PACKET = 10                             # multiframes of a packet
LATE = 50                               # multiframes without the peer, longer than the prefill
# The word, the stranger's address, and who is heard behind a resynchronisation if the stranger is first. (The peer's
# address is 127.0.0.1.)
ROWS = {'any': (('127.0.0.2', STRANGER), ('127.0.0.1', STRANGER)),
        'host': (('127.0.0.2', PEER), ('127.0.0.1', STRANGER)),
        'first': (('127.0.0.2', PEER), ('127.0.0.1', PEER))}


class Speaker:
    """Speaks in packets of 20 ms of one octet."""

    def __init__(self, host: str, octet: int, to: tuple[str, int]) -> None:
        self.socket, self._octet, self._to, self._count = socket.socket(socket.AF_INET, socket.SOCK_DGRAM), octet, to, 0
        self.socket.bind((host, 0))

    def speak(self) -> None:
        packet = Packet(8, self._count & 0xffff, 160 * self._count, self._octet, bytes([self._octet]) * 160)
        self.socket.sendto(packet.encode(), self._to)
        self._count += 1


class StrangerScene:
    """One call between a peer and the exchange, and strangers."""

    def __init__(self, word: str) -> None:
        (port,) = free_ports(1)
        self.to = '127.0.0.1', port
        self.peer = Speaker('127.0.0.1', PEER, self.to)
        self.world = World(support.config_text({1: {
            'role': 'outgoing', 'codec': 'pcma', 'payload': 8, 'prefill': 160, 'local_port': port,
            'peer_port': self.peer.socket.getsockname()[1]}}), '--senders', word)
        call(aligned(self.world), 1)

    def heard(self, *speakers: Speaker) -> set[int]:
        """Whose speech is heard while these speak for 0.16 s of the trunk, each time in this order."""
        exchange = self.world.exchange
        for number in range(8):
            for each in speakers:
                each.speak()
            if number == 4:         # (what was played before is over)
                exchange.heard[1].clear()
            self.goes_on(PACKET)
        return {*exchange.heard[1]} & {PEER, STRANGER}

    def goes_on(self, multiframes: int) -> None:
        self.world.exchange_octets(b''.join(self.world.exchange.multiframe() for _ in range(multiframes)))

    def renewed(self) -> int:
        return int(self.world.recent_status()['renewed'])

    def is_late(self, *speakers: Speaker) -> None:
        """Packets do not come for a while, and then they are late."""
        before = self.renewed()
        self.goes_on(LATE)
        while self.renewed() == before:
            self.heard(*speakers)

    def changes_codec(self, *_: Speaker) -> None:
        assert self.world.ask('codec 1 pcma 8') == 'codec 1: done'


class StrangerTests(unittest.TestCase):
    def test_rows(self) -> None:
        """Before a resynchronisation none is heard, and behind it as a row says."""
        for word, rows in ROWS.items():
            scene = StrangerScene(word)
            self.addCleanup(scene.world.__exit__)
            self.addCleanup(scene.peer.socket.close)
            for host, then in rows:
                stranger, peer = Speaker(host, STRANGER, scene.to), scene.peer
                self.addCleanup(stranger.socket.close)
                for happens in scene.changes_codec, scene.is_late:
                    with self.subTest(word, host=host, happens=happens.__name__):
                        scene.changes_codec()
                        self.assertEqual(scene.heard(peer), {PEER})
                        self.assertEqual(scene.heard(stranger, peer), {PEER})
                        happens(stranger, peer)
                        self.assertEqual(scene.heard(stranger, peer), {then})
                        self.assertEqual(scene.heard(peer), {PEER} if then == PEER else set())
            self.assertEqual(scene.world.recent_status()['senders'], word)
