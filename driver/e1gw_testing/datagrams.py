"""Datagrams of tests and measurements, and the sockets that they come from and go to."""
import contextlib
import socket
from collections.abc import Iterator

from e1gw_common.session import Codec, Packet

SECONDS = 900               # for one session
PCMA = 8
PACKET = 80                 # samples of a packet of 10 ms, and its octets in G.711
BITS = {Codec.G711: 8, Codec.G726_16: 2, Codec.G726_24: 3, Codec.G726_32: 4, Codec.G726_40: 5}    # of a sample


def payload_of(codec: Codec) -> int:
    """The payload type of a codec in calls of tests."""
    return PCMA if codec is Codec.G711 else 96


def family_of(host: str) -> socket.AddressFamily:
    """The family of an address."""
    return socket.AF_INET6 if ':' in host else socket.AF_INET


def bind_socket(host: str, port: int = 0) -> socket.socket:
    """A socket at this address."""
    found = socket.socket(family_of(host), socket.SOCK_DGRAM)
    found.bind((host, port))
    return found


def speech(octet: int, length: int = PACKET, at: int = 0) -> bytes:
    """A datagram of speech of one call, whose first octet has this place in it."""
    return Packet(PCMA, 1 + at // PACKET, 1000 + at, 7, bytes([octet]) * length).encode()


def packets(peer: socket.socket) -> Iterator[tuple[bytes, tuple[str, int]]]:
    """The datagrams that wait at a peer, each with its sender."""
    peer.setblocking(False)
    with contextlib.suppress(BlockingIOError):
        while True:
            yield peer.recvfrom(65536)
