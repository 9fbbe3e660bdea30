"""UDP datagrams of a capture, and ICMP's answers to some: pcap and pcapng files of Ethernet, Linux cooked, loopback or
plain IP packets."""
from __future__ import annotations

import struct
from collections.abc import Iterator
from contextlib import suppress
from typing import BinaryIO, NamedTuple

PCAP = {b'\xD4\xC3\xB2\xA1': ('<', 1_000_000), b'\xA1\xB2\xC3\xD4': ('>', 1_000_000),
        b'\x4D\x3C\xB2\xA1': ('<', 1_000_000_000), b'\xA1\xB2\x3C\x4D': ('>', 1_000_000_000)}
SECTION, INTERFACE, PACKET = 0x0A0D0D0A, 1, 6
# What comes before the IP header, by link type, and where in it the type of the packet is, if there is one.
LINKS = {0: (4, None), 1: (14, 12), 12: (0, None), 101: (0, None), 113: (16, 14), 228: (0, None), 229: (0, None),
         276: (20, 0)}
VLAN, IP, UDP = (b'\x81\x00', b'\x88\xA8'), (b'\x08\x00', b'\x86\xDD'), 17
NOBODY, NO_WAY, FORBIDDEN, CIRCLE = ('nobody listens at that port', 'there is no way to that host',
                                     'a firewall forbids it', 'it goes round in a circle')
# Why a datagram was not delivered, by protocol (ICMP, ICMPv6), type and code (RFC 792, RFC 1812, RFC 4443).
REASONS: dict[tuple[int, ...], str] = {
    (1, 3, 0): NO_WAY, (1, 3, 1): NO_WAY, (1, 3, 3): NOBODY, (1, 3, 9): FORBIDDEN, (1, 3, 10): FORBIDDEN,
    (1, 3, 13): FORBIDDEN, (1, 11, 0): CIRCLE, (58, 1, 0): NO_WAY, (58, 1, 1): FORBIDDEN, (58, 1, 3): NO_WAY,
    (58, 1, 4): NOBODY, (58, 1, 5): FORBIDDEN, (58, 1, 6): FORBIDDEN, (58, 3, 0): CIRCLE}
MOST = 1 << 20              # octets of a block


class BadCapture(ValueError):
    """A file is not a readable capture."""


class CutCapture(BadCapture):
    """It ends inside a packet."""


class Datagram(NamedTuple):
    """A datagram on the network: time, ports, payload and addresses. With `answer` it was not delivered, and the answer
    says why."""
    time: float
    source: int
    target: int
    body: bytes
    source_host: bytes
    target_host: bytes
    answer: str


def packets(file: BinaryIO) -> Iterator[Datagram | None]:
    """Of each packet of a capture the UDP datagram, over IPv4 or IPv6, or the one that an answer of ICMP is about; None
    for others, and for what is cut or fragmented. CutCapture at an end inside a packet, as in a file still being
    written."""
    magic = file.read(4)
    if magic not in PCAP and magic != b'\x0A\x0D\x0D\x0A':
        raise BadCapture('not a capture: neither pcap nor pcapng')
    for link, time, octets in _pcap(file, *PCAP[magic]) if magic in PCAP else _pcapng(file):
        skip, word = LINKS.get(link, (0, 0))
        while word == 12 and octets[12:14] in VLAN:
            octets = octets[:12] + octets[16:]
        yield _carried(octets[skip:], time) if word is None or octets[word:word + 2] in IP else None


def datagrams(file: BinaryIO) -> Iterator[Datagram]:
    """The datagrams of a capture, also of one that ends inside a packet."""
    with suppress(CutCapture):
        yield from filter(None, packets(file))


def _read(file: BinaryIO, length: int) -> bytes:
    if length > MOST:
        raise BadCapture(f'a packet of {length} octets, too long for a capture')
    if len(octets := file.read(length)) < length:
        raise CutCapture('the capture ends inside a packet')
    return octets


Framed = tuple[int, float, bytes]       # the link type, the time, and the octets of a packet, none of one that was cut


def _pcap(file: BinaryIO, order: str, parts: int) -> Iterator[Framed]:
    link = struct.unpack(order + '16xI', _read(file, 20))[0] & 0xFFFF
    if link not in LINKS:
        raise BadCapture(f'packets of link type {link}')
    entry = struct.Struct(order + 'IIII')
    while head := file.read(16):
        seconds, part, length, whole = entry.unpack(head + _read(file, 16 - len(head)))
        octets = _read(file, length)
        yield link, seconds + part / parts, octets * (length == whole)


def _pcapng(file: BinaryIO) -> Iterator[Framed]:
    """Blocks: sections, interfaces and packets; others are skipped."""
    order, links, kind = '<', list[tuple[int, float]](), SECTION
    while True:
        head = _read(file, 8 if kind == SECTION else 4)
        if kind == SECTION:
            order, links = '<' if head[4:] == b'\x4D\x3C\x2B\x1A' else '>', []
        length = struct.unpack(order + 'I', head[:4])[0]
        if length < 8 + len(head) or length % 4:
            raise BadCapture('the capture has a block of a length that cannot be')
        body = _read(file, length - 8 - len(head))
        _read(file, 4)
        if kind == INTERFACE:
            links.append((struct.unpack_from(order + 'H', body)[0], _resolution(order, body[8:])))
        elif kind == PACKET and len(body) >= 20:
            number, high, low, size, whole = struct.unpack_from(order + '5I', body)
            if number < len(links):
                yield links[number][0], (high << 32 | low) * links[number][1], body[20:20 + size * (size == whole)]
        if not (word := file.read(4)):
            return
        kind = struct.unpack(order + 'I', word + _read(file, 4 - len(word)))[0]


def _resolution(order: str, options: bytes) -> float:
    """The unit of an interface's times: option 9, by default a millionth of a second."""
    at = 0
    while at + 4 <= len(options):
        code, length = struct.unpack_from(order + 'HH', options, at)
        if code == 9 and length == 1:
            power = options[at + 4]
            return 2.0 ** -(power & 127) if power & 128 else 10.0 ** -power
        at += 4 + length + -length % 4
    return 1e-6


def _carried(ip: bytes, time: float, answer: str = '') -> Datagram | None:
    """The datagram of an IP packet, or of the begin of one that is quoted in an answer."""
    if len(ip) >= 20 and ip[0] >> 4 == 4 and not int.from_bytes(ip[6:8], 'big') & 0x3FFF:
        kind, body, hosts = ip[9], ip[4 * (ip[0] & 15):], (ip[12:16], ip[16:20])
    elif len(ip) >= 40 and ip[0] >> 4 == 6:
        kind, body, hosts = ip[6], ip[40:], (ip[8:24], ip[24:40])
    else:
        return None
    if not answer and len(body) >= 8 and (reason := REASONS.get((kind, *body[:2]))):
        return _carried(body[8:], time, reason)
    if kind != UDP or len(body) < (4 if answer else 8):
        return None
    source, target, length = struct.unpack_from('>HHH', body + bytes(2))
    if not answer and not 8 <= length <= len(body):
        return None
    return Datagram(time, source, target, b'' if answer else body[8:length], *hosts, answer)
