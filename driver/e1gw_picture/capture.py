"""A session with the datagrams of a capture in place of its own."""
from __future__ import annotations

import ipaddress
from collections import Counter, deque
from collections.abc import Iterator, Mapping
from itertools import islice
from statistics import median

from e1gw_common.lines import TrunkConfig
from e1gw_common.packets import Datagram, datagrams
from e1gw_common.session import FRAME, OCTETS_A_SECOND, Kind, datagram_record, trunk_record
from e1gw_common.session_files import InputError
from .facts import MOST, Address, Facts, Wire
from .reading import HEAD, records_of

NEAR = 101                  # datagrams sent by which the capture's times are mapped to the trunk
MOST_ADDRESSES = 8          # of a circuit, and of strays
PACKET = 1600               # samples of a datagram at most: the first one may begin before the session


def ports(config: TrunkConfig) -> dict[int, int]:
    """The circuit of each local port."""
    return {port: circuit for (_, port), circuit in config.addresses().items()}


class CaptureClock:
    """The time of the session's first octet, by the times at which the gateway's datagrams left: the last word of one
    with timestamp s and n words was received in frame s + n, so as many octets of the trunk were before it."""

    def __init__(self, config: TrunkConfig, before: int) -> None:
        self.circuits = config.circuits()
        self.near: deque[float] = deque(maxlen=NEAR)
        self.begin: float | None = None
        self.before = before // FRAME

    def sent(self, circuit: int, datagram: Datagram) -> None:
        its = self.circuits[circuit]
        stamp = int.from_bytes(datagram.body[4:8], 'big') - its.timestamp - self.before
        stamp = (stamp + PACKET & 0xFFFF_FFFF) - PACKET
        self.near.append(datagram.time - (stamp + 8 * its.ptime) * FRAME / OCTETS_A_SECOND)
        if len(self.near) % 10 == 1 or self.begin is None:
            self.begin = median(self.near)

    def place(self, time: float) -> int:
        return round((time - (self.begin or 0.0)) * OCTETS_A_SECOND)


class Ways:
    """Notes the addresses of datagrams in both directions."""

    def __init__(self, facts: Facts, config: TrunkConfig) -> None:
        self.facts, self.circuits = facts, ports(config)
        self.known = set(self.circuits) | {its.peer_port for its in config.circuit}
        for circuit in self.circuits.values():
            facts.rows[circuit].wire = Wire()

    def note(self, each: Datagram, place: int) -> None:
        """A datagram of the capture, at its place on the trunk."""
        sent, came = (self.facts.rows[self.circuits[port]].wire if port in self.circuits else None
                      for port in (each.source, each.target))
        if sent and each.answer:
            sent.answers[each.answer] += 1
            sent.places += [place] * (len(sent.places) < MOST)
        elif sent:
            count(sent.went, each.target_host, each.target)
        elif came and not each.answer:
            count(came.came, each.source_host, each.source)
        elif is_rtp(each.body) and each.target not in self.known:
            count(self.facts.strays, each.source_host, each.target)


def count(seen: Counter[Address], host: bytes, port: int) -> None:
    """Counts an address."""
    address = str(ipaddress.ip_address(host)), port
    if address in seen or len(seen) < MOST_ADDRESSES:
        seen[address] += 1


def is_rtp(body: bytes) -> bool:
    """It may be RTP, and is not RTCP (RFC 5761, 4)."""
    return len(body) >= 12 and body[0] >> 6 == 2 and not 72 <= body[1] & 127 <= 76


def sent_of(path: str, circuits: Mapping[int, int]) -> Iterator[tuple[Datagram, int | None]]:
    """The datagrams of a capture, each with its circuit if the gateway has sent it as RTP."""
    with open(path, 'rb') as file:
        for each in datagrams(file):
            yield each, circuits.get(each.source) if len(each.body) >= 12 and not each.answer else None


def arrivals(path: str, clock: CaptureClock, ways: Ways) -> Iterator[tuple[int, int, bytes]]:
    """Place on the trunk, circuit and body of each datagram received in a capture."""
    for each, circuit in sent_of(path, ways.circuits):
        ways.note(each, clock.place(each.time))
        if circuit:
            clock.sent(circuit, each)
        if each.target in ways.circuits and not each.answer:
            yield clock.place(each.time), ways.circuits[each.target], each.body


def merged(octets: Iterator[bytes], path: str, config: TrunkConfig, facts: Facts,
           begin: float | None = None, before: int = 0) -> tuple[Iterator[bytes], float]:
    """A session with the datagrams of a capture, each at its place on the trunk, and the time of its first octet,
    behind this number of octets of the trunk. The addresses are noted in the facts."""
    if not (circuits := ports(config)):
        raise InputError('the configuration has no local_port, so the circuits of a capture are unknown')
    if begin is None:
        first = CaptureClock(config, before)
        for each, circuit in islice(((each, n) for each, n in sent_of(path, circuits) if n), NEAR):
            first.sent(circuit, each)
        if not first.near:
            raise InputError('the capture has no datagram that the gateway sent, so the time of the session is '
                             'unknown: say it by --begin')
        begin = median(first.near)
    clock = CaptureClock(config, before)
    clock.begin = begin
    return _merged(octets, arrivals(path, clock, Ways(facts, config))), begin


def _merged(octets: Iterator[bytes], came: Iterator[tuple[int, int, bytes]]) -> Iterator[bytes]:
    following, place = next(came, None), 0
    for record in records_of(octets):
        if record[0] != Kind.TRUNK:
            yield from [record] * (record[0] != Kind.DATAGRAM)
            continue
        body, at = record[HEAD:], 0
        while following and following[0] < place + len(body):
            cut = max(at, following[0] - place)
            if cut > at:
                yield trunk_record(body[at:cut])
            if len(following[2]) <= 65_535:
                yield datagram_record(following[1], following[2])
            at, following = cut, next(came, None)
        if at < len(body):
            yield trunk_record(body[at:])
        place += len(body)
