"""Turns the D records of a session into a capture of UDP packets, for Wireshark and tshark, and back. Needs python3.

  e1gw-pcap [--circuit N] [--config FILE] [--begin TIME] [--in SESSION] [SESSION] > call.pcap
  e1gw-pcap --back [--circuit N] [CAPTURE] > datagrams.rec

SESSION is the gateway's output, by default standard input; its datagrams go from 192.0.2.1 to 192.0.2.2. --in adds the
datagrams of the gateway's input in the other direction: a file, or a folder of e1gw-watch --keep. Circuit N has UDP
port 5000 + 2 N at both ends. --circuit N selects this circuit only.

A packet has the time at which it came or went, by its place on the trunk, 256,000 octets a second. The first octet has
the time that a kept session tells, or --begin, in UTC; else 0. What e1gw encode writes has no octets of a trunk: the
times are those of its RTP timestamps.

Before the first packet of a circuit, and of another codec, an announcement (SAP, RFC 2974) has its SDP, by which
Wireshark knows the port and the codec of a payload type: by --config, or the configuration that a kept session names.

A packet with the same SSRC, sequence number and octets as an earlier one is a repetition, as e1gw serve --repeat sends
it. Standard error counts them.

With --back a packet's destination port gives its circuit, or --circuit names it for all packets. A packet that is not
UDP, is cut or fragmented, or belongs to no circuit is skipped and counted on standard error. CAPTURE is a pcap or
pcapng file of Ethernet, Linux cooked, loopback or plain IP packets."""

import argparse
import heapq
import os
import struct
import sys
from contextlib import suppress
from dataclasses import replace
from ipaddress import ip_address
from itertools import chain, islice
from typing import BinaryIO, Callable, Iterable, Iterator, NamedTuple

from e1gw_common.faults import Parser, checked, number, words_of_fault
from e1gw_common.lines import TrunkConfig, read_config
from e1gw_common.packets import BadCapture, packets
from e1gw_common.session import (CIRCUITS, SAMPLES_A_SECOND, BadPacket, BadSession, Kind, Record, Repetitions,
                                 datagram_record, packet_of, records)
from e1gw_common.session_clock import SessionClock, second_of
from e1gw_common.session_files import InputError, open_session

NAME = os.path.basename(sys.argv[0])    # in the package e1gw-pcap
GATEWAY, PEER = bytes([192, 0, 2, 1]), bytes([192, 0, 2, 2])  # RFC 5737, addresses for examples
PORTS = {circuit: 5000 + 2 * circuit for circuit in CIRCUITS}
NEUTRAL = tuple(ip_address(f'2001:db8::{n}').packed for n in (1, 2))     # the same of IPv6 (RFC 3849)
# Where SAP sends to (RFC 2974, 3), in IPv4 and, at the link, in IPv6.
ANNOUNCED = {4: (bytes([224, 2, 127, 254]), 9875), 16: (ip_address('ff02::2:7ffe').packed, 9875)}
MOST = 65507  # the most octets that a UDP packet over IPv4 carries
MOST_HELD = 1000  # D records between two of the trunk; if there are more, there is no trunk
PLAIN_IP = 101  # LINKTYPE_RAW
UDP = 17
LAST = 2**32 * 10**6 - 1  # the last microsecond that a capture can tell


# ---- a session to a capture ----

class PcapRepetitions:
    """The repetitions among datagrams, which are no faults."""

    def __init__(self) -> None:
        self.seen = {circuit: Repetitions() for circuit in CIRCUITS}
        self.every = self.count = 0

    def is_one(self, circuit: int, body: bytes) -> bool:
        """Whether a datagram is a repetition, which is counted."""
        self.every += 1
        is_one = self.seen[circuit].is_one(body)
        self.count += is_one
        return is_one

    def report_repetitions(self) -> None:
        if self.count:
            print(f'{NAME}: {self.count} of {self.every} packets are repetitions', file=sys.stderr)


class StampTimes:
    """The times of datagrams without a trunk, in seconds, by the RTP timestamps of each stream."""

    def __init__(self) -> None:
        self.streams: dict[tuple[int, int], tuple[int, int]] = {}
        self.last: dict[int, float] = {}

    def time_of(self, record: Record) -> float:
        """That of a datagram; one that is no RTP comes with the one before it."""
        with suppress(BadPacket):
            packet = packet_of(record.body)
            stamp, then = self.streams.get((record.circuit, packet.ssrc), (packet.timestamp, 0))
            # timestamps wrap at 2^32, and a late datagram's is below the last
            now = max(0, then + (packet.timestamp - stamp + 2**31) % 2**32 - 2**31)
            self.streams[record.circuit, packet.ssrc] = packet.timestamp, now
            self.last[record.circuit] = now / SAMPLES_A_SECOND
        return self.last.get(record.circuit, 0.0)


class PcapEnds(NamedTuple):
    """The addresses and ports of a circuit's two ends."""
    gateway: tuple[bytes, int]
    peer: tuple[bytes, int]


def example_ends(circuit: int) -> PcapEnds:
    """Ends at addresses for examples."""
    return PcapEnds((GATEWAY, PORTS[circuit]), (PEER, PORTS[circuit]))


def address_of(host: str) -> bytes:
    """The octets of an address; none of a name, and of any address."""
    with suppress(ValueError):
        return b'' if ip_address(host).is_unspecified else ip_address(host).packed
    return b''


def configured_ends(config: TrunkConfig, circuit: int) -> PcapEnds:
    """The ends that a configuration gives a circuit. For a host that is a name, or any address, there is one for
    examples, and for a circuit without ports both are."""
    its = config.circuits().get(circuit)
    if not (its and its.local_port and its.peer_port):
        return example_ends(circuit)
    here, there = address_of(config.host), address_of(its.peer_host)
    near, far = NEUTRAL if len(here or there) == 16 else (GATEWAY, PEER)
    return PcapEnds((here or near, its.local_port), (there or far, its.peer_port))


class Timed(NamedTuple):
    """A D or K record, when it was, and whether the gateway wrote it."""
    time: float
    record: Record
    went: bool


class PlacedRecords:
    """D and K records of a session, which wait for their places: those that the gateway wrote went behind the octets of
    the trunk that follow them there."""

    def __init__(self, went: bool, place: int = 0) -> None:
        self.place, self.held, self._went = place, list[Record](), went

    def take(self, record: Record) -> list[tuple[int, Record]]:
        """Takes a record. Those whose place is known with it."""
        if record.kind in (Kind.DATAGRAM, Kind.CODEC):
            self.held.append(record)
        if record.kind is not Kind.TRUNK or not record.body:
            return []
        before, self.place = self.place, self.place + len(record.body)
        placed, self.held = [(self.place if self._went else before, each) for each in self.held], []
        return placed


def timed(octets: Iterable[bytes], clock: SessionClock, went: bool) -> Iterator[Timed]:
    """The D and K records of a session with their times."""
    placed, stamps = PlacedRecords(went), StampTimes()
    for record in records(octets):
        yield from (Timed(clock.second(place), each, went) for place, each in placed.take(record))
        if not placed.place and len(placed.held) >= MOST_HELD:
            yield from (Timed(clock.second(0) + stamps.time_of(each), each, went) for each in placed.held)
            placed.held.clear()
    yield from (Timed(clock.second(placed.place) + (0.0 if placed.place else stamps.time_of(each)), each, went)
                for each in placed.held)


class Announcements:
    """Tells of each circuit's port and codec before its first packet, and again behind a change."""

    def __init__(self, law: str, codecs: dict[int, tuple[str, int]],
                 ends: Callable[[int], PcapEnds] = example_ends) -> None:
        """`codecs` has codec and payload type of each circuit, if they are known."""
        self._law, self._codecs, self.ends = law, codecs, ends
        self._told = dict[int, bytes]()
        self._unknown = set[tuple[int, int]]()

    def change(self, record: Record) -> None:
        """A circuit has the codec of a K record from now on."""
        self._codecs[record.circuit] = record.codec.word(self._law), record.payload_type

    def before(self, record: Record) -> bytes:
        """The packet that comes before a datagram; empty if nothing is to be told."""
        circuit, kind = record.circuit, record.body[1] & 127 if len(record.body) > 1 else 0
        codec, payload = self._codecs.get(circuit, ('', 0))
        if kind > 95 and kind != payload and (circuit, kind) not in self._unknown:
            self._unknown.add((circuit, kind))
            hint = '' if self._codecs else '; --config names the configuration'
            print(f'{NAME}: circuit {circuit}: the codec of payload type {kind} is unknown{hint}', file=sys.stderr)
        ends = self.ends(circuit)
        told = announcement(circuit, codec, payload, ends)
        if told == self._told.get(circuit):
            return b''
        self._told[circuit] = told
        return packet((ends.gateway[0], ANNOUNCED[4][1]), ANNOUNCED[len(ends.gateway[0])], told)


def announcement(circuit: int, codec: str, payload: int, ends: PcapEnds) -> bytes:
    """What is announced of a circuit: SDP (RFC 8866), with the names of RFC 3551, in SAP (RFC 2974), of each port to
    which packets go. The types 0 and 8 have their codecs without a word."""
    known, host = codec and payload > 95, ends.gateway[0]
    lines = ['v=0', f'o=- {circuit} 0 {sdp_address(host)}', f's=circuit {circuit}', f'c={sdp_address(host)}', 't=0 0']
    for address, port in dict.fromkeys((ends.gateway, ends.peer)) if ends.peer[1] != ends.gateway[1] else [ends[0]]:
        lines += [f'm=audio {port} RTP/AVP 0 8{f" {payload}" * bool(known)}',
                  *[f'c={sdp_address(address)}'] * (address != host),
                  *[f'a=rtpmap:{payload} {codec.upper()}/8000'] * bool(known)]
    flags = 0x20 if len(host) == 4 else 0x30        # version 1, and A for IPv6
    return struct.pack('>BBH', flags, 0, circuit) + host + b'application/sdp\0' + '\r\n'.join([*lines, '']).encode()


def sdp_address(host: bytes) -> str:
    return f'IN IP{4 if len(host) == 4 else 6} {ip_address(host)}'


def packets_of(streams: Iterable[Timed], asked: int | None, codecs: Announcements) -> Iterator[tuple[float, bytes]]:
    """The time and the octets of each packet."""
    again = {True: PcapRepetitions(), False: PcapRepetitions()}
    for time, record, went in streams:
        if asked not in (None, record.circuit):
            continue
        if record.kind is Kind.CODEC:
            codecs.change(record)
        elif len(record.body) > MOST:
            print(f'{NAME}: skipped a datagram of {len(record.body)} octets, too long for UDP', file=sys.stderr)
        else:
            if told := codecs.before(record):
                yield time, told
            again[went].is_one(record.circuit, record.body)
            here, there = codecs.ends(record.circuit)
            yield time, packet(here, there, record.body) if went else packet(there, here, record.body)
    for each in again.values():
        each.report_repetitions()


def packet(source: tuple[bytes, int], target: tuple[bytes, int], body: bytes) -> bytes:
    """A UDP packet over IPv4 (RFC 768, RFC 791), with no checksum of UDP, or over IPv6 (RFC 8200), where it needs one.
    """
    length, hosts = 8 + len(body), source[0] + target[0]
    udp = struct.pack('>HHHH', source[1], target[1], length, 0) + body
    if len(source[0]) == 16:
        total = checksum(hosts + struct.pack('>II', length, UDP) + udp) or 0xFFFF
        return struct.pack('>IHBB', 6 << 28, length, UDP, 64) + hosts + udp[:6] + struct.pack('>H', total) + body
    ip = struct.pack('>BBHHHBBH', 0x45, 0, 20 + length, 0, 0, 64, UDP, 0) + hosts
    return ip[:10] + struct.pack('>H', checksum(ip)) + ip[12:] + udp


def checksum(octets: bytes) -> int:
    """That of the Internet (RFC 1071)."""
    total: int = sum(struct.unpack(f'>{len(octets) // 2 + len(octets) % 2}H', octets + bytes(len(octets) % 2)))
    while total > 0xFFFF:
        total = (total & 0xFFFF) + (total >> 16)
    return 0xFFFF - total


def write_capture(packets: Iterable[tuple[float, bytes]], sink: BinaryIO) -> None:
    """Writes a pcap file with times in microseconds; nothing of a session that fails before its first packet."""
    packets = iter(packets)
    first = [*islice(packets, 1)]
    sink.write(struct.pack('<IHHiIII', 0xA1B2C3D4, 2, 4, 0, 0, 65535, PLAIN_IP))
    for time, octets in chain(first, packets):
        seconds, rest = divmod(min(LAST, round(time * 1e6)), 10**6)
        sink.write(struct.pack('<IIII', seconds, rest, len(octets), len(octets)) + octets)


def named(stream: Iterator[Timed], path: str) -> Iterator[Timed]:
    """The same, whose faults name the file."""
    try:
        yield from stream
    except BadSession as bad:
        raise InputError(f'{"standard input" if path == "-" else path}: {bad}') from None


def write_session(asked: argparse.Namespace, sink: BinaryIO) -> None:
    """Writes the capture of a session, and of what was given to the gateway."""
    answers, given = open_session(asked.file or '-'), open_session(asked.given) if asked.given else None
    dated = given if given and given.begin is not None else answers
    clock = dated.clock if asked.begin is None else replace(dated.clock, begin=asked.begin)
    streams = [named(timed(each.octets(), clock, each is answers), each.files[0]) for each in (answers, given) if each]
    path = asked.config or (dated.config if dated.config and os.path.exists(dated.config) else None)
    config = read_config(path) if path else TrunkConfig()
    codecs = {n: line.configured for n, line in config.lines().items()} if path else {}
    write_capture(packets_of(heapq.merge(*streams, key=lambda each: each.time), asked.circuit,
                             Announcements(config.law, codecs)), sink)


# ---- and back ----

def write_records(source: BinaryIO, asked: int | None, sink: BinaryIO) -> None:
    """Writes a D record for each datagram of a capture."""
    circuits = {port: circuit for circuit, port in PORTS.items()}
    again = PcapRepetitions()
    every = passed = 0
    for every, each in enumerate(packets(source), 1):
        circuit = asked or circuits.get(each.target) if each and not each.answer else None
        if each and each.target == ANNOUNCED[4][1]:
            continue
        if each and circuit:
            again.is_one(circuit, each.body)
            sink.write(datagram_record(circuit, each.body))
        else:
            passed += 1
    again.report_repetitions()
    if passed:
        print(f'{NAME}: skipped {passed} of {every} packets', file=sys.stderr)


def open_input(file: str | None) -> BinaryIO:
    """A file, or standard input."""
    return open(file, 'rb') if file else sys.stdin.buffer


def asked_for() -> argparse.Namespace:
    """What the command line asks for."""
    words = Parser(description=__doc__, usage=argparse.SUPPRESS,
                   formatter_class=argparse.RawDescriptionHelpFormatter)
    words.add_argument('--back', action='store_true')
    words.add_argument('--circuit', metavar='N', type=number(1, 30))
    words.add_argument('--config', metavar='FILE')
    words.add_argument('--begin', metavar='TIME', type=checked(second_of, 'a time such as 2026-11-23T07:30:00Z'))
    words.add_argument('--in', metavar='SESSION', dest='given')
    words.add_argument('file', nargs='?')
    return words.parse_args()


def work(asked: argparse.Namespace) -> None:
    """Does what was asked for."""
    sink = sys.stdout.buffer
    if asked.back:
        write_records(open_input(asked.file), asked.circuit, sink)
    else:
        write_session(asked, sink)
    sink.flush()


def main() -> None:
    asked = asked_for()
    try:
        work(asked)
    except BrokenPipeError:
        os.dup2(os.open(os.devnull, os.O_WRONLY), 1)
    except BadCapture as bad:
        sys.exit(f'{NAME}: {asked.file or "standard input"}: {bad}')
    except (InputError, OSError) as trouble:
        sys.exit(f'{NAME}: {words_of_fault(trouble)}')
