"""Sessions with a trouble each, for the tests of the picture and for the pictures in the documents."""
from __future__ import annotations

import bisect
import contextlib
import functools
import math
import os
import random
import re
import struct
import subprocess
import tempfile
import tomllib
from collections.abc import Callable, Iterator
from dataclasses import dataclass, field, replace

from .support import TOP, Exchange, config_text, program, run

from e1gw_tools.far_exchange import ACKNOWLEDGED, ANSWERED, IDLE
from e1gw_common.g711 import TONES, VALUES
from e1gw_common.lines import TrunkConfig
from e1gw_common.plain import typed
from e1gw_picture.facts import Facts
from e1gw_picture.reading import SessionReading, rows_of
from e1gw_picture.replay import Replay
from e1gw_common.session import (OCTETS_A_SECOND, Command, Kind, Packet, command_record, datagram_record, records_in,
                                 trunk_record)

COMMAND = os.path.join(TOP, 'bin', 'e1gw-picture')
PROGRESS = re.compile('.* of the trunk read.*; it goes on\n')    # (on a slow machine)
SECOND = OCTETS_A_SECOND
TONE = TONES['A']
PACKET = 160
Event = tuple[float, str, int, int]
Change = Callable[[float, bytearray], object]         # of a multiframe, at a time


def rtp(sequence: int, stamp: int, ssrc: int, kind: int = 8, payload: bytes = TONE * 20) -> bytes:
    """A datagram (RFC 3550, 5.1)."""
    return Packet(kind, sequence & 0xFFFF, stamp & 0xFFFFFFFF, ssrc, payload).encode()


@contextlib.contextmanager
def configured(config: str) -> Iterator[str]:
    """The path of a file with this configuration."""
    with tempfile.NamedTemporaryFile('w', encoding='utf-8') as file:
        file.write(config)
        file.flush()
        yield file.name


def page_of(*words: str, status: int = 0, given: bytes = b'') -> tuple[str, str]:
    """The page that the command draws, and what it says."""
    done = subprocess.run([COMMAND, '--program', program(), *words], input=given, stdout=subprocess.PIPE,
                          stderr=subprocess.PIPE, check=False)
    assert done.returncode == status, done.stderr.decode()
    return done.stdout.decode(), PROGRESS.sub('', done.stderr.decode())


def read_session(config: str, given: bytes, last: int | None = None) -> Facts:
    """The facts of a session with this configuration."""
    with configured(config) as path:
        replay = Replay(program(), path)
    facts = Facts(rows_of(typed(TrunkConfig, tomllib.loads(config))), last)
    SessionReading(facts, replay, program()).read([given])
    if word := replay.end():
        raise AssertionError(word)
    return facts


# ---- what sounds like speech ----

@functools.cache
def voice(seconds: float) -> list[float]:
    """Harmonics of a pitch that glides, under two formants that move, louder and softer: between -1 and 1."""
    out, turns = [], 0.0
    for n in range(int(seconds * 8000)):
        at = n / 8000
        pitch = 130 + 30 * math.sin(4.4 * at) + 10 * math.sin(19.5 * at)
        first, second = 500 + 250 * math.sin(8.2 * at), 1500 + 600 * math.sin(5.7 * at + 1)
        turns += pitch / 8000
        parts = (math.sin(2 * math.pi * k * turns + k * k) * (
            math.exp(-((k * pitch - first) / 180) ** 2) + 0.4 * math.exp(-((k * pitch - second) / 220) ** 2) + 0.02)
            for k in range(1, int(3400 / pitch)))
        out.append(sum(parts) * max(0.0, math.sin(10.7 * at) + 0.4) / 5)
    return out


@functools.cache
def coded(law: str, seconds: float = 3.0, loud: float = 0.5) -> bytes:
    """The same in octets of G.711: of each sample the octet with the nearest value."""
    values = sorted((value, octet) for octet, value in enumerate(VALUES[law]))
    edges = [(a[0] + b[0]) / 2 for a, b in zip(values, values[1:])]
    return bytes(values[bisect.bisect(edges, x * loud * values[-1][0])][1] for x in voice(seconds))


def packets(octets: bytes) -> list[bytes]:
    return [octets[at:at + PACKET] for at in range(0, len(octets), PACKET)]


def g726(codec: str, octets: bytes) -> list[bytes]:
    """The payloads that the program makes of octets of A-law."""
    return [record.body[12:] for record in records_in(run('encode', '--codec', codec, given=octets))]


def of_aal2(payload: bytes, bits: int) -> bytes:
    """Words in the order of RFC 3551, put into that of AAL2: of eight words the first one highest."""
    out = bytearray()
    for at in range(0, len(payload), bits):
        eight = int.from_bytes(payload[at:at + bits], 'little')
        words = [eight >> bits * n & (1 << bits) - 1 for n in range(8)]
        out += int(''.join(f'{word:0{bits}b}' for word in words), 2).to_bytes(bits, 'big')
    return bytes(out)


# ---- sessions ----

@dataclass
class PictureSender:
    """A peer that sends a datagram each 20 ms, from a time on up to another."""
    circuit: int
    begin: float
    end: float
    ssrc: int = 0x1234
    kind: int = 8
    ppm: float = 0.0                    # by how much its clock is faster
    jitter: float = 0.0                 # seconds
    lost: float = 0.0                   # the part that is lost
    payload: bytes = TONE * 20
    payloads: list[bytes] | None = None         # one behind the other, and again from the first
    jump: tuple[float, int] | None = None       # when timestamps jump, by how many samples
    burst: float = 0.0                  # seconds of speech that are sent at once
    each: float = 0.02                  # seconds between two
    datagram: bytes = b''               # in place of RTP

    def arrivals(self, rng: random.Random) -> Iterator[tuple[float, int, bytes]]:
        at, n = self.begin, 0
        while at < self.end:
            stamp = round(self.each * 8000) * n + (self.jump[1] if self.jump and at >= self.jump[0] else 0)
            when = at + rng.random() * self.jitter
            if self.burst:
                when = self.begin + -(-(at - self.begin) // self.burst) * self.burst
            if rng.random() >= self.lost:
                payload = self.payloads[n % len(self.payloads)] if self.payloads else self.payload
                yield when, self.circuit, self.datagram or rtp(n, stamp, self.ssrc, self.kind, payload)
            n += 1
            at = self.begin + n * self.each / (1 + self.ppm / 1e6)


@dataclass
class MadeSession:
    """A trunk with calls. Circuits are outgoing where `tables` does not say otherwise."""
    seconds: float
    tables: dict[int, dict[str, object]] = field(default_factory=dict)
    events: list[Event] = field(default_factory=list)
    senders: list[PictureSender] = field(default_factory=list)
    change: Change | None = None
    silent: bool = False
    speech: bytes = TONE * 2            # in each time slot, again and again
    law: str = 'A'                      # of the exchange

    def call(self, circuit: int, begin: float, end: float, answered: float = 0.5, acknowledged: bool = True) -> None:
        """The operator seizes, the exchange acknowledges and answers, the operator clears."""
        self.events += [(begin, 'command', circuit, Command.SEIZE), (end, 'command', circuit, Command.CLEAR),
                        (end + 0.03, 'pair', circuit, IDLE)]
        if acknowledged:
            self.events += [(begin + 0.03, 'pair', circuit, ACKNOWLEDGED),
                            (begin + 0.03 + answered, 'pair', circuit, ANSWERED)]

    def plus(self, *senders: PictureSender) -> MadeSession:
        """The same with more senders."""
        self.senders += senders
        return self

    def config(self) -> str:
        """The configuration, as text."""
        return config_text(self.tables)

    def given(self) -> Iterator[bytes]:
        """The records that the gateway is given, 2 ms at a time."""
        exchange, rng = Exchange(self.law), random.Random(1)
        speech = self.speech + self.speech[:16]
        events = sorted(self.events)
        arrivals = sorted((each for sender in self.senders for each in sender.arrivals(rng)), key=lambda each: each[0])
        for step in range(round(self.seconds * 500)):
            now = step / 500
            while events and events[0][0] <= now:
                _, what, n, value = events.pop(0)
                if what == 'pair':
                    exchange.pairs[n] = value
                else:
                    yield command_record(n, Command(value))
            while arrivals and arrivals[0][0] <= now:
                _, n, datagram = arrivals.pop(0)
                yield datagram_record(n, datagram)
            octets = bytearray(exchange.multiframe())
            if not self.silent:
                for slot in [*range(1, 16), *range(17, 32)]:
                    at = 16 * step % len(self.speech)
                    octets[slot::32] = speech[at:at + 16]
            if self.change:
                self.change(now, octets)
            if octets:
                yield trunk_record(bytes(octets))


# ---- a session for each trouble ----

OUT: dict[str, object] = {'prefill': 320, 'local_port': 24006, 'peer_port': 24106}
STUN = bytes.fromhex('000100002112a442') + bytes(range(12))         # RFC 5389


def one_call(seconds: float = 6, table: dict[str, object] | None = None, **sender: object) -> MadeSession:
    """A call on circuit 3, and what its peer sends."""
    made = MadeSession(seconds, {3: {**OUT, **(table or {})}})
    made.call(3, 0.1, seconds - 0.3)
    return made.plus(PictureSender(3, 0.25, seconds - 0.3, **sender))       # type: ignore[arg-type]


def not_open() -> MadeSession:
    """The peer speaks two seconds before the call, and one second behind its end."""
    made = MadeSession(6, {3: dict(OUT)})
    made.call(3, 2.3, 4.7)
    return made.plus(PictureSender(3, 0.25, 5.7))


def of_codec(codec: str, bits: int, aal2: bool) -> MadeSession:
    """A call in G.726, whose peer has this order of words."""
    payloads = g726(codec, coded('A'))
    made = one_call(6, {'codec': codec, 'payload': 96}, kind=96,
                    payloads=[of_aal2(each, bits) for each in payloads] if aal2 else payloads)
    return replace(made, speech=coded('A'))


def hold() -> MadeSession:
    """The peer puts the call on hold for a second: another source speaks, then the first one again."""
    made = one_call()
    made.senders[0].end = 2.5
    return made.plus(PictureSender(3, 2.52, 5.7, ssrc=0x9999))


def six_calls(seconds: float, end: float, change: Change) -> MadeSession:
    made = MadeSession(seconds, {n: {'prefill': 320} for n in range(1, 7)}, change=change)
    for n in range(1, 7):
        made.call(n, 0.1, end)
        made.plus(PictureSender(n, 0.25, end, ssrc=n))
    return made


def changed(when: Callable[[float], bool], does: Callable[[bytearray], object]) -> Change:
    """Changes multiframes at some times."""
    return lambda now, octets: does(octets) if when(now) else None


def ones(octets: bytearray) -> None:
    octets[:] = b'\xff' * len(octets)


def none(octets: bytearray) -> None:
    octets.clear()


def all_ones() -> MadeSession:
    """The line is cut, and a seizure falls into that."""
    made = replace(one_call(), change=changed(lambda now: 3.0 <= now < 4.5, ones))
    made.call(5, 3.2, 5.0)
    made.tables[5] = {}
    return made


def unacknowledged() -> MadeSession:
    made = MadeSession(6, {3: dict(OUT), 4: {'role': 'incoming'}})
    made.call(3, 1.0, 3.0, acknowledged=False)
    made.events += [(4.0, 'command', 4, Command.SEIZE)]
    return made


TROUBLES: dict[str, Callable[[], MadeSession]] = {
    'no-datagrams': lambda: replace(one_call(), senders=[]),
    'other-type': lambda: one_call(kind=0),
    'other-codec': lambda: one_call(payload=bytes(range(80))),          # G.726 at 32 kbit/s under the type of PCMA
    'other-law': lambda: replace(one_call(payloads=packets(coded('mu'))), speech=coded('A')),
    'silent-peer': lambda: one_call(payload=b'\xd5' * PACKET),
    'no-rtp': lambda: one_call().plus(*(PictureSender(3, first, 5.7, each=0.5, datagram=octets)
                                        for first, octets in ((0.3, STUN), (0.4, b'\0')))),
    'repeated': lambda: replace(one_call(), senders=one_call().senders * 2),        # by the network
    'too-long': lambda: one_call(each=0.25, payload=TONE * 250),
    'not-open': not_open,
    'other-law-trunk': lambda: replace(one_call(payloads=packets(coded('A'))), speech=coded('mu'), law='mu'),
    'other-order': lambda: of_codec('g726-32', 4, True),
    'slow-clock': lambda: one_call(60, {'prefill': 160}, ppm=-500),
    'fast-clock': lambda: one_call(30, {'prefill': 1600}, ppm=8000),
    'hold': hold,
    'jump': lambda: one_call(jump=(3.0, 8000)),
    'jitter': lambda: one_call(6, {'prefill': 0}, jitter=0.02),
    'stranger': lambda: one_call().plus(PictureSender(3, 0.17, 0.22, ssrc=0xBAD)),  # before the peer
    'lost': lambda: one_call(lost=0.1),
    'burst': lambda: one_call(10, {'prefill': 160}, burst=0.256),
    # the device loses 380 ms of the trunk, or 30 ms each two seconds, or an octet each half second
    'gap': lambda: six_calls(8, 7.7, changed(lambda now: 4.0 <= now < 4.38, none)),
    'gaps': lambda: six_calls(30, 29.5, changed(lambda now: now % 2 >= 1.97, none)),
    'slips': lambda: replace(one_call(), change=changed(lambda now: round(now * 500) % 250 == 120,
                                                        lambda octets: octets.pop(300))),
    'double-rate': lambda: one_call(6, {'prefill': 160}, ppm=-500_000),     # of the trunk
    'all-ones': all_ones,
    'silent-slot': lambda: replace(one_call(), silent=True),
    'unacknowledged': unacknowledged,
    'sound': one_call}                      # nothing is wrong


@functools.cache
def recorded(name: str) -> tuple[str, bytes]:
    """The configuration and the records of a session with a trouble."""
    made = TROUBLES[name]()
    return made.config(), b''.join(made.given())


@functools.cache
def made_of(name: str) -> Facts:
    """What is gathered of it."""
    return read_session(*recorded(name))


# ---- captures with a session ----

BEGIN = 1_700_000_000           # 2023-11-14 22:13:20 UTC
GATEWAY, PEER, ELSEWHERE = bytes([192, 0, 2, 1]), bytes([192, 0, 2, 2]), bytes([192, 0, 2, 9])
Packets = list[tuple[float, bytes]]


def udp(source: int, target: int, body: bytes, hosts: tuple[bytes, bytes] = (GATEWAY, PEER)) -> bytes:
    """A UDP packet over IPv4 (RFC 768, RFC 791)."""
    return (struct.pack('>BBHHHBBH4s4s', 0x45, 0, 28 + len(body), 0, 0, 64, 17, 0, *hosts)
            + struct.pack('>HHHH', source, target, 8 + len(body), 0) + body)


def icmp(about: bytes, kind: int = 3, code: int = 3) -> bytes:
    """The peer's answer that a packet was not delivered (RFC 792): by default that nobody listens at the port."""
    quoted = about[:28]
    return (struct.pack('>BBHHHBBH4s4s', 0x45, 0, 28 + len(quoted), 0, 0, 64, 1, 0, PEER, GATEWAY)
            + struct.pack('>BBHI', kind, code, 0, 0) + quoted)


def pcap(packets: Packets, link: int = 101, front: bytes = b'') -> bytes:
    """A capture with times in microseconds."""
    out = [struct.pack('<IHHiIII', 0xA1B2C3D4, 2, 4, 0, 0, 65535, link)]
    for time, octets in packets:
        whole = front + octets
        out.append(struct.pack('<IIII', int(time), round(time % 1 * 1e6) % 1_000_000, len(whole), len(whole)) + whole)
    return b''.join(out)


def of_peer(body: bytes, host: bytes = PEER, port: int = 24006) -> bytes:
    """A datagram that the peer sends."""
    return udp(24106, port, body, (host, GATEWAY))


def both_ways(config: str, given: bytes) -> tuple[bytes, Packets, Packets]:
    """The octets and commands of a session, and as packets what came and what the program sends."""
    bare, came, sent, place = [], [], [], 0
    for record in records_in(given):
        if record.kind is Kind.DATAGRAM:
            came.append((BEGIN + place / SECOND, of_peer(record.body)))
        else:
            bare.append(record.encode())
            place += len(record.body) * (record.kind is Kind.TRUNK)
    with configured(config) as path:
        answers = run('replay', '--config', path, given=given)
    for record in records_in(answers):
        if record.kind is Kind.DATAGRAM:
            # Its last word was heard in the frame of its timestamp and 160 more.
            frame = struct.unpack_from('>I', record.body, 4)[0] + 160
            sent.append((BEGIN + frame / 8000, udp(24006, 24106, record.body)))
    return b''.join(bare), came, sent


def apart(config: str, given: bytes) -> tuple[bytes, bytes]:
    """A session without its datagrams, and a capture of them."""
    bare, came, sent = both_ways(config, given)
    return bare, pcap(sorted(came + sent))


def nobody_listens(came: Packets, sent: Packets) -> Packets:
    """One in ten of what is sent is answered by ICMP, as a Linux peer does, which limits its answers."""
    return came + sent + [(time + 0.001, icmp(packet)) for time, packet in sent[::10]]


def other_address(came: Packets, sent: Packets) -> Packets:
    return [(time, of_peer(packet[28:], ELSEWHERE)) for time, packet in came] + sent


def other_port(came: Packets, sent: Packets) -> Packets:
    """The peer sends to a port that no circuit has."""
    return [(time, of_peer(packet[28:], port=24008)) for time, packet in came] + sent


CAPTURED = {'nobody-listens': nobody_listens, 'other-address': other_address, 'other-port': other_port}


@functools.cache
def captured(name: str) -> tuple[str, bytes, bytes]:
    """The configuration, the octets and commands, and the capture of a session with a trouble on the network."""
    made = one_call(6, payloads=packets(coded('A')))
    made.speech = coded('A')
    made.tables[3]['peer_host'] = '192.0.2.2'
    bare, came, sent = both_ways(made.config(), b''.join(made.given()))
    return made.config(), bare, pcap(sorted(CAPTURED[name](came, sent)))
