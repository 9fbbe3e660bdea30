"""Octets of trunks and sessions, and patterns of what is written."""
from __future__ import annotations

import functools
import re
from typing import Iterator, Sequence

from .case import CLOSED, FOLDER, FULL, GONE, Case, Like, Stream
from e1gw_common.session import Packet, encode_record


def record(kind: bytes, circuit: int, body: bytes) -> bytes:
    """A record of a session."""
    return encode_record(kind[0], circuit, body)


def datagram(payload: bytes, kind: int = 8) -> bytes:
    """The first RTP datagram of a stream."""
    return Packet(kind, 0, 0, 0, payload).encode()


def octets(text: str) -> bytes:
    """The octets of a text in hexadecimal digits."""
    return bytes.fromhex(text)


IDLE = b"\xD5"
LAW_A = b'law = "A"\n'
D = record(b"D", 1, datagram(IDLE * 160))
D_OTHER = record(b"D", 1, datagram(IDLE * 160, kind=9))

TWO_FRAMES = record(b"T", 0, IDLE * 64)
TWO_FRAMES_SENT = record(b"T", 0, b"".join(
    bytes([slot]) + IDLE * 15 for slot in (0x9B, 0x0F, 0xFF, 0x99)))    # what a gateway answers

SEIZE, SEIZE_REFUSED = octets("43 01 00 01 01"), octets("52 01 00 02 43 02")
SHORT, SHORT_REFUSED = octets("44 01 00 01 00"), octets("52 01 00 02 44 14")

# What a circuit is signalled.
NOT_SEIZED, ACKNOWLEDGED, SEIZED = 0b1001, 0b1101, 0b0001


def multiframe(bits: int) -> bytes:
    """16 frames in which all circuits are signalled these bits, and circuit 1 hears D4."""
    slots = [(0xDF if frame % 2 else 0x9B, bits << 4 | bits if frame else 0x0B) for frame in range(16)]
    return b"".join(bytes([first, 0xD4]) + IDLE * 14 + bytes([other]) + IDLE * 15 for first, other in slots)


# ---- CRC-4 ----

@functools.cache
def crc4_of(block: bytes) -> int:
    """The check bits of a submultiframe, C1 the highest: the remainder of its bits times x^4 by x^4+x+1."""
    left = int.from_bytes(block, "big") << 4
    for place in range(left.bit_length() - 1, 3, -1):
        if left >> place & 1:
            left ^= 0b10011 << (place - 4)
    return left


def crc4_block(number: int, bits: int, imitated: bool = False) -> bytes:
    """A submultiframe of idle octets with these check bits; the E bits are 1 (ITU-T G.704, 2.3.3). If it is imitated,
    slot 5 has what slot 0 has, but for those bits."""
    block = b""
    for frame in range(8):
        si = bits >> (3 - frame // 2) & 1 if frame % 2 == 0 else int("00101111"[number % 2 * 4 + frame // 2])
        signal = 0x5F if frame % 2 else 0x1B
        block += bytes([signal | si << 7]) + IDLE * 4 + (bytes([signal]) if imitated else IDLE) + IDLE * 26
    return block


def crc4_trunk(blocks: int, turned: int = 0, imitated: bool = False) -> bytes:
    """So many submultiframes of a trunk, with check bits that are changed by these from the eleventh on."""
    trunk, bits = b"", 0
    for number in range(blocks):
        trunk += crc4_block(number, bits ^ (turned if number > 10 else 0), imitated)
        bits = crc4_of(crc4_block(number, 0, imitated))
    return trunk


def with_turned(trunk: bytes, *turned: tuple[int, int]) -> bytes:
    """A trunk with some bits of some octets turned."""
    changed = bytearray(trunk)
    for place, bits in turned:
        changed[place] ^= bits
    return bytes(changed)


def crc4_told(submultiframes: int = 0, errored: int = 0, far_end_errored: int = 0, found: int = 0, lost: int = 0,
              given_up: int = 0) -> str:
    """What crc4 --check tells at the end."""
    return (f"submultiframes {submultiframes}\nerrored {errored}\nfar_end_errored {far_end_errored}\n"
            f"multiframes_found {found}\nmultiframes_lost {lost}\ngiven_up {given_up}\n")


# ---- what is written ----

def begins(front: bytes, length: int) -> Like[bytes]:
    """Octets of this length with this front."""
    return Like(b"(?s)" + re.escape(front) + b".{%d}" % (length - len(front)))


def ends(back: bytes) -> Like[bytes]:
    """Octets that end so."""
    return Like(b"(?s).*" + re.escape(back))


def lists_first(front: str) -> Like[bytes]:
    """The lines of thirty circuits, of which the first begins so."""
    return Like(re.escape(front.encode()) + b".*\n(.*\n){29}")


def listing(**others: str) -> bytes:
    """The lines of thirty circuits in their first state, but for those that are given, as line_N."""
    usual = "{:2} outgoing fault       10 --          0          0          0 pcma      8"
    return "".join(others.get(f"line_{n}", usual.format(n)) + "\n" for n in range(1, 31)).encode()


# ---- cases that several subcommands have ----

def streams(name: str, words: Sequence[str], given: bytes, config: bytes | None = None) -> Iterator[Case]:
    """Standard streams that cannot be read or written."""
    for source in (FOLDER, CLOSED):
        yield Case(f"{name} from {source.value}", words, source, err="fault 5 Read\n", status=1, config=config)
    for to in (FULL, CLOSED, GONE):
        yield Case(f"{name} to {to.value}", words, given, err="fault 6 Write\n", status=1, config=config, to=to)


def gateway(name: str, subcommand: str, given: bytes | Stream = b"", out: bytes | Like[bytes] = b"",
            fault: str | None = None, config: bytes = LAW_A, to: Stream | None = None) -> Case:
    """A session of a gateway, which ends well or with a fault."""
    err, status = (f"fault {fault}\n", 1) if fault else ("", 0)
    return Case(f"{subcommand}: {name}", [subcommand, "--config", "trunk.toml"], given, out, err, status, config, to)
