"""Sessions of a gateway: replay, serve, check and trunk."""
from __future__ import annotations

import os
from typing import Iterator

import pytest

from .case import CLOSED, FOLDER, FULL, GONE, Case, Program
from .octets import (D, D_OTHER, IDLE, LAW_A, SEIZE, SEIZE_REFUSED, SHORT, SHORT_REFUSED, TWO_FRAMES, TWO_FRAMES_SENT,
                     begins, datagram, gateway, lists_first, listing, octets, record, streams)
from e1gw_common.programs import TOP
from e1gw_common.session import Kind, records_in

TYPE_96, CODEC_SET = octets("4B 01 00 02 04 60"), octets("52 01 00 02 4B 00")
TYPE_8, CODEC_REFUSED = octets("4B 01 00 02 04 08"), octets("52 01 00 02 4B 1F")
TRUNK = ["trunk", "--config", "trunk.toml"]

# What ends a session: of each gateway, and of one that takes datagrams from records, or not.
FAULTY = [
    ("1 BadKind", "58 00 00 00"), ("1 BadKind", "52 01 00 02 43 00"), ("1 BadKind", "58 1F 00 05"),
    ("2 BadCircuit", "54 01 00 00"), ("2 BadCircuit", "43 00 00 01 01"), ("2 BadCircuit", "43 1F 00 02"),
    ("2 BadCircuit", "4B 1F 00 02 04 60"), ("2 BadCircuit", "4B 00 00 01"),
    ("3 BadCommand", "43 01 00 02"), ("3 BadCommand", "43 01 00 00"), ("3 BadCommand", "43 01 00 01 07"),
    ("3 BadCommand", "43 01 00 01 00"), ("3 BadCommand", "4B 01 00 01 04"), ("3 BadCommand", "4B 01 00 03"),
    ("3 BadCommand", "4B 01 00 02 06 60"), ("3 BadCommand", "4B 01 00 02 00 60"), ("3 BadCommand", "4B 01 00 02 04 80"),
    ("4 Truncated", "58"), ("4 Truncated", "54 00 00"), ("4 Truncated", "43 01 00 01"),
    ("4 Truncated", "4B 01 00 02 06"), ("4 Truncated", "54 00 00 02 D5"),
]
DATAGRAMS = [("2 BadCircuit", "44 1F 00 01 00"), ("2 BadCircuit", "44 00 00 00"), ("4 Truncated", "44 01 00 02 80")]
NO_DATAGRAMS = [("1 BadKind", "44 01 00 01 00"), ("1 BadKind", "44 1F 00 01 00")]


def sessions(subcommand: str, faulty: list[tuple[str, str]]) -> Iterator[Case]:
    """What replay and serve have alike."""
    yield gateway("empty_session", subcommand)
    yield gateway("two_frames_replayed", subcommand, TWO_FRAMES, TWO_FRAMES_SENT)
    yield gateway("a trunk record of no octet", subcommand, octets("54 00 00 00"), octets("54 00 00 00"))
    yield gateway("a command refused", subcommand, SEIZE, SEIZE_REFUSED)
    yield gateway("a codec set", subcommand, TYPE_96, CODEC_SET)
    yield gateway("codec_refused", subcommand, TYPE_8, CODEC_REFUSED)
    for fault, given in faulty:
        yield gateway(given, subcommand, octets(given), fault=fault)
        yield gateway(f"a command and {given}", subcommand, SEIZE + octets(given), SEIZE_REFUSED, fault)
    yield from streams(subcommand, [subcommand, "--config", "trunk.toml"], TWO_FRAMES, LAW_A)
    yield gateway("nothing to a full device", subcommand, to=FULL)


REPLAY = [
    gateway("a datagram of no octet", "replay", octets("44 01 00 00"), SHORT_REFUSED),
    gateway("longest_record", "replay", octets("54 00 FF FF") + IDLE * 65535, begins(octets("54 00 FF FF 9B"), 65539)),
    # G.711 has the type of its law or a dynamic one, G.726 a dynamic one
    *(gateway(f"codec {codec} with type {kind}", "replay", record(b"K", 1, bytes([codec, kind])),
              record(b"R", 1, bytes([0x4B, answer])))
      for codec, kind, answer in ((3, 8, 31), (4, 8, 31), (1, 0, 31), (5, 95, 31), (1, 8, 0), (1, 96, 0), (3, 127, 0))),
    Case("replay: no socket of --tell", ["replay", "--config", "trunk.toml", "--tell", "/nowhere/told"], b"\x58",
         err="cannot open the socket of --tell: /nowhere/told: No such file or directory (os error 2)\n", status=2,
         config=LAW_A),
]

DROPPED = " 1 outgoing fault       10 --          0          0          1 pcma      8"
INCOMING = "30 incoming fault       11 --          0          0          0 g726-16 127"
CHECK = [
    gateway("first_listing_line", "check", TWO_FRAMES, listing()),
    gateway("empty_session", "check", b"", listing()),
    Case("check: totals", ["check", "--config", "trunk.toml", "--totals"], SEIZE, listing(),
         "records 1\noctets 0\ndatagrams 0\ndropped 0\nport_faults 0\n", config=LAW_A),
    gateway("a datagram dropped", "check", SEIZE + SHORT, listing(line_1=DROPPED)),
    gateway("listing in mu-law", "check", b"", listing().replace(b"pcma      8", b"pcmu      0"),
            config=b'law = "mu"\n'),
    gateway("an incoming circuit", "check", b"", listing(line_30=INCOMING), config=LAW_A
            + b'[[circuit]]\nnumber = 30\nrole = "incoming"\ncodec = "g726-16"\npayload = 127\n'),
    Case("check: the example", ["check", "--config", os.path.join(TOP, "dist", "system", "example.toml")],
         out=listing(line_2=" 2 incoming fault       11 --          0          0          0 g726-32  96")),
    *(gateway(given, "check", SEIZE + octets(given), listing(), fault) for fault, given in [*FAULTY, *DATAGRAMS]),
    gateway("a datagram dropped, then a fault", "check", SHORT + b"\x58", listing(line_1=DROPPED), "4 Truncated"),
    gateway("from a folder", "check", FOLDER, listing(), "5 Read"),
    gateway("from closed input", "check", CLOSED, listing(), "5 Read"),
    *(gateway(f"to {to.value}", "check", b"", fault="6 Write", to=to) for to in (FULL, CLOSED, GONE)),
    *(gateway(f"a fault of the session, to {to.value}", "check", b"\x54", fault="4 Truncated", to=to)
      for to in (FULL, CLOSED, GONE)),
]

# Octets of a trunk, answered by octets: those of TWO_FRAMES, without the records around them.
TRUNKS = [
    gateway("0 octets", "trunk"),
    gateway("64 octets", "trunk", TWO_FRAMES[4:], TWO_FRAMES_SENT[4:]),
    gateway("6336 octets", "trunk", TWO_FRAMES[4:] * 99, begins(b"", 99 * 64)),
    *streams("trunk", TRUNK, TWO_FRAMES[4:], LAW_A),
    gateway("nothing to a full device", "trunk", to=FULL),
    *(Case(f"trunk: {name}", [*TRUNK, *words], err=f"{told}\n", status=1 if "--end" in words else 2, config=LAW_A)
      for name, words, told in (
          ("no folder for --control", ["--control", "/nowhere/x"],
           "cannot open the control socket: /nowhere/x: No such file or directory (os error 2)"),
          ("a file for --control", ["--control", "trunk.toml"],
           "cannot open the control socket: trunk.toml: Address already in use (os error 98)"),
          ("no descriptor of --end", ["--control", "door", "--end", "77"],
           "cannot wait for --end 77: Bad file descriptor (os error 9)"))),
    Case("trunk: no totals behind a fault", [*TRUNK, "--totals", "--crc4"], TWO_FRAMES[4:], err="fault 6 Write\n",
         status=1, config=LAW_A, to=FULL),
]


def silent(words: list[str], given: bytes, out: bytes, status: int) -> Case:
    """A session whose standard error is closed: what it writes and its status are as ever."""
    return Case(f"standard error closed: {words[0]}, status {status}", words, given, out, "", status,
                LAW_A if "--config" in words else None, silent=True)


SILENT = [
    silent(["encode", "--totals"], IDLE * 160, D, 0),
    silent(["decode"], D + D_OTHER + b"\x58", IDLE * 160, 1),
    silent(["replay", "--config", "trunk.toml"], SEIZE + b"\x58", SEIZE_REFUSED, 1),
    silent(["check", "--config", "trunk.toml"], b"\x58", listing(), 1),
    silent(["serve", "--config", "trunk.toml"], SEIZE + b"\x58", SEIZE_REFUSED, 1),
    silent(["serve", "--config", "no-such-file"], b"\x58", b"", 2),
]

# The least stack that e1gw(1) says is enough.
G726 = LAW_A + b'[[circuit]]\nnumber = 1\ncodec = "g726-32"\npayload = 96\n'
LITTLE_STACK = [
    Case("little stack: encode", ["encode", "--codec", "g726-40"], IDLE * 160, begins(b"D\1", 116), stack=256),
    Case("little stack: decode", ["decode", "--codec", "g726-40"], record(b"D", 1, datagram(bytes(100), kind=96)),
         begins(b"", 160), stack=256),
    Case("little stack: check", ["check", "--config", "trunk.toml"], TWO_FRAMES, lists_first(" 1 outgoing fault"),
         config=G726, stack=256),
    *(Case(f"little stack: {' '.join([name, *options])}", [name, "--config", "trunk.toml", *options], TWO_FRAMES,
           TWO_FRAMES_SENT, config=G726, stack=256)
      for name, *options in (("replay",), ("serve",), ("serve", "--senders", "peer"))),
    Case("little stack: trunk", TRUNK, TWO_FRAMES[4:], TWO_FRAMES_SENT[4:], config=G726, stack=384),
]


@pytest.mark.parametrize("case", [
    *sessions("replay", [*FAULTY, *DATAGRAMS]), *REPLAY, *sessions("serve", [*FAULTY, *NO_DATAGRAMS]), *CHECK, *TRUNKS,
    *SILENT, *LITTLE_STACK])
def test_session(case: Case, program: Program) -> None:
    assert program.ran(case) == case.wanted


# Each key of a circuit, with a value that is not the usual one.
VALUES = LAW_A + b'''[[circuit]]
number = 1
codec = "g726-16"
payload = 127
ptime = 30
prefill = 1600
ssrc = 4294967295
sequence = 65535
timestamp = 4294967294
'''


def first_call(length: int) -> bytes:
    """The call of circuit 1 that is seized behind octet 5168 and acknowledged from the thirteenth multiframe on."""
    def octet(place: int) -> int:
        slot, frame = place % 32, place // 32 % 16
        if slot == 0:
            return 0xDF if frame % 2 else 0x9B
        if slot == 16:
            return 0x0B if frame == 0 else 0xD9 if frame == 1 and place // 512 >= 12 else 0x99
        return 0xD4 if slot == 1 else 0xD6

    trunk = bytes(octet(place) for place in range(length))
    return record(b"T", 0, trunk[:5169]) + SEIZE + record(b"T", 0, trunk[5169:])


def test_values_of_a_circuit(program: Program) -> None:
    """The first datagram has them."""
    ran = program.run("replay", "--config", "trunk.toml", given=first_call(18466), config=VALUES)
    first = next(each.body for each in records_in(ran.out) if each.kind is Kind.DATAGRAM)
    assert (len(first), first[:12], ran.err) == (0x48, octets("80 7F FF FF 00 00 01 50 FF FF FF FF"), "")
