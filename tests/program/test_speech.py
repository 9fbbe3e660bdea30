"""Speech to datagrams and back: encode and decode."""
from __future__ import annotations

import pytest

from .case import FULL, Case, Program
from .octets import D, D_OTHER, IDLE, SHORT, begins, datagram, octets, record, streams

NUMBERS = ["--sequence", "65535", "--timestamp", "4294967200", "--ssrc", "7"]
TWO_PACKETS = (octets("44 01 00 AC 80 08 FF FF FF FF FF A0 00 00 00 07") + IDLE * 160
               + octets("44 01 00 AC 80 08 00 00 00 00 00 40 00 00 00 07") + IDLE * 160)
EVERY_OPTION = ["--codec", "g726-24", "--law", "mu", "--ptime", "30", "--ssrc", "4294967295", "--sequence", "65535",
                "--timestamp", "4294967295"]

ENCODE = [
    Case("two_packets", ["encode", *NUMBERS], IDLE * 320, TWO_PACKETS),
    Case("two_packets of 161 octets", ["encode", *NUMBERS], IDLE * 161, TWO_PACKETS),
    *(Case(f"packets of {ptime} ms", ["encode", "--ptime", ptime, "--payload", "127"], IDLE,
           record(b"D", 1, datagram(IDLE * (length - 12), kind=127)))
      for ptime, length in (("10", 92), ("20", 172), ("30", 252))),
    Case("encode with every option", ["encode", *EVERY_OPTION], b"\xFF" * 240,
         begins(octets("44 01 00 66 80 60") + b"\xFF" * 10, 106)),
    Case("encode in a codec that is named", ["encode", "--codec", "g711"], IDLE * 160, D),
    Case("encode of nothing", ["encode"]),
    Case("encode of nothing to a full device", ["encode"], to=FULL),
    *streams("encode", ["encode"], IDLE * 160),
]

DECODE = [
    Case("two_packets back", ["decode"], TWO_PACKETS, IDLE * 320),
    Case("decode of nothing", ["decode"]),
    Case("decode with every option", ["decode", *EVERY_OPTION]),
    Case("decode at 40 kbit/s", ["decode", "--codec", "g726-40"], record(b"D", 1, datagram(bytes(100), kind=96)),
         begins(b"", 160)),
    Case("passed over: all", ["decode"], D_OTHER * 115, err="passed over 115 of 115 datagrams\n"),
    Case("passed over: one of three", ["decode"], D + D_OTHER + D, IDLE * 320, "passed over 1 of 3 datagrams\n"),
    Case("passed over: no datagram of RTP", ["decode"], SHORT, err="passed over 1 of 1 datagrams\n"),
    Case("passed over: none", ["decode"], D * 3, IDLE * 480),
    Case("passed over, then a fault", ["decode"], D_OTHER + b"\x44", err="fault 4 Truncated\n", status=1),
    *streams("decode", ["decode"], D),
]

FAULTY = [
    ("1 BadKind", "54 00 00 01 D5"), ("1 BadKind", "58 00 00 00"), ("1 BadKind", "43 01 00 01 01"),
    ("1 BadKind", "4B 01 00 02 04 60"), ("1 BadKind", "52 01 00 02 43 00"), ("1 BadKind", "58 1F 00 05"),
    ("2 BadCircuit", "44 1F 00 01 00"), ("2 BadCircuit", "44 00 00 01 00"), ("2 BadCircuit", "44 FF 00 05"),
    ("4 Truncated", "44"), ("4 Truncated", "58 00 00"), ("4 Truncated", "44 01 00 05 80"),
]
FAULTS = [case for fault, given in FAULTY for case in (
    Case(f"decode of {given}", ["decode"], octets(given), err=f"fault {fault}\n", status=1),
    Case(f"decode of a datagram and {given}", ["decode"], D + octets(given), IDLE * 160, f"fault {fault}\n", 1))]


@pytest.mark.parametrize("case", [*ENCODE, *DECODE, *FAULTS])
def test_speech(case: Case, program: Program) -> None:
    assert program.ran(case) == case.wanted


@pytest.mark.parametrize("law", ["a", "mu"])
@pytest.mark.parametrize("codec", ["g726-16", "g726-24", "g726-32", "g726-40"])
def test_words_stay_in_tandem(codec: str, law: str, program: Program) -> None:
    """What is decoded has the same words, encoded again: octets that are scattered and near one another in turn."""
    speech = bytes(n * 73 % 251 if n // 200 % 2 == 0 else 80 + n % 7 for n in range(4000))
    words = program.run("encode", "--law", law, "--codec", codec, given=speech)
    speech = program.run("decode", "--law", law, "--codec", codec, given=words.out).out
    assert program.run("encode", "--law", law, "--codec", codec, given=speech) == words
    assert (len(speech), words.status) == (4000, 0)
