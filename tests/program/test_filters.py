"""Filters of a trunk: align and crc4."""
from __future__ import annotations

import os
from typing import Any, Iterator

import pytest

from .case import CLOSED, Case, Like, Program
from .octets import (IDLE, LAW_A, NOT_SEIZED, TWO_FRAMES, TWO_FRAMES_SENT, crc4_told, crc4_trunk, multiframe, streams,
                     with_turned)

# The Si bits of 32 frames of idle octets (ITU-T G.704, table 5B). The check bits of the submultiframes are 0000, since
# there is none before the first, and 1011, 1010, 1011: what libosmocore's generic CRC gives for the three before.
CRC4_BITS = "0000010011011111" "1000110011011111"

# .. and those of 32 frames of other octets: 0000, and what that CRC gives for the three before: 1011, 1000, 1100.
OTHER_OCTETS = bytes(place % 251 for place in range(1024))
OTHER_BITS = "0000010011011111" "1000010011110101"

FRAMES = b"".join(bytes([128 * int(bit) + 0x55]) + IDLE * 31 for bit in CRC4_BITS)
OTHERS = b"".join(bytes([128 * int(bit) + OTHER_OCTETS[32 * frame] % 128]) + OTHER_OCTETS[32 * frame + 1:][:31]
                  for frame, bit in enumerate(OTHER_BITS))

# The totals of a filter that took forty octets.
FORTY_COUNTED = "records 0\noctets 40\ndatagrams 0\ndropped 0\nport_faults 0\n"


def late(trunk: bytes, bits: int) -> bytes:
    """The octets of a trunk whose bits come late by this number, behind ones."""
    line = int.from_bytes(b"\xFF" + trunk, "big") >> bits
    return line.to_bytes(len(trunk) + 1, "big")[1:]


# ---- align ----

def misaligned() -> Iterator[Any]:
    """A trunk whose bits come late: its own octets are returned behind octet 64, one octet late. The octets of the
    ranges may be others."""
    trunk = bytes({0: 0x9B, 32: 0xDF}.get(place % 64, place % 251 | 0x44) for place in range(1400))
    for offset in range(8):
        given = late(trunk[:600], offset)
        returned = given[:64] + trunk[63:599] if offset else given
        yield pytest.param(given, returned, [range(64, 65)], id=f"align: {offset} bits late")
    # at the old offset until the third wrong signal, and past it until the new one is found
    moved = late(trunk, 3)[:640] + late(trunk, 5)[640:]
    yield pytest.param(moved, moved[:64] + trunk[63:1399], [range(64, 65), range(640, 961)],
                       id="align: at another offset")
    # twice in a row ones for both octets that have the signal
    hurt = bytes(0xFF if place in (128, 129, 192, 193) else octet for place, octet in enumerate(late(trunk, 6)))
    yield pytest.param(hurt, hurt[:64] + trunk[63:1399], [range(64, 65), range(128, 131), range(192, 195)],
                       id="align: two wrong signals")


@pytest.mark.parametrize("given, wanted, but", misaligned())
def test_align(given: bytes, wanted: bytes, but: list[range], program: Program) -> None:
    out, *rest = program.run("align", given=given)
    others = [at for at in range(len(wanted)) if not any(at in places for places in but)]
    assert (len(out), rest) == (len(wanted), ["", 0])
    assert bytes(out[at] for at in others) == bytes(wanted[at] for at in others)


# ---- crc4 ----

TRUNK = (b"\x9B" + IDLE * 31 + b"\xDF" + IDLE * 31) * 4
LATE = late(TRUNK, 3)

FILTERS = [
    # the signal that confirms alignment ends three bits behind octet 64
    Case("align: three bits late", ["align"], LATE, LATE[:65] + TRUNK[64:-1]),
    Case("align: no frame", ["align"], IDLE * 1000, IDLE * 1000),
    Case("crc4: 32 frames of other octets", ["crc4"], OTHER_OCTETS, OTHERS),
    Case("crc4: 32 frames of idle octets", ["crc4"], IDLE * 1024, FRAMES),
    Case("crc4: two frames and an octet", ["crc4"], IDLE * 65, (b"\x55" + IDLE * 31) * 2 + b"\x55"),
    Case("crc4: reports of no error", ["crc4", "--reports", "/dev/zero"], IDLE * 1024, FRAMES),
    Case("crc4: reports, to closed", ["crc4", "--reports", "/dev/zero"], IDLE * 64, err="fault 6 Write\n", status=1,
         to=CLOSED),
    *(Case(f"crc4: reports from {path}", ["crc4", "--reports", path], IDLE * 64,
           err=f"cannot open the file of --reports: {path}: {why}\n", status=2) for path, why in (
               ("/nowhere/reports", "No such file or directory (os error 2)"),
               ("/etc/passwd", "a regular file, and not a FIFO"), ("/", "Is a directory (os error 21)"))),
    *(Case(f"{name}: of nothing", [name]) for name in ("align", "crc4")),
    *(Case(f"{name}: totals", [name, "--totals"], bytes(40), bytes(40), FORTY_COUNTED) for name in ("align", "crc4")),
    *streams("align", ["align"], IDLE * 100),
    *streams("crc4", ["crc4"], IDLE * 100),
]


def checked() -> Iterator[Case]:
    """Frame alignment is found at octet 64, CRC multiframe alignment behind 8 ms, and the first submultiframe that is
    checked begins at 2560. The check bits of the last one have not come."""
    check = ["crc4", "--check"]
    trunk = crc4_trunk(30)
    yield Case("crc4 --check: none in error", check, trunk, trunk, crc4_told(19, found=1))
    turned = trunk[:3000] + b"\xD4" + trunk[3001:]
    yield Case("crc4 --check: one bit turned", check, turned, turned, crc4_told(19, 1, found=1))
    # the first E bit of the multiframe that begins at 3072, which is itself a bit error
    turned_e = with_turned(trunk, (3488, 0x80))
    yield Case("crc4 --check: an E bit turned", check, turned_e, turned_e, crc4_told(19, 1, 1, found=1))
    # alignment is lost by the third signal; two submultiframes are whole, and of one the check bits have come
    lost = with_turned(crc4_trunk(16), (3072, 4), (3136, 4), (3200, 4))
    yield Case("crc4 --check: alignment lost", check, lost, lost, crc4_told(1, found=1, lost=1))
    # Slot 5 is found first, at octet 5. It has no multiframes, so alignment is looked for again behind octet 2117: slot
    # 0 is found at 2176, its 8 ms end before 4288, the first multiframe after that begins at 4608. Of the four
    # submultiframes up to octet 5632 three are known.
    misled = crc4_trunk(22, imitated=True)[1:]
    yield Case("crc4 --check: a false alignment", check, misled, misled, crc4_told(3, found=1))
    few = crc4_trunk(10 + 915, 1)
    yield Case("crc4 --check: 914 in error", check, few, few, crc4_told(914, 914, found=1))
    many = crc4_trunk(10 + 916, 1)
    yield Case("crc4 --check: 915 in error", check, many, many, crc4_told(915, 915, found=1, lost=1, given_up=1))
    yield Case("crc4 --check: no frame", check, IDLE * 5000, IDLE * 5000, crc4_told())
    # a second of the trunk, and then not a whole submultiframe
    second, told = crc4_trunk(1001)[:256_100], crc4_told(989, found=1)
    yield Case("crc4 --check: a second", check, second, second, told)
    yield Case("crc4 --check --live: a second", check + ["--live"], second, second,
               "live " + told.replace("\n", " ").strip() + "\n" + told)
    for path, unreported in (("/dev/null", 0), ("/dev/full", 1)):
        yield Case(f"crc4 --check: reports to {path}", check + ["--reports", path], turned, turned,
                   crc4_told(19, 1, found=1) + f"unreported {unreported}\n")
    yield Case("crc4 --check: totals", check + ["--totals"], bytes(40), bytes(40), crc4_told() + FORTY_COUNTED)
    yield from streams("crc4 --check", check, IDLE * 100)


# A trunk with CRC-4 multiframes: the first bits of two frames are 0, and an errored submultiframe of what comes is one
# of the counts, and an E bit of 0, which frames 13 and 15 send.
CRC4, TURNED, TOLD = ["trunk", "--config", "trunk.toml", "--crc4"], with_turned(crc4_trunk(30), (3000, 1)), crc4_told(
    19, 1, found=1)


@pytest.mark.parametrize("case", [*FILTERS, *checked(), Case(
    "trunk --crc4: two frames", CRC4, TWO_FRAMES[4:], with_turned(TWO_FRAMES_SENT[4:], (0, 0x80), (32, 0x80)),
    config=LAW_A)])
def test_filter(case: Case, program: Program) -> None:
    assert program.ran(case) == case.wanted


@pytest.mark.parametrize("case", [
    Case("trunk --crc4: totals", [*CRC4, "--totals"], TURNED, err=Like(
        TOLD + r"unreported 0\ndiscarded_multiframes 0\nrecords \d+\noctets 7680\n(.*\n){3}"), config=LAW_A),
    Case("trunk --crc4 --live", [*CRC4, "--live"], TURNED,
         err="live " + TOLD.replace("\n", " ").strip() + "\n", config=LAW_A)])
def test_error_is_reported(case: Case, program: Program) -> None:
    sent, *rest = program.ran(case)
    e_bits = [octet >> 7 for frame, octet in enumerate(sent[::32]) if frame % 16 in (13, 15)]
    assert (e_bits.count(0), *rest) == (1, case.err, case.status)


def test_reports_become_e_bits(program: Program) -> None:
    """Three submultiframes in error, one and two, are reported by the next three E bits, frames 13 and 15 of the first
    multiframe and 13 of the second; the fourth E bit is 1 again (ITU-T G.704, 2.3.3.4)."""
    os.mkfifo(path := program.room / "reports")
    with open(path, "r+b", buffering=0) as fifo:
        fifo.write(bytes((1, 2)))
        sent = program.run("crc4", "--reports", str(path), given=IDLE * 1024).out
    assert [sent[32 * frame] >> 7 for frame in (13, 15, 29, 31)] == [0, 0, 0, 1]


def test_trunk_crc4_keeps_its_phase(program: Program) -> None:
    """`trunk --crc4` sends what crc4 makes of what trunk sends, also from a state on, once a multiframe is whole: its
    frames 1, 3 .. 11 have the signal (ITU-T G.704, table 5B)."""
    given, cut, trunk = multiframe(NOT_SEIZED) * 4, 700, CRC4[:-1]
    whole = program.run(*CRC4, given=given, config=LAW_A).out
    assert whole == program.run("crc4", given=program.run(*trunk, given=given).out).out
    program.run(*trunk, "--save", "state", given=given[:cut])
    behind = bytes(cut) + program.run(*CRC4, "--load", "state", given=given[cut:]).out
    assert [behind[32 * frame] >> 7 for frame in range(33, 45, 2)] == [0, 0, 1, 0, 1, 1]
    assert behind[1024:] == whole[1024:]
