"""A circuit over SAToP whose far end is the test."""
from __future__ import annotations

import contextlib
import fcntl
import os
import signal
import socket
import struct
import subprocess
import sys
import termios
import time
from dataclasses import replace
from typing import Any, Iterator

import pytest

from .case import CLOSED, Case, Like, Program
from .octets import IDLE
from e1gw.satop import counts_of
from e1gw.udp_tables import sockets_of
from e1gw_common.lines import Line
from e1gw_testing.datagrams import bind_socket
from e1gw_testing.ports import free_ports

ENDS = ["NEAR", "FAR"]
# A circuit whose far end sends nothing: it ends with its input, and no packet is lost by it.
CASES = [
    Case("satop: no octets", ["satop", *ENDS], b"", b"", Like(r"satop received=0 sent=0 .*\n")),
    Case("satop: three packets and a half", ["satop", *ENDS, "--size", "32"], IDLE * 112, b"",
         Like(r"satop received=0 sent=3 .*\n")),
    Case("satop: no frames", ["satop", *ENDS, "--size", "33"], err="error: --size 33 is not a multiple of 32\n",
         status=2),
    *(Case(f"satop: {name}", ["satop", *words], err=f"cannot open the socket of the circuit: {why}\n", status=1)
      for name, words, why in (
          ("no port", ["1", "2"], "1 is no HOST:PORT"), ("no port of the peer", ["NEAR", "2"], "2 is no HOST:PORT"),
          ("no port of --from", [*ENDS, "--from", "127.0.0.1"], "127.0.0.1 is no HOST:PORT"),
          ("another machine's address", ["192.0.2.1:5000", "FAR"],
           "192.0.2.1:5000: Cannot assign requested address (os error 99)"),
          ("a far end at all hosts", ["NEAR", "255.255.255.255:9"],     # (ip(7), EACCES)
           "255.255.255.255:9: Permission denied (os error 13)"))),
    Case("satop from closed", ["satop", *ENDS], CLOSED, err="fault 5 Read\n", status=1),
]


@pytest.mark.parametrize("case", CASES)
def test_circuit(case: Case, program: Program) -> None:
    ends = dict(zip(ENDS, (f"127.0.0.1:{port}" for port in free_ports(2))))
    assert program.ran(replace(case, words=[ends.get(word, word) for word in case.words])) == case.wanted


def test_port_in_use(program: Program) -> None:
    with bind_socket("127.0.0.1") as held:
        near = f"127.0.0.1:{held.getsockname()[1]}"
        assert program.run("satop", near, "127.0.0.1:9") == (
            b"", f"cannot open the socket of the circuit: {near}: Address already in use (os error 98)\n", 1)


@contextlib.contextmanager
def begun(program: Program, far: socket.socket, *options: str, out: int = subprocess.PIPE) -> Iterator[Any]:
    """A circuit with this far end, stopped behind its first packet; and that packet."""
    ends = [f"127.0.0.1:{port}" for port in (*free_ports(1), far.getsockname()[1])]
    with subprocess.Popen([program.path, "satop", *ends, "--size", "32", "--jitter", "0", "--rtp", "97", *options],
                          stdin=subprocess.PIPE, stdout=out, stderr=subprocess.PIPE) as process:
        try:
            os.write(process.stdin.fileno() if process.stdin else -1, bytes(32))
            packet, near = far.recvfrom(2048)
            far.connect(near)
            process.send_signal(signal.SIGSTOP)
            os.waitid(os.P_PID, process.pid, os.WSTOPPED | os.WNOWAIT)
            yield process, packet
        finally:
            process.kill()


def test_counts(program: Program) -> None:
    """By e1gw(1) and the control word of RFC 4553, 4.3: L is bit 4 of it, R bit 5, and LEN, the number of all octets,
    the last six of the first sixteen. What follows the last packet is timed by this machine's clock."""
    rtp, rest = struct.pack(">BBHII", 0x80, 97, 0, 0, 9), bytes(34)
    malformed = {"short": rtp, "no_rtp_header": b"\x90" + rtp[1:] + b"\0\x30" + rest, "no_control_word":
                 rtp + b"\x10\x30" + rest, "other_length": rtp + b"\0\x31" + rest, "other_size": rtp + bytes(68)}
    wanted = {f"malformed_{name}": count for count, name in enumerate(malformed, 4)} | {
        "received": 9, "sent": 1, "unsent": 0, "with_l": 3, "with_r": 2}
    with bind_socket("127.0.0.1") as far, begun(program, far) as (process, _):
        for datagram in (each for count, each in enumerate(malformed.values(), 4) for _ in range(count)):
            far.send(datagram)
        for number, bits in enumerate((4, 4, 8, 8, 8, 0, 0, 0, 0)):
            far.send(rtp + struct.pack(">BBH", bits, 48, number) + bytes([number]) * 32)
        process.send_signal(signal.SIGCONT)
        played = b""
        while bytes([8]) * 32 not in played[:-64] and (more := process.stdout.read1(32)):
            played += more
        told = counts_of(process.communicate()[1].decode().splitlines()[-1]) or {}
    assert {name: told.get(name) for name in wanted} == wanted


def test_beginning(program: Program) -> None:
    """Two circuits have other timestamps and SSRCs (RFC 3550, 5.1), and more octets wait in the socket of one than in
    one that asks for no room."""
    with bind_socket("127.0.0.1") as far, bind_socket("127.0.0.1") as other, bind_socket("127.0.0.1") as usual:
        with begun(program, far) as (_, one), begun(program, other) as (_, two):
            for _ in range(1500):
                far.send(b"")
                usual.sendto(b"", usual.getsockname())
            waits = sockets_of((Line(1, port=usual.getsockname()[1]), Line(2, port=far.getpeername()[1])))
    assert one[4:8] != two[4:8] and one[8:12] != two[8:12]
    assert waits[1].waiting < waits[2].waiting


def test_first_number(program: Program) -> None:
    """It is the one that is asked for, in the header and the control word (RFC 4553, 4.3)."""
    with bind_socket("127.0.0.1") as far, begun(program, far, "--sequence", "65534") as (_, packet):
        assert (packet[2:4], packet[14:16]) == (b"\xFF\xFE", b"\xFF\xFE")


def waiting(file: int) -> int:
    """The octets that wait in a pipe to be read."""
    return int.from_bytes(fcntl.ioctl(file, termios.FIONREAD, bytes(4)), sys.byteorder)


def test_full_pipe(program: Program) -> None:
    """Octets wait while a pipe is full that takes none then, and go on once somebody reads."""
    out, into = os.pipe()
    size = fcntl.fcntl(out, fcntl.F_SETPIPE_SZ, 4096)
    os.set_blocking(into, False)
    with open(out, "rb") as pipe, bind_socket("127.0.0.1") as far, begun(program, far, out=into) as (process, _):
        os.close(into)
        process.send_signal(signal.SIGCONT)
        for _ in range(8):
            while waiting(out) < size and process.poll() is None:
                time.sleep(0.005)
            assert len(pipe.read1(size)) == size
