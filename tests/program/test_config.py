"""Configurations: those that are refused, files that cannot be read or written, and sockets that cannot be opened."""
from __future__ import annotations

import socket
from dataclasses import replace
from typing import Iterator

import pytest

from .case import Case, Program
from .octets import LAW_A, SEIZE, SEIZE_REFUSED, TWO_FRAMES, TWO_FRAMES_SENT, gateway
from e1gw_testing.ports import free_ports

TABLE = 'law = "A"\n[[circuit]]\n'
ONE = TABLE + "number = 1\n"

# Configurations, and the line with which each is refused.
REFUSED: list[tuple[bytes | str, str]] = [
    ("", "3 Missing at 0"), ("x = 1", "2 UnknownKey at 0"), ("law = A", "1 Syntax at 0"),
    (b'law = "A" # \xFF', "1 Syntax at 0"), ('law = "A"\nlaw = "A"', "1 Syntax at 0"),
    ("law = 1", "4 WrongType at 0"), ('law = "a"', "5 OutOfRange at 0"), ('law = "A"\nhost = ""', "5 OutOfRange at 0"),
    ('law = "A"\ncircuit = 1', "4 WrongType at 0"), ('law = "A"\n[circuit]\nnumber = 1', "4 WrongType at 0"),
    ('law = "A"\ncircuit = [{ number = 1 }, 2]', "4 WrongType at 0"),
    (" " * 65536, "3 Missing at 0"), (" " * 65537, "8 TooLong at 0"),
    (TABLE, "3 Missing at 1"), (TABLE + "number = 31", "5 OutOfRange at 1"),
    (TABLE + "number = 0", "5 OutOfRange at 1"), (TABLE + 'number = "1"', "4 WrongType at 1"),
    (ONE + "speed = 1", "2 UnknownKey at 1"),
    (ONE + 'role = "both"', "5 OutOfRange at 1"), (ONE + 'codec = "g729"', "5 OutOfRange at 1"),
    (ONE + 'codec = "g726-32"', "3 Missing at 1"), (ONE + 'codec = "g726-32"\npayload = 8', "5 OutOfRange at 1"),
    (ONE + "payload = 0", "5 OutOfRange at 1"), (ONE + "ptime = 25", "5 OutOfRange at 1"),
    (ONE + "prefill = 1601", "5 OutOfRange at 1"), (ONE + "ssrc = 4294967296", "5 OutOfRange at 1"),
    (ONE + "sequence = 65536", "5 OutOfRange at 1"), (ONE + "timestamp = -1", "5 OutOfRange at 1"),
    (ONE + "local_port = 5004", "3 Missing at 1"), (ONE + "peer_port = 5004", "3 Missing at 1"),
    (ONE + "local_port = 0\npeer_port = 1", "5 OutOfRange at 1"), (ONE + 'peer_host = ""', "5 OutOfRange at 1"),
    (ONE + 'codec = "pcmu"', "7 LawCodec at 1"),
    ('law = "mu"\n[[circuit]]\nnumber = 1\ncodec = "pcma"', "7 LawCodec at 1"),
    (TABLE + "number = 4\n[[circuit]]\nnumber = 4", "6 Twice at 2"),
    (ONE + "local_port = 9\npeer_port = 9\n[[circuit]]\nnumber = 2\nlocal_port = 9\npeer_port = 9", "6 Twice at 2"),
    # octets that are no TOML, and values that it has and a configuration has not
    (b'law = "\xFF"', "1 Syntax at 0"), ("law = 2026-13-01", "1 Syntax at 0"), ("law = 2026-11-22", "4 WrongType at 0"),
    ('law = "A"\nhost = 1', "4 WrongType at 0"), ('law = "A"\ncircuit = {}', "4 WrongType at 0"),
    *(("law = " + "[" * depth + "]" * depth, line)
      for depth, line in ((80, "4 WrongType at 0"), (81, "1 Syntax at 0"), (30000, "1 Syntax at 0"))),
    *((f'law = "A"\ncircuit = [{tables}]', line) for tables, line in (
        ("{ ssrc = 9223372036854775808 }", "1 Syntax at 0"),
        ("{ number = 1, ssrc = 9223372036854775807 }", "5 OutOfRange at 1"),
        ("{ number = 0 }, 1", "4 WrongType at 0"), ("{ number = 1.0 }", "4 WrongType at 1"),
        ('{ number = 1 }, { number = 2, role = "both" }', "5 OutOfRange at 2"),
        ("{ number = 1, payload = 95 }", "5 OutOfRange at 1"), ("{ number = 1, ptime = 15 }", "5 OutOfRange at 1"),
        ("{ number = 1, extra = 0 }", "2 UnknownKey at 1"), ('{ number = 1, peer_port = "" }', "3 Missing at 1"),
        ('{ number = 1, local_port = "" }', "4 WrongType at 1"),
        ('{ number = 1 }, { number = 1, codec = "pcmu" }', "7 LawCodec at 2"),
        ("{ number = 1, local_port = 5, peer_port = 6 }, { number = 2, local_port = 5, peer_port = 7 }",
         "6 Twice at 2"))),
]


def refused() -> Iterator[Case]:
    """Each is refused before the session is looked at."""
    for text, line in REFUSED:
        given = text if isinstance(text, bytes) else text.encode()
        yield Case(f"configuration {line}: {given[:60]!r}", ["check", "--config", "trunk.toml"], b"\x58", b"",
                   f"config {line}\n", 2, given)


FILES = [
    *(gateway(f"configuration with {name}", "replay", SEIZE, SEIZE_REFUSED, config=text) for name, text in (
        ("a mark of the order of octets", b"\xEF\xBB\xBFlaw = \"A\""),
        ("a dynamic type", b'law = "A"\ncircuit = [{ number = 1, payload = 96 }]'),
        ("a host without ports", b'law = "A"\ncircuit = [{ number = 1, peer_host = "h" }]'))),
    *(Case(f"configuration in {name}", ["replay", "--config", path], b"\x58", b"", "cannot read the configuration\n", 2,
           LAW_A)
      for name, path in (("no file", "no-such-file"), ("a folder", "."), ("a path through a file", "trunk.toml/x"))),
    *(Case(f"{name}: no state in the configuration", [name, "--config", "trunk.toml", "--load", "trunk.toml"], b"\x58",
           b"", "state 1 Short at 0 in trunk.toml\n", 2, LAW_A) for name in ("replay", "check", "serve")),
    *(Case(f"state in {path}", ["replay", "--config", "trunk.toml", "--load", path], b"\x58", b"",
           f"cannot read the state: {path}: {why}\n", 2, LAW_A) for path, why in (
               ("no-such-file", "No such file or directory (os error 2)"), (".", "Is a directory (os error 21)"),
               ("trunk.toml/x", "Not a directory (os error 20)"), ("/dev/zero", "longer than any state"))),
    *(Case(f"state saved in {path}", ["replay", "--config", "trunk.toml", "--save", path], b"", b"",
           f"cannot save the state: {path}: {why}\n", 1, LAW_A) for path, why in (
               ("no-such-folder/x", "No such file or directory (os error 2)"), ("/dev/full", "not a regular file"),
               (".", "not a regular file"))),
    Case("configuration without end", ["replay", "--config", "/dev/zero"], b"\x58", b"", "config 8 TooLong at 0\n", 2),
]


@pytest.mark.parametrize("case", [*refused(), *FILES])
def test_config(case: Case, program: Program) -> None:
    assert program.ran(case) == case.wanted


def served(name: str, line: str, text: str, status: int = 1) -> Case:
    return Case(f"serve: {name}", ["serve", "--config", "trunk.toml"], b"\x58", b"", line, status, text.encode())


def port(number: int, local: str, peer_host: str) -> str:
    """The table of a circuit with a port: TAKEN, one that the test holds, FREE, or a number."""
    return f'[[circuit]]\nnumber = {number}\nlocal_port = {local}\npeer_port = 9\npeer_host = "{peer_host}"\n'


NOBODY, HERE = "nobody.invalid", "127.0.0.1"
SOCKETS = [
    served("a port in use", "socket 3\n", 'law = "A"\n' + port(3, "TAKEN", HERE)),
    served("a peer of no address", "socket 4\n", 'law = "A"\n' + port(4, "TAKEN", NOBODY)),
    served("a host of no address", "socket 5\n", f'law = "A"\nhost = "{NOBODY}"\n' + port(5, "TAKEN", HERE)),
    *(served(f"a host at {host} and a peer at {peer}", "socket 6\n", f'law = "A"\nhost = "{host}"\n'
             + port(6, "FREE", peer)) for host, peer in ((HERE, "::1"), ("::1", HERE))),
    served("the first of two circuits", "socket 7\n", 'law = "A"\n' + port(9, "1", NOBODY) + port(7, "TAKEN", HERE)),
    served("the configuration comes first", "config 5 OutOfRange at 1\n",
           'law = "A"\n' + port(3, "TAKEN", NOBODY) + "ptime = 25\n", 2),
    gateway("a circuit with a socket", "serve", TWO_FRAMES, TWO_FRAMES_SENT,
            config=('law = "A"\n' + port(3, "FREE", HERE)).encode()),
]


@pytest.mark.parametrize("case", SOCKETS)
def test_socket(case: Case, program: Program) -> None:
    with socket.socket(socket.AF_INET, socket.SOCK_DGRAM) as held:
        held.bind((HERE, 0))
        text = (case.config or b"").decode().replace("TAKEN", str(held.getsockname()[1]))
        free = str(free_ports(1)[0])
        assert program.ran(replace(case, config=text.replace("FREE", free).encode())) == case.wanted
