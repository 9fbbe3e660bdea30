"""What the kernel tells of the UDP sockets of circuits."""
from __future__ import annotations

from contextlib import suppress
from dataclasses import dataclass
from typing import Iterable, Iterator, Mapping

from e1gw_common.lines import Line

TABLES = ('/proc/self/net/udp', '/proc/self/net/udp6')
SNMP = '/proc/self/net/snmp', '/proc/self/net/snmp6'
PIECE = 1 << 16


@dataclass(frozen=True)
class SocketStatus:
    """A socket: octets that wait in it, and datagrams for which the kernel had no room."""

    waiting: int
    dropped: int


Sockets = Mapping[int, SocketStatus]


def _rows() -> Iterator[list[str]]:
    for name in TABLES:
        try:
            with open(name, encoding='ascii') as file:
                file.readline()
                while lines := file.readlines(PIECE):
                    yield from (row.split() for row in lines)
        except OSError:
            continue


def sockets_of(lines: Iterable[Line]) -> Sockets:
    """Those of circuits with a port."""
    ports = {line.port: line.circuit for line in lines if line.port}
    found = dict[int, SocketStatus]()
    for words in _rows() if ports else ():
        circuit = ports.get(int(words[1].rpartition(':')[2], 16))
        if circuit:
            found[circuit] = SocketStatus(int(words[4].partition(':')[2], 16), int(words[-1]))
    return found


def unheard() -> int:
    """How many datagrams have come to this machine for which there was no socket (RFC 4113, udpNoPorts)."""
    found, heads = 0, list[str]()
    for name in SNMP:
        with suppress(OSError), open(name, encoding='ascii') as file:
            for words in map(str.split, file):
                if words[0] == 'Udp:' and words[1].isdecimal():
                    found += int(words[heads.index('NoPorts')])
                elif words[0] == 'Udp6NoPorts':
                    found += int(words[1])
                heads = words
    return found
