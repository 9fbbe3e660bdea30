"""Ports that configurations and options of a folder name, and those that somebody has bound."""
from __future__ import annotations

import errno
import os
import re
import socket
from collections.abc import Iterable
from contextlib import suppress
from dataclasses import dataclass

from e1gw_common.config_faults import ConfigFault, check, read_octets
from e1gw_common.lines import TrunkConfig

EXAMPLE = 'example'         # of the package: no unit has that name, so its ports are free
HTTP = re.compile(r'--http[ =]\S*:(\d+)')


def peer_ports(config: TrunkConfig, host: str) -> set[int]:
    """The ports of peers that are at a host."""
    return {each.peer_port for each in config.circuit if each.peer_port and each.peer_host == host}


@dataclass(frozen=True)
class NamedPorts:
    """Ports that files name: for RTP, and for pages."""

    rtp: frozenset[int] = frozenset()
    http: frozenset[int] = frozenset()

    @classmethod
    def from_files(cls, folder: str, names: Iterable[str], host: str) -> NamedPorts:
        """Those of the files of some names, as far as they can be read, with the ports of peers at a host."""
        rtp, http = set[int](), set[int]()
        for path in (os.path.join(folder, name) for name in names):
            with suppress(OSError, ConfigFault):
                config = check(read_octets(f'{path}.toml'))
                rtp |= {port for _, port in config.addresses()} | peer_ports(config, host)
            with suppress(OSError, UnicodeDecodeError), open(f'{path}.options', encoding='utf-8') as file:
                http |= {int(port) for port in HTTP.findall(file.read())}
        return cls(frozenset(rtp), frozenset(http))


def trunks_in(folder: str) -> set[str]:
    """The names of the trunks that a folder has files of."""
    with suppress(OSError):
        return {name for each in os.listdir(folder) if each.endswith(('.toml', '.options'))
                if (name := each.rpartition('.')[0]) != EXAMPLE}
    return set()


def is_bound(host: str, port: int, kind: socket.SocketKind = socket.SOCK_DGRAM) -> bool:
    """Whether somebody has bound a port here. At an address of another machine nobody here has."""
    try:
        family, _, _, _, where = socket.getaddrinfo(host, port, type=kind)[0]
        with socket.socket(family, kind) as line:
            if kind is socket.SOCK_STREAM:      # (connections that ended are no reason)
                line.setsockopt(socket.SOL_SOCKET, socket.SO_REUSEADDR, 1)
            line.bind(where)
    except (OSError, UnicodeError) as fault:
        return isinstance(fault, OSError) and fault.errno == errno.EADDRINUSE
    return False
