"""Ports for tests: nothing holds them, no two calls get the same one, also of tests that run at the same time, and the
kernel gives them to nobody by itself."""
from __future__ import annotations

import itertools
import os
import socket
from collections import deque

# Even ports below those that the kernel gives to sockets without one (32768-60999). Each process begins elsewhere, also
# those that were started one after another.
_EVEN = range(10_000, 32_000, 2)
_NEXT = itertools.islice(itertools.cycle(_EVEN), os.getpid() * 4099 % len(_EVEN), None)
# The last ones have names by which other processes see that they are taken.
MOST_HELD = 128
_HELD = deque[socket.socket]()


def free_ports(count: int, host: str = '127.0.0.1', kind: int = socket.SOCK_DGRAM) -> list[int]:
    """Even ports of UDP, or of TCP (`SOCK_STREAM`), that are free at this address."""
    free = (port for port in itertools.islice(_NEXT, len(_EVEN)) if _is_free(host, port, kind))
    found = list(itertools.islice(free, count))
    if len(found) < count:
        raise RuntimeError(f'{host} has no {count} free ports')
    return found


def free_port(host: str = '127.0.0.1', kind: int = socket.SOCK_STREAM) -> int:
    """One such port."""
    return free_ports(1, host, kind)[0]


def _is_free(host: str, port: int, kind: int) -> bool:
    """Whether a port is free. It is held then."""
    name = socket.socket(socket.AF_UNIX)
    with socket.socket(socket.AF_INET6 if ':' in host else socket.AF_INET, kind) as tried:
        try:
            name.bind(f'\0e1gw port {port}')
            tried.bind((host, port))
        except OSError:
            name.close()
            return False
    _HELD.append(name)
    if len(_HELD) > MOST_HELD:
        _HELD.popleft().close()
    return True
