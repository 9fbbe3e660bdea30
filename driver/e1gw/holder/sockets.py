"""The sockets of the circuits. Each is bound once and given to each program, so no datagram is refused or lost while
programs follow one another, and no other process takes a port. Where one has a port before, its circuit alone has none
until it is free."""
from __future__ import annotations

import fcntl
import os
import socket
from typing import Iterable, Mapping

NAME, APART = 'rtp-', 200   # how the names of their descriptors begin; which have numbers from here on
MOST_OLD = 4096             # datagrams of one of them that are dropped at once

Address = tuple[str, int]   # of this machine, and a port


def name_of(address: Address) -> str:
    """The name of a socket at the next holder. (systemd takes none with a colon.)"""
    return f'{NAME}{address[0]}-{address[1]}'.replace(':', '_')


def address_in(name: str) -> Address:
    """The reverse."""
    host, _, port = name.removeprefix(NAME).rpartition('-')
    return host.replace('_', ':'), int(port)


def bind_socket(host: str, port: int) -> int:
    """A socket there, on which nothing waits. OSError if it cannot be had."""
    with socket.socket(socket.AF_INET6 if ':' in host else socket.AF_INET, socket.SOCK_DGRAM) as line:
        line.setblocking(False)
        line.bind((host, port))
        return fcntl.fcntl(line, fcntl.F_DUPFD_CLOEXEC, APART)


class HeldSockets:
    """Those that are held, and why circuits lack one."""

    def __init__(self, given: dict[str, int]) -> None:
        """It takes its own from those of the holder before this one, `given` by their names."""
        self._held = {address_in(name): given.pop(name) for name in [*given] if name.startswith(NAME)}
        self.lacking = dict[int, str]()

    @property
    def files(self) -> dict[str, int]:
        """Their descriptors by names."""
        return {name_of(address): file for address, file in self._held.items()}

    def bind(self, wanted: Mapping[int, Address]) -> bool:
        """Binds what is not held. Whether a circuit has one that lacked it."""
        before, self.lacking = self.lacking, {}
        for n, address in wanted.items():
            if address not in self._held:
                try:
                    self._held[address] = bind_socket(*address)
                except (OSError, ValueError) as fault:
                    self.lacking[n] = str(fault)
        return bool(before.keys() - self.lacking.keys())

    def close_others(self, addresses: Iterable[Address]) -> None:
        """Lets all others go."""
        for address in self._held.keys() - {*addresses}:
            os.close(self._held.pop(address))

    def program_descriptors(self, wanted: Mapping[int, Address]) -> list[int]:
        """The descriptors for a program."""
        return sorted(self._held[address] for address in wanted.values() if address in self._held)

    def drop_old(self) -> None:
        """Takes what waits in them, which nobody has read for long."""
        for file in self._held.values():
            for _ in range(MOST_OLD):
                try:
                    os.read(file, 1)
                except BlockingIOError:
                    break
                except OSError:             # (what the network said of a datagram that was sent)
                    pass
