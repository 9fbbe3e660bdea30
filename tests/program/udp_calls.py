"""Calls over UDP: circuits of the program, each with its peer, and the exchange at the other end of their trunk."""
from __future__ import annotations

import contextlib
import subprocess
from socket import socket

from .case import Program
from e1gw_testing.datagrams import bind_socket
from e1gw_testing.ports import free_ports
from e1gw_tools.far_exchange import ACKNOWLEDGED, Exchange, ServeProcess

IDLE = 0xD5
CONFIG = '''law = "A"
host = "{host}"
'''
CIRCUIT = '''
[[circuit]]
number = {number}
ptime = 10
prefill = 160
ssrc = {number}
local_port = {local}
peer_host = "{peer_host}"
peer_port = {peer}
'''


class UdpCalls:
    """Circuits of one gateway in calls over UDP, each with its own peer, and the exchange of their trunk."""

    def __init__(self, program: Program, circuits: tuple[int, ...], host: str, *options: str,
                 peer_host: str | None = None, names: tuple[str, str] | None = None) -> None:
        """The hosts in the configuration are `host` and that of the peers, or as `names` has them."""
        named, peer_named = names or (host, peer_host or host)
        self.host, self.circuits = host, circuits
        self._held = contextlib.ExitStack()
        self.peers = {c: self.open_socket(peer_host or host) for c in circuits}
        self.locals = dict(zip(circuits, free_ports(len(circuits), host)))
        self.config = program.room / 'calls.toml'
        self.config.write_text(CONFIG.format(host=named) + ''.join(
            CIRCUIT.format(number=c, local=self.locals[c], peer_host=peer_named, peer=self.peers[c].getsockname()[1])
            for c in circuits), encoding='ascii')
        self.serve = ServeProcess(program.path, str(self.config), '--totals', *options, stderr=subprocess.PIPE)
        self.exchange, self.octets = Exchange(), 0

    def __enter__(self) -> UdpCalls:
        return self

    def __exit__(self, *_: object) -> None:
        self.serve.process.kill()
        self.serve.process.communicate()
        self._held.close()

    def open_socket(self, host: str, port: int = 0) -> socket:
        """A socket at this address, which is closed with the call."""
        return self._held.enter_context(bind_socket(host, port))

    def multiframes(self, count: int) -> None:
        """A number of multiframes of the trunk, each way. Each circuit hears its own octet."""
        for _ in range(count):
            for c in self.circuits:
                self.exchange.speech[c] = bytearray([spoken(c)] * 16)
            octets = self.exchange.multiframe()
            self.octets += len(octets)
            self.exchange.receive(self.serve.trunk(octets))

    def up(self) -> None:
        """Calls on all circuits, from seizure to speech."""
        self.multiframes(12)
        assert [self.serve.command(c, 'seize') for c in self.circuits] == [0] * len(self.circuits)
        self.exchange.pairs.update({c: ACKNOWLEDGED for c in self.circuits})
        self.multiframes(24)
        self.exchange.heard.clear()

    def played(self, circuit: int) -> bytes:
        """What the circuit played since the calls are up: the octets that are not idle."""
        return bytes(octet for octet in self.exchange.heard[circuit] if octet != IDLE)

    def end(self, sent: int, faults: int = 0) -> None:
        """Ends the session, with these numbers of packets sent and of failed calls of its sockets."""
        err = self.serve.process.communicate()[1]
        assert (self.serve.process.returncode, err.decode()) == (0, (
            f'records {len(self.serve.given)}\noctets {self.octets}\ndatagrams {sent}\ndropped 0\n'
            f'port_faults {faults}\n'))


def spoken(circuit: int) -> int:
    """The octet that a circuit hears."""
    return 0x20 + circuit
