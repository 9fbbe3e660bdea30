"""A call of a trunk: who is heard with --senders, and what is sent again with --repeat."""
from __future__ import annotations

import socket
import subprocess
from dataclasses import dataclass
from typing import Iterator

import pytest

from .case import Program
from .udp_calls import CIRCUIT, CONFIG
from e1gw_common.session import Command, command_record, packet_of, trunk_record
from e1gw_testing.datagrams import PACKET, bind_socket, packets, speech
from e1gw_testing.ports import free_ports
from e1gw_tools.far_exchange import ACKNOWLEDGED, Exchange

HOST = "127.0.0.1"
PEER_S, STRANGER_S = 0x61, 0x62         # octets of their speech


@dataclass(frozen=True)
class TrunkCall:
    """Circuit 1 in a call, in the file `state`: its exchange, its port and its peer."""

    program: Program
    exchange: Exchange
    port: int
    peer: socket.socket

    def octets(self, multiframes: int) -> bytes:
        """What the exchange sends next."""
        return b"".join(self.exchange.multiframe() for _ in range(multiframes))

    def trunk(self, *options: str) -> subprocess.Popen[bytes]:
        """The trunk goes on with the call."""
        words = [self.program.path, "trunk", "--config", "trunk.toml", "--load", "state", *options]
        return subprocess.Popen(words, cwd=self.program.room, stdin=subprocess.PIPE, stdout=subprocess.PIPE)


@pytest.fixture
def call(program: Program) -> Iterator[TrunkCall]:
    exchange, (port,) = Exchange(), free_ports(1)
    with bind_socket(HOST) as peer:
        config = CONFIG.format(host=HOST) + CIRCUIT.format(
            number=1, local=port, peer_host=HOST, peer=peer.getsockname()[1])
        given = b"".join(trunk_record(exchange.multiframe()) for _ in range(12)) + command_record(1, Command.SEIZE)
        exchange.pairs[1] = ACKNOWLEDGED
        given += b"".join(trunk_record(exchange.multiframe()) for _ in range(24))
        ran = program.run("replay", "--config", "trunk.toml", "--save", "state", given=given, config=config.encode())
        assert (ran.err, ran.status) == ("", 0)
        yield TrunkCall(program, exchange, port, peer)


def test_what_is_sent_again(call: TrunkCall) -> None:
    """With --repeat 2 each datagram goes out again behind the second one after it (e1gw(1))."""
    with call.trunk("--repeat", "2") as trunk:
        trunk.communicate(call.octets(30))
    sent = [packet_of(packet).sequence for packet, _ in packets(call.peer)]
    again = [number for last in range(sent[0] + 2, sent[0] + 6) for number in (last, last - 2)]
    assert sent[:10] == [sent[0], sent[0] + 1, *again]


def test_who_is_heard(call: TrunkCall) -> None:
    """With --senders peer a stranger's datagrams are not played, though they come before those of the peer."""
    with call.trunk("--senders", "peer") as trunk, bind_socket(HOST) as stranger:
        assert trunk.stdin and trunk.stdout
        trunk.stdin.write(call.octets(1))
        trunk.stdin.flush()
        answer = trunk.stdout.read(512)         # (its socket is open)
        stranger.sendto(speech(STRANGER_S), (HOST, call.port))
        call.peer.sendto(speech(PEER_S, at=PACKET), (HOST, call.port))
        call.exchange.receive(answer + trunk.communicate(call.octets(40))[0])
    assert {*call.exchange.heard[1]} & {PEER_S, STRANGER_S} == {PEER_S}
