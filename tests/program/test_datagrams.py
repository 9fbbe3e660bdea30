"""Datagrams over UDP: a circuit plays those of its own port, in order, after `prefill`, and its packets go to its own
peer from its own port, numbered from `sequence`, as e1gw(1) says. Circuits are in calls."""
from __future__ import annotations

import os
import socket
import subprocess
import tempfile
import time
from typing import Any, Iterator

import pytest

from .case import Program
from .octets import TWO_FRAMES
from .udp_calls import CIRCUIT, CONFIG, UdpCalls, spoken
from e1gw_common.session import Codec, Kind, Packet, codec_record, datagram_record, packet_of, records_in, trunk_record
from e1gw_testing.datagrams import PACKET, PCMA, bind_socket, packets, speech
from e1gw_testing.ports import free_ports
from e1gw_tools import far_exchange

CIRCUITS = (1, 2, 3, 17, 30)
WIDE = 30                   # the circuit that is sent a datagram of the most speech that is taken
MOST = 1600                 # octets of speech in it


def has_ipv6() -> bool:
    """Whether this machine has the address ::1."""
    try:
        bind_socket('::1').close()
    except OSError:
        return False
    return True


IPV4 = pytest.param('127.0.0.1', ['127.0.0.9'], id='IPv4')
IPV6 = pytest.param('::1', [], id='IPv6', marks=pytest.mark.skipif(not has_ipv6(), reason='no address ::1'))


def numbers(peer: socket.socket) -> list[int]:
    """The numbers of the packets that wait at a peer."""
    return [packet_of(packet).sequence for packet, _ in packets(peer)]


@pytest.mark.parametrize('host, _others', [IPV4, IPV6])
def test_five_calls(host: str, _others: list[str], program: Program) -> None:
    """Each circuit plays what came at its own port, and sends to its own peer."""
    with UdpCalls(program, CIRCUITS, host) as call:
        call.up()
        length = {c: MOST if c == WIDE else PACKET for c in CIRCUITS}
        with bind_socket(host) as sender:
            for c in CIRCUITS:
                sender.sendto(speech(0x60 + c, length[c]), (host, call.locals[c]))
        call.multiframes((160 + MOST) // 16 + 2)
        assert {c: call.played(c) for c in CIRCUITS} == {c: bytes([0x60 + c]) * length[c] for c in CIRCUITS}
        sent = 0
        for c in CIRCUITS:
            got = list(packets(call.peers[c]))
            assert len(got) >= (160 + MOST) // PACKET
            for number, (datagram, sender_of) in enumerate(got):
                packet = packet_of(datagram)
                assert (sender_of[:2], packet) == ((host, call.locals[c]), Packet(
                    PCMA, number, packet.timestamp, c, bytes([spoken(c)]) * PACKET))
            sent += len(got)
        call.end(sent)


# Of datagrams the address that each comes from, or `peer` for the peer's own port, that which it goes to, how often it
# is sent, and whether it is played.
Sends = list[tuple[str, str, int, bool]]


def check_who_is_played(program: Program, host: str, sends: Sends, *options: str, **places: Any) -> None:
    """A call to whose port datagrams are sent. None of those that are not played is counted."""
    with UdpCalls(program, (1,), host, *options, **places) as call:
        call.up()
        wanted = b''
        for turn, (origin, target, count, is_played) in enumerate(sends):
            sender = call.peers[1] if origin == 'peer' else call.open_socket(origin)
            for _ in range(count):
                sender.sendto(speech(0x61 + turn, at=turn * PACKET), (target, call.locals[1]))
            wanted += bytes([0x61 + turn]) * PACKET * is_played
        call.multiframes(40)
        assert call.played(1) == wanted
        sent = len(numbers(call.peers[1]))
        assert sent >= 640 // PACKET
        call.end(sent)


@pytest.mark.parametrize('host, others', [IPV4, IPV6])
@pytest.mark.parametrize('senders, let_in', [(None, 3), ('any', 3), ('host', 2), ('peer', 1)])
def test_senders(senders: str | None, let_in: int, host: str, others: list[str], program: Program) -> None:
    """The peer, its address at another port, another address."""
    check_who_is_played(program, host, [(origin, host, 1, n < let_in) for n, origin in enumerate(
        ['peer', host, *others])], *(('--senders', senders) if senders else ()))


@pytest.mark.parametrize('senders', ['host', 'peer'])
def test_strangers_before_the_peer(senders: str, program: Program) -> None:
    check_who_is_played(program, '127.0.0.1', [('127.0.0.9', '127.0.0.1', 40, False), ('peer', '127.0.0.1', 1, True)],
                        '--senders', senders)


def test_another_address(program: Program) -> None:
    check_who_is_played(program, '127.0.0.2', [('127.0.0.1', '127.0.0.1', 1, False),
                                               ('127.0.0.1', '127.0.0.2', 1, True)], peer_host='127.0.0.1')


def test_another_address_than_that_of_the_name(program: Program) -> None:
    """It is not the first one of the name, but one at which an open interface would receive."""
    host = str(socket.getaddrinfo('localhost', None, type=socket.SOCK_DGRAM)[0][4][0])
    other = {'127.0.0.1': '127.0.0.2', '::1': '127.0.0.1'}[host]
    check_who_is_played(program, host, [(other, other, 1, False), (host, host, 1, True)],
                        names=('localhost', 'localhost'))


def test_sends_that_the_system_refuses(program: Program) -> None:
    """A datagram to all hosts (ip(7), EACCES): a fault for each packet that the same call sends to a peer, and none is
    sent."""
    with UdpCalls(program, (1,), '127.0.0.1') as call:
        call.up()
        call.multiframes(30)
        sent = len(numbers(call.peers[1]))
        assert sent >= 480 // PACKET
        call.end(sent)
    with UdpCalls(program, (1,), '127.0.0.1', names=('127.0.0.1', '255.255.255.255')) as call:
        call.up()
        call.multiframes(30)
        call.end(0, faults=sent)


def test_datagrams_sent_again(program: Program) -> None:
    """With --repeat 2 each datagram goes out again behind the second one after it (e1gw(1))."""
    with UdpCalls(program, (1,), '127.0.0.1', '--repeat', '2') as call:
        call.up()
        call.multiframes(30)
        got = numbers(call.peers[1])
    wanted = [0, 1, *(each for last in range(2, len(got)) for each in (last, last - 2))]
    assert len(got) >= 10 and got == wanted[:len(got)]


@pytest.mark.parametrize('senders', ['any', 'peer'])
def test_peer_that_is_not_there(senders: str, program: Program) -> None:
    """It is no fault of a socket; once it is there, its datagrams are played."""
    with UdpCalls(program, (1,), '127.0.0.1', '--senders', senders) as call:
        port = call.peers[1].getsockname()[1]
        call.peers[1].close()
        call.up()
        call.multiframes(20)
        peer = call.open_socket('127.0.0.1', port)
        peer.sendto(speech(0x62), ('127.0.0.1', call.locals[1]))
        call.multiframes(30)
        assert call.played(1) == b'\x62' * PACKET
        got = numbers(peer)
        assert got and got == list(range(got[0], got[0] + len(got)))
        call.end(got[-1] + 1)


def one_circuit(program: Program, peer: socket.socket) -> tuple[str, int]:
    """A configuration of one circuit with a free port and this peer: its path, and the port."""
    path, [port] = program.room / 'one.toml', free_ports(1)
    path.write_text(CONFIG.format(host='127.0.0.1') + CIRCUIT.format(
        number=1, local=port, peer_host='127.0.0.1', peer=peer.getsockname()[1]), encoding='ascii')
    return str(path), port


@pytest.mark.parametrize('count, length', [(60, 1412), (200, 12)])
def test_datagrams_that_wait(count: int, length: int, program: Program) -> None:
    """So many datagrams of a stranger wait, and behind them one of the call, when a long record of the trunk comes:
    before each octet whose slot is sent four of them are received, as e1gw(1) says. Replayed as records, they give the
    same octets."""
    with UdpCalls(program, (1,), '127.0.0.1') as call:
        call.up()
        waits = [bytes([0x80, 13]) + bytes(length - 2)] * count + [speech(0x62, MOST)]
        for datagram in waits:
            call.peers[1].sendto(datagram, ('127.0.0.1', call.locals[1]))
        given, at = list(call.serve.given), call.octets
        octets = b''.join(call.exchange.multiframe() for _ in range(120))
        got = call.serve.trunk(octets)
        begun = 0
        for n in range(len(octets)):
            if (at + n) % 32 == 1 and waits:
                given += [trunk_record(octets[begun:n]), *(datagram_record(1, each) for each in waits[:4])]
                begun, waits = n, waits[4:]
        given.append(trunk_record(octets[begun:]))
        replayed = program.run('replay', '--config', str(call.config), given=b''.join(given))
    wanted = b''.join(record.body for record in records_in(replayed.out) if record.kind is Kind.TRUNK)
    assert (got, replayed.status) == (wanted[-len(got):], 0)


def test_first_sender(program: Program) -> None:
    """With --senders first a call hears who was accepted first, and nobody else, also behind a new codec; the next call
    hears another one."""
    with UdpCalls(program, (1,), '127.0.0.1', '--senders', 'first') as call:
        call.up()
        one, other = call.open_socket('127.0.0.3'), call.open_socket('127.0.0.9')

        def hears(*sends: tuple[socket.socket, int]) -> Iterator[bool]:
            """Of each sender whether all that it sends is played; else nothing is."""
            for sender, octet in sends:
                sender.sendto(speech(octet), ('127.0.0.1', call.locals[1]))
                call.multiframes(30)
                played = call.played(1)
                call.exchange.heard.clear()
                assert played in (b'', bytes([octet]) * PACKET)
                yield bool(played)
        assert [*hears((one, 0x61), (other, 0x62), (call.peers[1], 0x63))] == [True, False, False]
        call.serve.passes(codec_record(1, Codec.G711, PCMA))
        assert [*hears((other, 0x64), (one, 0x65))] == [False, True]
        call.serve.command(1, 'clear')
        call.exchange.pairs[1] = far_exchange.IDLE
        call.multiframes(24)
        call.up()
        assert [*hears((other, 0x66), (one, 0x67))] == [True, False]


def test_config_in_pieces(program: Program) -> None:
    """A configuration comes through a FIFO in two pieces: both are read."""
    os.mkfifo(path := program.room / 'pieces')
    with subprocess.Popen([program.path, 'check', '--config', str(path)], stdin=subprocess.DEVNULL,
                          stdout=subprocess.PIPE, stderr=subprocess.STDOUT) as started:
        try:
            # the first piece is read before the second one is written
            with open(path, 'wb', buffering=0) as pieces:
                pieces.write(b'law = "A"\n')
                time.sleep(0.1)
                pieces.write(b'[[circuit]]\nnumber = 30\nrole = "incoming"\n')
            lines = started.communicate()[0].splitlines()
        finally:
            started.kill()
    assert len(lines) == 30 and lines[29].startswith(b'30 incoming ')


def test_no_look_at_sockets_waits(program: Program) -> None:
    """Records that are there are answered without a wait, though the sockets are looked at before each of them: the
    process gives its processor away less often than there are records."""
    with bind_socket('127.0.0.1') as peer, tempfile.TemporaryFile() as records:
        records.write(TWO_FRAMES * 400)
        records.seek(0)
        words = [program.path, 'serve', '--config', one_circuit(program, peer)[0]]
        with subprocess.Popen(words, stdin=records, stdout=subprocess.DEVNULL) as started:
            try:
                _, started.returncode, used = os.wait4(started.pid, 0)
            finally:
                started.kill()
    assert started.returncode == 0 and used.ru_nvcsw <= 200


def test_socket_that_is_given(program: Program) -> None:
    """It is parted from its old sender (e1gw(1))."""
    with bind_socket('127.0.0.1') as peer:
        path, port = one_circuit(program, peer)
        with bind_socket('127.0.0.1', port) as given:
            given.connect(peer.getsockname())
            file = given.fileno()
            subprocess.run([program.path, 'trunk', '--config', path, '--sockets', f'{file}-{file}'], pass_fds=(file,),
                           stdin=subprocess.DEVNULL, stdout=subprocess.DEVNULL, check=False)
            with pytest.raises(OSError):
                given.getpeername()
