"""Octets of saved states, by e1gw-state(5) and the specs of `gw_state`, `gw_switch` and `gw_circuit`; states that are
refused; and who is told of a session."""
from __future__ import annotations

import contextlib
import hashlib
import os
import socket
import stat
import struct
import subprocess
from typing import Any, Callable

import pytest

from .case import Program, Ran
from .octets import ACKNOWLEDGED, LAW_A, NOT_SEIZED as IDLE, SEIZE, SEIZED, multiframe
from e1gw_common.session import Codec, codec_record, datagram_record, trunk_record

CONFIG = '''law = "A"
[[circuit]]
number = 1
role = "{role}"
ptime = {ptime}
ssrc = 9
'''
USUAL, INCOMING = {'role': 'outgoing', 'ptime': 20}, {'role': 'incoming', 'ptime': 10}
GATEWAY = 486               # octets of a state before those of the gateway
SUM = 32                    # .. and behind them
TRUNK = 69                  # of a trunk that has received nothing
CIRCUIT = 3230              # of a circuit of G.711 without words to be sent
LINE, CODEC = 18, 26        # where the line and the codec of a circuit begin, and their lengths
PACKET = 28                 # .. and its packet
G726_32 = codec_record(1, Codec.G726_32, 96)


def multiframes(bits: int, count: int) -> bytes:
    """A number of multiframes, each a record."""
    return trunk_record(multiframe(bits)) * count


def in_line(*heard: tuple[int, int]) -> bytes:
    """Multiframes of these bits; the first one gives no line signal."""
    return multiframes(IDLE, 1) + b''.join(multiframes(*each) for each in heard)


# Nothing, an octet that is a signal, the three frames that are aligned by, and multiframes of slot 16.
THREE_FRAMES = b'\x9B' + b'\xD5' * 31 + b'\xDF' + b'\xD5' * 31 + b'\x9B'
START = multiframe(IDLE)
LOST = START + START[:16] + b'\x0B' + START[17:] + START[:16] + b'\x99'
LINE_SEIZED = in_line((IDLE, 10)) + SEIZE
# A call on an incoming circuit, which gets a datagram and then has 37 turns.
CALL = (in_line((IDLE, 10), (SEIZED, 9)) + trunk_record(multiframe(SEIZED)[:49])
        + datagram_record(1, bytes((0x80, 8, 0, 0, 0, 0, 0, 0, 0, 0, 0, 9)) + b'\xD5' * 38 + b'\xD4')
        + trunk_record((multiframe(SEIZED) * 3)[49:38 * 32 + 2]))
# An encoder or a decoder at reset: YU and YL, eleven variables that are 0 (DMS to TD, then B1 to B6, A1 and A2), eight
# words 32, PK1 and PK2.
AT_RESET = bytes((2, 32, 0, 0, 136, *bytes(8), *bytes(16), *(0, 32) * 8, 0, 0))
FIRST, OTHERS = (struct.pack('>BBBBHIHI', 0, 0, 8, 20, 0, ssrc, 0, 0) for ssrc in (9, 2))
# The clock, its numbers, the line, the codec, the words to be sent; the stream of SSRC 9 and its words to be played.
CALLED = bytes((0, 0, 1, 0x67, *bytes(9), 1, *bytes(4), 2, 0, 0, 0, 100, 0, 10, 0, 0, 8, 37)) + b'\xD4' * 37 + bytes(
    (1, 0, 0, 0, 9, 0, 0, 0, 37, 1, 0xD5, 1, 0xD4, 0))
WAITS = ('--seizure-wait', '2000')


def replay(program: Program, given: bytes, *options: str, role: str = 'outgoing', ptime: int = 20) -> Ran:
    """What a session gives."""
    return program.run('replay', '--config', 'trunk.toml', *options, given=given,
                       config=CONFIG.format(role=role, ptime=ptime).encode())


def saved(program: Program, given: bytes, *options: str, role: str = 'outgoing', ptime: int = 20) -> bytes:
    """The state behind a session."""
    replay(program, given, '--save', 'state', *options, role=role, ptime=ptime)
    return (program.room / 'state').read_bytes()


def multiframe_and_circuit(state: bytes) -> tuple[int, int]:
    """Where the multiframe alignment of a state begins, and circuit 1."""
    at = GATEWAY + {0: 1, 1: 2, 2: 4}[state[GATEWAY]] + 2
    for _slot in range(32):
        at += 1 + state[at]
    return at, at + (3 if state[at] else 2) + 30 + 2


# What a state has: the session, the place (of the file; of its multiframe alignment; of circuit 1, as text), the
# octets, options, and the configuration of the circuit.
@pytest.mark.parametrize('given, place, octets, options, config', [pytest.param(*row, id=name) for name, *row in (
    ('no alignment', b'', GATEWAY, bytes((0, 0, 0)), (), USUAL),
    ('a signal', trunk_record(b'\x9B'), GATEWAY, bytes((1, 1, 0, 1)), (), USUAL),
    ('alignment', trunk_record(THREE_FRAMES), GATEWAY, bytes((2, 1, 0, 0, 0, 65)), (), USUAL),
    ('no multiframe', trunk_record(THREE_FRAMES), 'multiframe', bytes((0, 0)), (), USUAL),
    ('a multiframe looked for', trunk_record(START), 'multiframe', bytes((0, 1)), (), USUAL),
    ('a multiframe', trunk_record(START + START[:32]), 'multiframe', bytes((1, 1, 0)), (), USUAL),
    ('a multiframe with a wrong signal', trunk_record(LOST), 'multiframe', bytes((1, 1, 1)), (), USUAL),
    ('a line', in_line((IDLE, 9)), str(LINE), bytes((7, 0, 0, 0, 100, 2, 9, 4)), (), USUAL),
    ('an idle line', in_line((IDLE, 10)), str(LINE), bytes((0, 0, 0, 0, 100, 2, 10, 2)), (), USUAL),
    ('a seized line', LINE_SEIZED, str(LINE), bytes((1, 0, 0, 3, 232, 2, 10, 2)), WAITS, USUAL),
    ('a line that waits', LINE_SEIZED + multiframes(IDLE, 255), str(LINE), bytes((1, 0, 255, 3, 232, 2, 10, 2)), WAITS,
     USUAL),
    ('a line that hears another pair', LINE_SEIZED + multiframes(IDLE, 255) + multiframes(ACKNOWLEDGED, 3), str(LINE),
     bytes((1, 1, 2, 3, 232, 3, 3, 2)), WAITS, USUAL),
    ('an acknowledged line', LINE_SEIZED + multiframes(IDLE, 255) + multiframes(ACKNOWLEDGED, 10), str(LINE),
     bytes((2, 0, 0, 3, 232, 3, 10, 3)), WAITS, USUAL),
    ('a codec at reset', G726_32, str(CODEC), bytes((3, 96)) + AT_RESET * 2 + bytes(1), (), USUAL),
    ('its beginning', b'', 0, b'E1GS\1\0' + FIRST + OTHERS, (), USUAL),
    ('a call', CALL, '0', CALLED, (), INCOMING))])
def test_state(given: bytes, place: int | str, octets: bytes, options: tuple[str, ...], config: dict[str, Any],
               program: Program) -> None:
    state = saved(program, given, *options, **config)
    of_multiframe, of_circuit = multiframe_and_circuit(state)
    at = place if isinstance(place, int) else of_multiframe if place == 'multiframe' else of_circuit + int(place)
    assert state[at:at + len(octets)].hex(' ') == octets.hex(' ')


def test_new_gateway(program: Program) -> None:
    """Each line has a wait of 258 signals behind its state and the signals of its seizure."""
    state = saved(program, b'', '--seizure-wait', '516')
    assert len(state) == GATEWAY + TRUNK + 30 * CIRCUIT + SUM
    assert state[GATEWAY:GATEWAY + TRUNK] == bytes(37) + b'\x10' * 30 + bytes(2)
    for circuit in range(30):
        at = GATEWAY + TRUNK + circuit * CIRCUIT + LINE
        assert state[at:at + 5] == bytes((7, 0, 0, 1, 2)), f'line {circuit + 1}'


# ---- states that are refused ----

def with_sum(state: bytes) -> bytes:
    return state + hashlib.sha256(state).digest()


# Octets of a state that no gateway has: the session, its configuration, the place (as above), the octet, or None where
# the state is cut there, and whose octets are refused.
AT_CIRCUIT_1 = GATEWAY + TRUNK


@pytest.mark.parametrize('given, config, place, octet, told', [pytest.param(*row, id=name) for name, *row in (
    ('no phase of alignment', b'', USUAL, GATEWAY, 3, 0),
    ('no mark of a slot', b'', USUAL, GATEWAY + 3, 2, 0),
    ('no phase of a multiframe', b'', USUAL, GATEWAY + 35, 2, 0),
    ('the second line', b'', USUAL, AT_CIRCUIT_1 + CIRCUIT + LINE, 8, 2),
    ('its end', b'', USUAL, AT_CIRCUIT_1 + 30 * CIRCUIT - 1, None, 30),
    ('no state of a line', CALL, INCOMING, str(LINE), 8, 1),
    ('no pair', CALL, INCOMING, '23', 5, 1),
    ('no codec', CALL, INCOMING, str(CODEC), 5, 1),
    ('a type of eight bits', CALL, INCOMING, '27', 128, 1),
    ('a full packet', CALL, INCOMING, str(PACKET), 80, 1),
    ('no mark of a place', CALL, INCOMING, str(3230 + 37 + 8 + 2 - 1), 2, 1),
    ('a scale factor that is too low', G726_32, USUAL, str(PACKET + 1), 31, 1),
    ('a word of more than 11 bits', G726_32, USUAL, str(PACKET + 13 + 16), 8, 1))])
def test_changed_state(given: bytes, config: dict[str, Any], place: int | str, octet: int | None, told: int,
                       program: Program) -> None:
    state = saved(program, given, **config)[:-SUM]
    at = place if isinstance(place, int) else multiframe_and_circuit(state)[1] + int(place)
    changed = state[:at] if octet is None else state[:at] + bytes([octet]) + state[at + 1:]
    (program.room / 'changed').write_bytes(with_sum(changed))
    assert replay(program, b'', '--load', 'changed', **config) == (b'', f'state 6 Value at {told} in changed\n', 2)


def put(place: int, octet: int) -> Callable[[bytes], bytes]:
    return lambda state: state[:place] + bytes([octet]) + state[place + 1:]


# Files that are no state, made of a new gateway's: the change of all of its octets, or of those before a right sum, and
# with which words they are refused.
@pytest.mark.parametrize('change, is_summed, told', [pytest.param(*row, id=name) for name, *row in (
    ('517 octets', lambda state: state[:517], False, '1 Short at 0'),
    ('other letters', put(0, 0x58), False, '2 NoState at 0'),
    ('another version', put(4, 2), False, '3 Version at 0'),
    ('without its last octet', lambda state: state[:-1], False, '4 Sum at 0'),
    ('an octet that is another', put(600, 0x58), False, '4 Sum at 0'),
    ('another law', put(5, 1), True, '5 Config at 0'),
    *((f'octet {place} of a configuration', put(6 + 6 * 16 + place, octet), True, '5 Config at 7')
      for place, octet in enumerate((2, 5, 128, 25, 7))),
    ('the trunk missing', lambda state: state[:GATEWAY], True, '6 Value at 0'),
    ('an octet more', lambda state: state + b'\0', True, '7 Left at 0'))])
def test_no_state(change: Callable[[bytes], bytes], is_summed: bool, told: str, program: Program) -> None:
    state = saved(program, b'')
    (program.room / 'changed').write_bytes(with_sum(change(state[:-SUM])) if is_summed else change(state))
    assert replay(program, b'', '--load', 'changed') == (b'', f'state {told} in changed\n', 2)


# ---- files and sockets ----

@pytest.mark.parametrize('device, why', [('/dev/full', 'No space left on device (os error 28)'),
                                         ('/dev/null', 'Invalid argument (os error 22)')])
def test_state_that_is_not_saved(device: str, why: str, program: Program) -> None:
    """A disk does not take it (full(4)) or keep it (fsync(2), EINVAL): the one before stays, nothing beside."""
    before = saved(program, b'')
    os.symlink(device, program.room / 'state.new')
    assert replay(program, SEIZE, '--save', 'state')[1:] == (f'cannot save the state: state: {why}\n', 1)
    assert (program.room / 'state').read_bytes() == before
    assert not os.path.lexists(program.room / 'state.new')


def test_socket_of_tell(program: Program) -> None:
    """A socket at which nobody listens is replaced, by one of the mode 0660. Another one stays, also if it is full
    (connect(2), EAGAIN), and so does a link to one."""
    path = str(program.room / 'door')
    with socket.socket(socket.AF_UNIX) as full, socket.socket(socket.AF_UNIX) as client:
        full.bind(f'{path}.full')
        full.listen(0)
        client.connect(f'{path}.full')
        os.symlink(path, f'{path}.link')
        ended = [replay(program, b'', '--tell', path + end)[1:] for end in ('', '', '.full', '.link')]
    assert ended == [('', 0), ('', 0), *(
        (f'cannot open the socket of --tell: {path}{end}: Address already in use (os error 98)\n', 2)
        for end in ('.full', '.link'))]
    assert stat.S_IMODE(os.stat(path).st_mode) == 0o660


@pytest.mark.parametrize('subcommand, given', [
    pytest.param('replay', trunk_record(START), id='replay'), pytest.param('trunk', START, id='trunk')])
def test_end_is_told(subcommand: str, given: bytes, program: Program) -> None:
    """To a client of --tell, which is let in while octets are answered by as many."""
    (config := program.room / 'tell.toml').write_bytes(LAW_A)
    path = str(program.room / 'door')
    words = [program.path, subcommand, '--config', str(config), '--tell', path]
    with subprocess.Popen(words, stdin=subprocess.PIPE, stdout=subprocess.PIPE) as process, socket.socket(
            socket.AF_UNIX) as client, contextlib.ExitStack() as held:
        held.callback(process.kill)
        assert process.stdin and process.stdout
        for turn in range(10_000):
            os.write(process.stdin.fileno(), given)
            process.stdout.read(len(given))
            if turn == 0:
                client.connect(path)
            with contextlib.suppress(BlockingIOError):
                if client.recv(1, socket.MSG_PEEK | socket.MSG_DONTWAIT):
                    break
        process.stdin.close()
        with client.makefile('rb') as told:
            assert told.read().splitlines()[-1:] == [b'end']


# ---- waits ----

def test_wait_goes_on(program: Program) -> None:
    """A seizure is cut after 500 of its 1,000 signals; it is given up at the thousandth, behind octet 48."""
    saved(program, LINE_SEIZED + multiframes(IDLE, 500), *WAITS)
    answers, told, status = replay(program, multiframes(IDLE, 500), '--load', 'state')
    sent = [answers[at + 4 + 48] >> 4 for at in range(0, len(answers), 516)]
    assert (sent, told, status) == ([SEIZED] * 499 + [IDLE], '', 0)


def test_wait_is_kept(program: Program) -> None:
    """A circuit whose packet time is changed begins as new, and keeps its wait of 300 signals."""
    saved(program, LINE_SEIZED, '--seizure-wait', '600')
    assert replay(program, b'', '--load', 'state', '--save', 'state', ptime=30).err == 'circuit 1 begins as new\n'
    state = (program.room / 'state').read_bytes()
    line = multiframe_and_circuit(state)[1] + LINE
    assert state[line:line + 5] == bytes((7, 0, 0, 1, 44))
