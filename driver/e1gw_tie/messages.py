"""The messages between the ties of two sites: lines of JSON.

Each tie begins with a `Greeting` and, once the connection is accepted, sends the state of all its circuits; then each
change, and keepalives in between. Circuits have the sender's numbers."""
from __future__ import annotations

import json
from dataclasses import asdict, dataclass
from typing import Any

from e1gw_common.lines import Role, State
from e1gw_common.session import circuit_of
from .circuit import CircuitEnd
from .pairs import Pairs

VERSION = 1
MOST = 64 << 10             # octets of a line
MOST_NAME = 100


class BadMessage(Exception):
    """An invalid message; the words say why."""


@dataclass(frozen=True)
class Greeting:
    """The sender: a name for this run of the program, and its pairs of circuits."""

    run: str
    pairs: Pairs | None


@dataclass(frozen=True)
class SiteState:
    """What has changed at a site: whether its trunk is out of service, and states of circuits. All that is known if
    `all` is set, with the codec that it can give its circuits until the answer."""

    out_of_service: bool | None
    ends: dict[int, CircuitEnd]
    until_answer: str | None = None
    all: bool = False


Message = Greeting | SiteState | None       # None: a keepalive


def encode_message(message: Message) -> bytes:
    """The line of a message. (A change of a site is that of one circuit, or of its service.)"""
    match message:
        case None:
            plain: dict[str, object] = {'alive': True}
        case Greeting(run, pairs):
            plain = {'tie': VERSION, 'run': run, 'pairs': pairs}
        case SiteState(dark, ends, codec, all=True):
            plain = {'all': {n: asdict(end) for n, end in ends.items()}, 'dark': dark, 'until_answer': codec}
        case SiteState(None, ends):
            (circuit, end), = ends.items()
            plain = {'circuit': circuit, 'end': asdict(end)}
        case SiteState(dark):
            plain = {'dark': dark}
    return json.dumps(plain).encode() + b'\n'


def message_of(line: bytes) -> Message:
    """The message of a line, or BadMessage."""
    try:
        fields = json.loads(line)
    except (ValueError, RecursionError):
        raise BadMessage('no JSON') from None
    match fields:
        case {'tie': version} if version != VERSION:
            raise BadMessage(f'another version of the tie, {str(version)[:20]}')
        case {'tie': _, 'run': str(run)}:
            return Greeting(_name(run), _pairs(fields.get('pairs')))
        case {'all': dict(ends), 'dark': bool(dark)}:
            codec = fields.get('until_answer')
            return SiteState(dark, {_circuit(n): _end(end) for n, end in ends.items()},
                             None if codec is None else _name(codec), True)
        case {'circuit': circuit, 'end': end}:
            return SiteState(None, {_circuit(circuit): _end(end)})
        case {'dark': bool(dark)} if not fields.keys() & {'tie', 'all', 'circuit'}:
            return SiteState(dark, {})
        case {'alive': _}:
            return None
    raise BadMessage('an unknown message')


def _name(value: Any) -> str:
    if not isinstance(value, str) or len(value) > MOST_NAME:
        raise BadMessage('no name, or one that is too long')
    return value


def _circuit(value: Any) -> int:
    if not (number := circuit_of(str(value))):      # (a key of an object is a text)
        raise BadMessage('no circuit')
    return number


def _pairs(value: Any) -> Pairs | None:
    if value is None:
        return None
    pairs = {_circuit(here): _circuit(there) for here, there in value.items()} if isinstance(value, dict) else None
    if pairs is None or len(set(pairs.values())) != len(value):
        raise BadMessage('invalid pairs')
    return pairs


def _end(value: Any) -> CircuitEnd:
    match value:
        case {'role': role, 'state': state, 'over': bool(over), 'passed': passed}:
            call = value.get('call')
            try:
                return CircuitEnd(Role(role), State(state), None if call is None else _name(call), over, _name(passed))
            except ValueError:
                pass
    raise BadMessage('not an end of a circuit')
