"""The thirty lines of a trunk, in the words of the listing, and what a configuration says of them."""
from __future__ import annotations

import ipaddress
import tomllib
from dataclasses import astuple, dataclass
from enum import StrEnum
from typing import Any, Iterable, Mapping

from .plain import typed
from .session import CIRCUITS, SAMPLES_A_SECOND, Command

SEIZURE_WAIT = 200          # milliseconds after which a seizure is released, if nothing else is asked for


class Role(StrEnum):
    OUTGOING = 'outgoing'
    INCOMING = 'incoming'


class State(StrEnum):
    """The states of a line, by the words of the listing."""

    IDLE = 'idle'
    SEIZED = 'seized'
    ACKED = 'acked'
    ANSWERED = 'answered'
    CLEAREDBACK = 'clearedback'
    RELEASING = 'releasing'
    BLOCKED = 'blocked'
    FAULT = 'fault'
    UNKNOWN = 'unknown'         # nothing was told yet


class Alignment(StrEnum):
    FRAME = 'frame'
    MULTIFRAME = 'multiframe'


# The alarms of ITU-T G.704, G.706 and G.732, by what has no alignment: at this end, and as the other one tells.
LOSSES: Mapping[str, str] = {
    Alignment.FRAME: 'loss of frame alignment (LFA)', Alignment.MULTIFRAME: 'loss of multiframe alignment'}
REMOTE: Mapping[str, str] = {
    Alignment.FRAME: 'RAI (bit A)', Alignment.MULTIFRAME: 'distant multiframe alarm (bit y)'}
OPEN = frozenset((State.ACKED, State.ANSWERED, State.CLEAREDBACK))      # speech goes through
IN_CALL = OPEN | {State.SEIZED}
LEADS = {Command.SEIZE: State.SEIZED, Command.CLEAR: State.RELEASING, Command.ANSWER: State.ANSWERED,
         Command.CLEAR_BACK: State.CLEAREDBACK, Command.BLOCK: State.BLOCKED, Command.UNBLOCK: State.IDLE}
PAIRS = {None: '--', 0: '00', 1: '01', 2: '10', 3: '11'}


@dataclass(frozen=True)
class LineCounts:
    """How often a line did what; `open_for` are seconds with the path open, before the stretch of now."""

    seizures: int = 0
    answers: int = 0
    unacknowledged: int = 0
    faults: int = 0
    open_for: float = 0.0


@dataclass(frozen=True)
class LineStatus:
    """All that is known of a line, as its circuit's row of a status has it."""

    circuit: int
    role: Role = Role.OUTGOING
    state: State = State.UNKNOWN
    sent: str = PAIRS[None]
    recognised: str = PAIRS[None]
    for_: float = 0.0           # seconds in the state
    seizures: int = 0
    answers: int = 0
    unacknowledged: int = 0
    faults: int = 0
    open: float = 0.0
    codec: str = ''
    payload: int = 0
    configured_codec: str = ''
    configured_payload: int = 0
    prefill: int = 0
    jitter_buffer_ms: float = 0.0

    def has_other_codec(self) -> bool:
        """Whether a command has given it another codec than its configuration."""
        return (self.codec, self.payload) != (self.configured_codec, self.configured_payload)


@dataclass(slots=True)
class Line:
    """One circuit's line, and how often it did what. Times are seconds of the clock that it is followed by."""

    circuit: int
    role: Role = Role.OUTGOING
    codec: str = 'pcma'
    payload: int = 8
    prefill: int = 0
    port: int | None = None
    state: State = State.FAULT
    since: float = 0                    # the time of the last change of state
    sent: int | None = None             # the pair that the gateway sends
    recognised: int | None = None
    seizures: int = 0
    answers: int = 0
    unacknowledged: int = 0
    faults: int = 0
    open_for: float = 0                 # with the path open, before this stretch
    opened: float | None = None
    configured: tuple[str, int] = ('pcma', 8)       # the codec and payload type of the configuration

    def begin(self, state: State, now: float) -> None:
        """This is its state; what was before is not known."""
        self.state, self.since, self.opened = state, now, now if state in OPEN else None

    def counts(self) -> LineCounts:
        return LineCounts(self.seizures, self.answers, self.unacknowledged, self.faults, self.open_for)

    def count_on(self, counts: LineCounts) -> None:
        """These are its counts up to now."""
        self.seizures, self.answers, self.unacknowledged, self.faults, self.open_for = astuple(counts)

    def count_command(self, command: Command) -> None:
        """Counts a command that was done."""
        self.seizures += command is Command.SEIZE
        self.answers += command is Command.ANSWER

    def count_change(self, before: State, now: float) -> None:
        """Counts a change of state."""
        state = self.state
        if state in OPEN and self.opened is None:
            self.opened = now
        elif state not in OPEN and self.opened is not None:
            self.open_for += now - self.opened
            self.opened = None
        if self.role is Role.INCOMING:
            self.seizures += before is State.IDLE and state is State.ACKED
        else:
            self.answers += before is State.ACKED and state is State.ANSWERED
        self.faults += state is State.FAULT
        self.since = now

    def ending(self) -> Command | None:
        """What ends its call, if this end can: clear at the outgoing end, clear-back at the incoming one."""
        if self.role is Role.OUTGOING:
            return Command.CLEAR if self.state in IN_CALL else None
        return Command.CLEAR_BACK if self.state is State.ANSWERED else None

    def has_other_codec(self) -> bool:
        """Whether a command has given it another codec than its configuration."""
        return (self.codec, self.payload) != self.configured

    def status(self, now: float, is_known: bool = True) -> LineStatus:
        """All that is known of it."""
        opened = 0 if self.opened is None else now - self.opened
        state = self.state if is_known else State.UNKNOWN
        return LineStatus(
            self.circuit, self.role, state, PAIRS[self.sent], PAIRS[self.recognised], round(now - self.since, 3),
            self.seizures, self.answers, self.unacknowledged, self.faults, round(self.open_for + opened, 3), self.codec,
            self.payload, *self.configured, self.prefill, self.prefill * 1000 / SAMPLES_A_SECOND)


def circuit_words(circuits: Iterable[int]) -> str:
    """Circuits in words, as 3, 10-15."""
    ranges: list[list[int]] = []
    for n in sorted(circuits):
        if ranges and ranges[-1][-1] == n - 1:
            ranges[-1][1:] = [n]
        else:
            ranges.append([n])
    return ', '.join('-'.join(map(str, each)) for each in ranges)


@dataclass(frozen=True)
class CircuitConfig:
    """A circuit of a configuration, e1gw.toml(5)."""

    number: int
    role: Role = Role.OUTGOING
    codec: str | None = None            # without one that of the law
    payload: int | None = None
    ptime: int = 20
    prefill: int = 0
    ssrc: int | None = None
    sequence: int = 0
    timestamp: int = 0
    local_port: int | None = None
    peer_port: int | None = None
    peer_host: str = '127.0.0.1'


@dataclass(frozen=True)
class TrunkConfig:
    """A configuration."""

    law: str = 'A'
    host: str = '127.0.0.1'
    circuit: tuple[CircuitConfig, ...] = ()

    def circuits(self) -> dict[int, CircuitConfig]:
        return {each.number: each for each in self.circuit}

    def addresses(self) -> dict[tuple[str, int], int]:
        """The circuit of each address and port here."""
        return {(self.host, each.local_port): each.number for each in self.circuit if each.local_port}

    def differing(self, other: TrunkConfig) -> frozenset[int]:
        """Circuits that another one configures otherwise."""
        own, its = self.circuits(), other.circuits()
        return frozenset(n for n in CIRCUITS if (self.law, own.get(n)) != (other.law, its.get(n)))

    def lines(self) -> dict[int, Line]:
        """The thirty lines, as a session begins."""
        law, found = ('pcma', 8) if self.law == 'A' else ('pcmu', 0), dict[int, Line]()
        for n in CIRCUITS:
            its = self.circuits().get(n, CircuitConfig(n))
            coding = its.codec or law[0], law[1] if its.payload is None else its.payload
            found[n] = Line(n, its.role, *coding, its.prefill, its.local_port, configured=coding)
        return found


def read_config(path: str) -> TrunkConfig:
    """That of a file. OSError or ValueError if there is none."""
    with open(path, 'rb') as file:
        return typed(TrunkConfig, tomllib.load(file))


def wait_words(wait: int) -> list[str]:
    """The option by which the program has this wait."""
    return ['--seizure-wait', str(wait)] * (wait != SEIZURE_WAIT)


def no_peer(host: str) -> str:
    """Why nobody can be at the address of a peer; nothing for others, and for a name."""
    try:
        address = ipaddress.ip_address(host)
    except ValueError:
        return ''
    if address.is_multicast:
        return 'is a multicast address'
    if address.is_unspecified or address == ipaddress.ip_address('255.255.255.255'):
        return 'is the address of no machine'
    return ''


def no_peers(config: TrunkConfig) -> str:
    """The first circuit whose peer nobody can be, and why; nothing if there is none."""
    for n, its in sorted(config.circuits().items()):
        if why := no_peer(its.peer_host):
            return f'circuit {n}: peer_host {its.peer_host} {why}'
    return ''


def quoted(text: str) -> str:
    """A text as a TOML file has it."""
    inside = ''.join(f'\\u{ord(each):04x}' if ord(each) < 32 or ord(each) == 127 else f'\\{each}' if each in '"\\' else
                     each for each in text)
    return f'"{inside}"'


def config_text(config: Mapping[str, Any]) -> str:
    """The tables of a configuration as a file. ValueError if one of them has what no configuration has."""
    def line(key: str, value: object) -> str:
        if not isinstance(value, (str, int)) or isinstance(value, bool):
            raise ValueError(f'{key} is neither a text nor a whole number')
        name = key if key.isascii() and key.isidentifier() else quoted(key)
        return f'{name} = {quoted(value) if isinstance(value, str) else value}\n'
    tables = [{key: value for key, value in config.items() if key != 'circuit'}, *config.get('circuit', [])]
    return '[[circuit]]\n'.join(''.join(line(*each) for each in table.items()) for table in tables)
