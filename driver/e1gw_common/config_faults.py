"""The first fault of a configuration, with its key, line and allowed values, and of the sockets that it asks for.

The checks are those of e1gw.toml(5), in its order, so the fault is that of `e1gw check`."""
from __future__ import annotations

import errno
import math
import re
import socket
import tomllib
from dataclasses import dataclass
from typing import Any, Callable, Iterator

from .lines import CircuitConfig, TrunkConfig
from .plain import typed

LONGEST, DEEPEST = 65_536, 80
MOST_SHOWN = 120            # characters of a value, or of the TOML reader's words
KINDS = {'Syntax': 1, 'UnknownKey': 2, 'Missing': 3, 'WrongType': 4, 'OutOfRange': 5, 'Twice': 6, 'LawCodec': 7,
         'TooLong': 8}
CODECS = ('pcma', 'pcmu', 'g726-16', 'g726-24', 'g726-32', 'g726-40')


@dataclass
class ConfigFault(Exception):
    """The first fault of a configuration: its kind, its table's place or 0, the key, and the reason."""

    kind: str
    place: int
    key: str
    text: str
    line: int | None = None


@dataclass
class Key:
    """The values of a key: their type, a test, and words for a reader."""

    type: type
    holds: Callable[[Any], bool]
    values: str


def numbers(low: int, high: int) -> Key:
    return Key(int, lambda value: bool(low <= value <= high), f'a whole number from {low} to {high}')


def words(*texts: str) -> Key:
    return Key(str, lambda value: bool(value in texts), ' or '.join(f'"{text}"' for text in texts))


TEXT = Key(str, lambda value: bool(value != ''), 'a text that is not empty')
PORT = numbers(1, 65_535)
TOP_KEYS = {'law': words('A', 'mu'), 'host': TEXT,
            'circuit': Key(list, lambda value: True, 'tables that begin with [[circuit]]')}
CIRCUIT_KEYS = {
    'number': numbers(1, 30), 'role': words('outgoing', 'incoming'), 'codec': words(*CODECS),
    'payload': numbers(0, 127),
    'ptime': Key(int, lambda value: value in (10, 20, 30), '10, 20 or 30'),
    'prefill': numbers(0, 1600), 'ssrc': numbers(0, 4_294_967_295), 'sequence': numbers(0, 65_535),
    'timestamp': numbers(0, 4_294_967_295), 'local_port': PORT, 'peer_port': PORT, 'peer_host': TEXT}
TYPES = {int: 'a whole number', str: 'a text in quotes', list: 'a list of tables'}


# ---- the file ----

# Comments and strings. One without an end is all the rest, so that the time is linear in the text.
PASSED_OVER = re.compile(r'''\#[^\n]*|"""(?:[^\\]|\\.)*?(?:"""|\Z)|\'{3}.*?(?:\'{3}|\Z)|"(?:[^"\\\n]|\\.)*+"?'''
                         r'''|\'[^\'\n]*+\'?''', re.DOTALL)
NO_KEY = re.compile(r'[^\w.\t -]')
BRACKETS = {'[': 1, '{': 1, ']': -1, '}': -1}


def check_depth(text: str) -> None:
    """e1gw's limits of depth: parts of a key and nested values. They come first, because the TOML reader takes time by
    the square of a key's parts."""
    bare = PASSED_OVER.sub(lambda found: 's' + '\n' * found[0].count('\n'), text)
    depth = 0
    for number, line in enumerate(bare.split('\n'), 1):
        if any(piece.count('.') >= DEEPEST for piece in NO_KEY.split(line)):
            raise ConfigFault('Syntax', 0, '', f'a key has more than {DEEPEST} parts', number)
        for each in line:
            depth += BRACKETS.get(each, 0)
            if depth > DEEPEST:
                raise ConfigFault('Syntax', 0, '', f'values are nested more than {DEEPEST} deep', number)


def check_numbers(table: dict[str, Any]) -> None:
    """A limit that the TOML reader does not have: 64 bits."""
    left: list[Any] = [table]
    while left:
        value = left.pop()
        if type(value) is int and not -2**63 <= value < 2**63:
            shown = f' ({value})' if abs(value) < 10**40 else ''
            raise ConfigFault('Syntax', 0, '', f'a whole number{shown} has more than 64 bits')
        left += value.values() if isinstance(value, dict) else value if isinstance(value, list) else ()


def float_of(text: str) -> float:
    """A number with a point or an exponent, at most what e1gw accepts in 64 bits."""
    value = float(text)
    if math.isinf(value) and 'inf' not in text:
        raise ConfigFault('Syntax', 0, '', f'the number {cut(text)} is too large')
    return value


def cut(text: str) -> str:
    """A text on one line, shortened."""
    shown = text if text.isprintable() else repr(text)
    return shown if len(shown) <= MOST_SHOWN else f'{shown[:MOST_SHOWN]}..'


def parsed(octets: bytes) -> dict[str, Any]:
    """The table of a file."""
    if len(octets) > LONGEST:
        raise ConfigFault('TooLong', 0, '', f'the file has more than the {LONGEST} octets allowed')
    try:
        text = octets.decode('utf-8').removeprefix('\N{ZERO WIDTH NO-BREAK SPACE}')
        check_depth(text)
        table = tomllib.loads(text, parse_float=float_of)
    except UnicodeDecodeError as error:
        line = octets[:error.start].count(b'\n') + 1
        raise ConfigFault('Syntax', 0, '', 'an octet is not UTF-8', line) from error
    except tomllib.TOMLDecodeError as error:
        found = re.search(r'\(at line (\d+)', str(error))
        line = int(found[1]) if found else octets.rstrip().count(b'\n') + 1
        raise ConfigFault('Syntax', 0, '', f'not TOML: {cut(str(error))}', line) from error
    except (ValueError, RecursionError) as error:
        # (int() takes no more than 4,300 digits.)
        raise ConfigFault('Syntax', 0, '', f'not TOML: {cut(str(error))}') from error
    check_numbers(table)
    return table


def line_of(text: str, place: int, key: str) -> int | None:
    """The line of a key in the table at this place, or of the table without such a key."""
    at, head = 0, None
    for number, line in enumerate(text.split('\n'), 1):
        if re.match(r'\s*\[\[\s*["\']?circuit["\']?\s*\]\]', line):
            at += 1
            head = number if at == place else head
        if at == place and key and re.match(rf'\s*\[?["\']?{re.escape(key)}["\']?\s*[=\]]', line):
            return number
        if at == place == 0 and re.match(r'\s*\[', line):
            break
    return head


# ---- the checks ----

def check_key(table: dict[str, Any], place: int, name: str, key: Key, needed: str | None) -> None:
    """A key's value: Missing, then WrongType, then OutOfRange."""
    if name not in table:
        if needed:
            raise ConfigFault('Missing', place, name, f'{name} is missing: {needed}; it has to be {key.values}')
        return
    value = table[name]
    if type(value) is not key.type:
        raise ConfigFault('WrongType', place, name, f'{name} has to be {TYPES[key.type]}: {key.values}')
    if not key.holds(value):
        raise ConfigFault('OutOfRange', place, name, f'{name} is {cut(repr(value))}, and has to be {key.values}')


def check_names(table: dict[str, Any], place: int, known: dict[str, Key]) -> None:
    unknown = [name for name in table if name not in known]
    if unknown:
        raise ConfigFault('UnknownKey', place, unknown[0],
                          f'{cut(unknown[0])} is not a key here; the keys are {", ".join(known)}')


def payload_key(codec: str) -> Key:
    """The payload types of a codec."""
    fixed = {'pcma': 8, 'pcmu': 0}.get(codec)
    values = 'a whole number from 96 to 127' if fixed is None else f'{fixed}, or a whole number from 96 to 127'
    return Key(int, lambda value: bool(value == fixed or 96 <= value <= 127), f'{values} (codec {codec})')


def needs(table: dict[str, Any], name: str, codec: str) -> str | None:
    """Why a key is required, or None."""
    other = {'local_port': 'peer_port', 'peer_port': 'local_port'}.get(name)
    if name == 'number':
        return 'each circuit has one'
    if name == 'payload' and codec.startswith('g726'):
        return 'G.726 has no payload type of its own'
    return f'{other} is there, and a circuit has both or none' if other in table else None


def check_circuit(table: dict[str, Any], place: int, law: str, before: list[dict[str, Any]]) -> None:
    """One table, by itself and against the earlier ones."""
    check_names(table, place, CIRCUIT_KEYS)
    codec = 'pcma' if law == 'A' else 'pcmu'
    for name, key in CIRCUIT_KEYS.items():
        if name == 'payload':
            key = payload_key(codec)
        check_key(table, place, name, key, needs(table, name, codec))
        codec = table.get('codec', codec) if name == 'codec' else codec
    if codec == ('pcmu' if law == 'A' else 'pcma'):
        raise ConfigFault('LawCodec', place, 'codec', f'{codec} is not G.711 in the law of the trunk, "{law}"')
    for name in ('number', 'local_port'):
        for at, other in enumerate(before, 1):
            if name in table and other.get(name) == table[name]:
                raise ConfigFault('Twice', place, name, f'{name} {table[name]} is also that of table {at}')


def check(octets: bytes) -> TrunkConfig:
    """The configuration that octets are, or ConfigFault."""
    table = parsed(octets)
    check_names(table, 0, TOP_KEYS)
    for name, key in TOP_KEYS.items():
        check_key(table, 0, name, key, 'a trunk has one' if name == 'law' else None)
    circuits = table.get('circuit', [])
    if not all(isinstance(circuit, dict) for circuit in circuits):
        raise ConfigFault('WrongType', 0, 'circuit', 'circuit has to be a list of tables that begin with [[circuit]]')
    for place, circuit in enumerate(circuits, 1):
        check_circuit(circuit, place, table['law'], circuits[:place - 1])
    return typed(TrunkConfig, table)


# ---- the sockets ----

def address(host: str, port: int, name: str) -> tuple[int, Any]:
    """The family and the first address of a host; ValueError without one."""
    try:
        family, _, _, _, where = socket.getaddrinfo(host, port, type=socket.SOCK_DGRAM)[0]
    except (OSError, UnicodeError) as error:
        raise ValueError(f'{name} "{cut(host)}" has no address: {error}') from error
    return family, where


def bind_socket(host: str, port: int) -> socket.socket:
    """A circuit's socket. ValueError says why there is none."""
    family, where = address(host, port, 'host')
    line = socket.socket(family, socket.SOCK_DGRAM)
    try:
        line.bind(where)
        return line
    except OSError as error:
        line.close()
        why = {errno.EADDRINUSE: f'port {port} is in use (ss -ulpn shows by whom)',
               errno.EADDRNOTAVAIL: f'host "{host}" is not an address of this machine (ip addr lists them)',
               errno.EACCES: f'port {port} is below 1024, and needs a privilege'}
        raise ValueError(why.get(error.errno or 0, str(error))) from error


def socket_fault(host: str, port: int, circuit: CircuitConfig) -> str | None:
    """Why a circuit's socket cannot be opened, or None."""
    try:
        family, _ = address(host, port, 'host')
        peer, _ = address(circuit.peer_host, circuit.peer_port or 0, 'peer_host')
        if family != peer:
            return f'host "{host}" and peer_host "{circuit.peer_host}" are of different address families'
        bind_socket(host, port).close()
    except ValueError as error:
        return str(error)
    return None


def socket_faults(config: TrunkConfig) -> Iterator[tuple[int, str]]:
    """Opens each socket by itself, in the order of the circuits: those that cannot be opened, and why."""
    for n, circuit in sorted(config.circuits().items()):
        if circuit.local_port and (why := socket_fault(config.host, circuit.local_port, circuit)):
            yield n, why


# ---- the words ----

def read_octets(path: str) -> bytes:
    """The octets of a configuration, at most one more than allowed."""
    with open(path, 'rb') as file:
        return file.read(LONGEST + 1)


def words_of(fault: ConfigFault, path: str, octets: bytes) -> str:
    """The file, the line and the reason."""
    line = fault.line or line_of(octets.decode('utf-8', 'replace'), fault.place, fault.key)
    return f'{path}:{line}: {fault.text}' if line else f'{path}: {fault.text}'


def refusal_of(path: str) -> tuple[str, str] | None:
    """The line with which e1gw refuses a configuration, and why in words; None if nothing is found."""
    octets = b''
    try:
        octets = read_octets(path)
        check(octets)
    except ConfigFault as fault:
        return f'config {KINDS[fault.kind]} {fault.kind} at {fault.place}', words_of(fault, path, octets)
    except OSError as fault:
        return 'cannot read the configuration', f'{path}: {fault.strerror or fault}'
    return None


def config_words(path: str) -> str | None:
    """Why a configuration is refused, in words; None if nothing is found."""
    found = refusal_of(path)
    return found[1] if found else None
