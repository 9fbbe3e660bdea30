"""Writes whole configurations of e1gw, and checks existing ones: e1gw-config(1).

  e1gw-config [--trunk N] [VALUES]                     prints a configuration of thirty circuits
  e1gw-config --write NAME [--trunk N] [VALUES]        writes NAME.toml and NAME.options
  e1gw-config --write NAME --tie OTHER [VALUES]        writes those of both ends of a tie
  e1gw-config --check FILE.. [--no-sockets]            prints faults of files, and ports that two have

Trunk N of a machine has the ports from 24002 + 100 (N - 1) on and the metrics at 9100 + N. --write takes the first
trunk whose ports no other file of the folder names and nobody has bound.

--check prints the line of `e1gw check`, the key, its line in the file and the allowed values, or opens each socket of
`e1gw serve`, closes it again, and prints the first that fails. (A running trunk has its own ports in use.)

The status is 0 if everything was written or nothing was found, 1 for a socket, else 2."""
from __future__ import annotations

import argparse
import os
import random
import socket
import sys
from collections.abc import Iterator, Mapping
from dataclasses import dataclass, replace

from e1gw_common.config_faults import CODECS, ConfigFault, check, read_octets, refusal_of, socket_faults
from e1gw_common.faults import Parser, number, words_of_fault
from e1gw_common.lines import no_peers
from e1gw_common.session import CIRCUITS
from .config_ports import EXAMPLE, NamedPorts, is_bound, trunks_in

FIRST, APART, TRUNKS = 24_002, 100, 64      # ports of a trunk: for each circuit one for RTP and the next one unused
SAME_HOST = 10_000                          # ports between the two ends of a tie on one machine
METRICS = 9100
# The circuits that e1gw seizes, by their numbers modulo 2, and what the other end of a tie has.
ROLES = {'outgoing': ((0, 1), 'incoming'), 'incoming': ((), 'outgoing'), 'odd': ((1,), 'even'), 'even': ((0,), 'odd')}
HEAD = '''# Thirty circuits of one trunk, made by e1gw-config(1); e1gw.toml(5) has each key.
# The jitter buffer (prefill) is {depth:g} ms deep.
law = "{law}"
host = "{host}"
'''
CIRCUIT = '''
[[circuit]]
number = {circuit}
role = "{role}"
codec = "{codec}"{payload}
ptime = {ptime}
prefill = {prefill}
local_port = {local_port}
peer_host = "{peer}"
peer_port = {peer_port}
{numbers}'''
NUMBERS = 'ssrc = {}\nsequence = {}\n'
OPTIONS = '''# Options of e1gw-trunk(1) and of e1gw-watch(1) for the trunk {name}.
TRUNK="{device}"
WATCH="--http 127.0.0.1:{http} --session {folder} --keep 1h --calls {folder}/calls.csv --json {folder}/events"
'''


Numbers = Mapping[int, tuple[int, int]]     # by circuit: its SSRC and its first sequence number


class CannotWrite(Exception):
    """Why no configuration is written."""


def random_numbers() -> Numbers:
    """An SSRC and a first sequence number of each circuit (RFC 3550, 5.1 and 8.1); no two have the same SSRC."""
    source = random.SystemRandom()
    return {circuit: (ssrc, source.randrange(1 << 16))
            for circuit, ssrc in zip(CIRCUITS, source.sample(range(1 << 32), len(CIRCUITS)))}


@dataclass(frozen=True)
class Plan:
    """The values of a configuration."""

    trunk: int
    law: str
    codec: str
    payload: int | None
    ptime: int
    prefill: int
    role: str
    host: str
    peer: str
    first_local: int
    first_peer: int
    numbers: Numbers            # empty: those of e1gw.toml(5)

    def other_end(self) -> Plan:
        """The plan of the other end: hosts, ports and the seizing end are swapped. (Two trunks of one machine have each
        a port for metrics.)"""
        return replace(self, trunk=self.trunk + (self.host == self.peer), role=ROLES[self.role][1], host=self.peer,
                       peer=self.host, first_local=self.first_peer, first_peer=self.first_local,
                       numbers=random_numbers() if self.numbers else {})

    def ports(self) -> list[int]:
        """The ports at this end."""
        return [self.first_local + 2 * n for n in range(len(CIRCUITS))]

    def circuit(self, circuit: int) -> str:
        """The table of a circuit."""
        step = 2 * (circuit - 1)
        return CIRCUIT.format(
            circuit=circuit, role='outgoing' if circuit % 2 in ROLES[self.role][0] else 'incoming', codec=self.codec,
            payload='' if self.payload is None else f'\npayload = {self.payload}', ptime=self.ptime, peer=self.peer,
            prefill=self.prefill, local_port=self.first_local + step, peer_port=self.first_peer + step,
            numbers=NUMBERS.format(*self.numbers[circuit]) if self.numbers else '')


def text_of(plan: Plan) -> str:
    """The whole configuration, or CannotWrite if e1gw would refuse it."""
    text = HEAD.format(depth=plan.prefill / 8, law=plan.law, host=plan.host) + ''.join(map(plan.circuit, CIRCUITS))
    try:
        if why := no_peers(check(text.encode())):
            raise CannotWrite(why)
    except ConfigFault as fault:
        raise CannotWrite(fault.text) from None
    return text


def options_text(name: str, trunk: int, device: str) -> str:
    """The options of the unit of a trunk."""
    return OPTIONS.format(name=name, device=device.replace('NAME', name), http=METRICS + trunk,
                          folder=f'/var/lib/e1gw/{name}')


def plan_of(asked: argparse.Namespace, trunk: int) -> Plan:
    """The plan of a command line for a trunk of the machine."""
    first = asked.first_local or FIRST + APART * (trunk - 1)
    codec = asked.codec or ('pcma' if asked.law == 'A' else 'pcmu')
    payload = asked.payload if asked.payload is not None or not codec.startswith('g726') else 96
    first_peer = asked.first_peer or (first + SAME_HOST if asked.peer == asked.host else first)
    return Plan(trunk, asked.law, codec, payload, asked.ptime, asked.prefill, asked.role, asked.host, asked.peer,
                first, first_peer, {} if asked.plain else random_numbers())


# ---- a trunk with free ports ----

def ends_of(asked: argparse.Namespace, trunk: int) -> list[tuple[str, Plan]]:
    """The names and plans that are to be written: of this end, and of the other end of a tie."""
    plan = plan_of(asked, trunk)
    return [(asked.write, plan), *[(asked.tie, plan.other_end())] * bool(asked.tie)]


def taken_ports(plan: Plan, is_asked: bool, others: NamedPorts, own: NamedPorts) -> Iterator[int]:
    """Ports of a plan that another file names, or somebody has bound who is not of the files that are written over.
    Ports that were asked for are not looked at."""
    http = METRICS + plan.trunk
    if http in others.http or http not in own.http and is_bound('127.0.0.1', http, socket.SOCK_STREAM):
        yield http
    for port in [] if is_asked else plan.ports():
        if port in others.rtp or port not in own.rtp and is_bound(plan.host, port):
            yield port


def free_trunk(asked: argparse.Namespace) -> int:
    """The first trunk of the machine whose ports are free; files that are written over keep theirs."""
    names = {asked.write, asked.tie}
    own = NamedPorts.from_files(asked.folder, trunks_in(asked.folder) & names, '')
    others = NamedPorts.from_files(asked.folder, trunks_in(asked.folder) - names, asked.host)

    def is_free(trunk: int) -> bool:
        are_asked = asked.first_local, asked.first_peer
        return not any(next(taken_ports(plan, bool(is_asked), others, own), 0)
                       for (_, plan), is_asked in zip(ends_of(asked, trunk), are_asked))
    trunks = sorted(range(1, TRUNKS + 1), key=lambda trunk: METRICS + trunk not in own.http)
    if found := next(filter(is_free, trunks), 0):
        return found
    raise CannotWrite(f'no trunk of 1 to {TRUNKS} has free ports; --trunk takes one as it is')


# ---- what is written ----

def write_new(path: str, text: str, over: bool) -> None:
    """Writes a new file; an existing one is kept unless it is to be overwritten."""
    with open(path, 'w' if over else 'x', encoding='utf-8') as file:
        file.write(text)
    print(path)


def write_all(asked: argparse.Namespace) -> None:
    """Writes the two files of a trunk, and those of the other end of a tie."""
    ends = ends_of(asked, asked.trunk or free_trunk(asked))
    texts = [(name, text_of(each), options_text(name, each.trunk, asked.device)) for name, each in ends]
    there = [path for name, _ in ends for ending in ('toml', 'options')
             if os.path.exists(path := os.path.join(asked.folder, f'{name}.{ending}'))]
    if there and not asked.over:
        raise CannotWrite(f'{", ".join(there)}: already there; nothing was written (--over overwrites)')
    for name, text, options in texts:
        path = os.path.join(asked.folder, name)
        write_new(f'{path}.toml', text, asked.over)
        write_new(f'{path}.options', options, asked.over)


# ---- what is checked ----

def clash_words(path: str, other: str, clashes: list[tuple[int, str, int]]) -> str:
    """The words for circuits of a file whose address and port another file has."""
    circuit, address, far = clashes[0]
    if len(clashes) == 1:
        return f'{path}, circuit {circuit}: {address} is also the port of {other}, circuit {far}'
    return (f'{path}: the ports of {len(clashes)} circuits, of circuit {circuit} {address}, are also those of {other}; '
            f'e1gw-config --trunk N gives each trunk its own')


def found_in(path: str) -> str | None:
    """What is wrong with a configuration: the line of e1gw, and why; or what e1gw-trunk refuses and e1gw does not."""
    if found := refusal_of(path):
        return '\n  '.join(found)
    why = no_peers(check(read_octets(path)))
    return f'{path}: {why}' if why else None


def clashes_of(paths: list[str]) -> Iterator[str]:
    """Which ports two files have in common."""
    taken = dict[tuple[str, int], tuple[str, int]]()
    for path in paths:
        clashes: dict[str, list[tuple[int, str, int]]] = {}
        for (host, port), circuit in check(read_octets(path)).addresses().items():
            other, far = taken.setdefault((host, port), (path, circuit))
            if other != path:
                clashes.setdefault(other, []).append((circuit, f'{host}:{port}', far))
        for other, found in clashes.items():
            yield clash_words(path, other, found)


def open_sockets(paths: list[str]) -> int:
    """Opens the sockets of each file, and prints the first of each that cannot be opened. Returns the status."""
    configs, status = {path: check(read_octets(path)) for path in paths}, 0
    for path, config in configs.items():
        if found := next(socket_faults(config), None):
            print(f'socket {found[0]}\n  {path}: {found[1]}')
            status = 1
    if not status:
        print(f'{sum(len(config.addresses()) for config in configs.values())} sockets can be opened')
    return status


def check_files(paths: list[str], is_socket_asked: bool) -> int:
    """Prints what is wrong with each file, which ports two have in common, and which sockets cannot be opened; returns
    the status."""
    its = [path for path in paths if os.path.basename(path) != f'{EXAMPLE}.toml' or len(paths) == 1]
    faults = [*filter(None, map(found_in, paths))] or [*clashes_of(its)]
    print(*faults or ['the configuration has no fault' if len(paths) == 1 else
                      f'{len(paths)} configurations have no fault'], sep='\n')
    return 2 if faults else open_sockets(its) if is_socket_asked else 0


# ---- the command line ----

def parser() -> argparse.ArgumentParser:
    words = Parser(prog='e1gw-config', description=__doc__, usage=argparse.SUPPRESS,
                   formatter_class=argparse.RawDescriptionHelpFormatter)
    words.add_argument('--check', nargs='+', metavar='FILE', help='checks configurations and finds ports used twice')
    words.add_argument('--no-sockets', action='store_true', help='with --check, opens no socket')
    words.add_argument('--write', metavar='NAME', help='writes NAME.toml and NAME.options')
    words.add_argument('--tie', metavar='OTHER', help='with --write, the other end of a tie: OTHER.toml, OTHER.options')
    words.add_argument('--folder', default='.', help='the folder for the files [default: this one]')
    words.add_argument('--over', action='store_true', help='overwrites existing files')
    words.add_argument('--device', default='--unix /run/card/NAME', metavar='OPTIONS',
                       help='what e1gw-trunk(1) is to open, in .options [default: --unix /run/card/NAME]')
    add_speech(words.add_argument_group('circuits and speech'))
    add_ports(words.add_argument_group('addresses and ports'))
    return words


def add_speech(values: argparse._ArgumentGroup) -> None:
    values.add_argument('--role', choices=tuple(ROLES), default='outgoing',
                        help='circuits that e1gw seizes: all, none, odd or even ones [default: outgoing, all]')
    values.add_argument('--law', choices=('A', 'mu'), default='A', help='the law of the trunk [default: A]')
    values.add_argument('--codec', choices=CODECS, help='[default: G.711 of the law]')
    values.add_argument('--payload', type=number(0, 127), metavar='TYPE', help='[default: 96 for G.726]')
    values.add_argument('--ptime', type=int, choices=(10, 20, 30), default=20, help='ms in a packet [default: 20]')
    values.add_argument('--prefill', type=number(0, 1600), default=320, metavar='SAMPLES',
                        help='how late packets may be, in samples, 8 a ms [default: 320, 40 ms]')
    values.add_argument('--plain', action='store_true',
                        help='the SSRC is the circuit\'s number, and packets are numbered from 0 [default: at random]')


def add_ports(values: argparse._ArgumentGroup) -> None:
    values.add_argument('--host', default='127.0.0.1', help='the address of this end [default: 127.0.0.1]')
    values.add_argument('--peer', default='127.0.0.1', metavar='HOST', help='that of the far end [default: 127.0.0.1]')
    values.add_argument('--trunk', type=number(1, TRUNKS), metavar='N',
                        help=f'which trunk of the machine, 1 to {TRUNKS}: its ports '
                             '[default: with --write the first whose ports are free, else 1]')
    values.add_argument('--first-local', type=number(1, 65_535), metavar='PORT',
                        help='the port of circuit 1 here [default: by --trunk]')
    values.add_argument('--first-peer', type=number(1, 65_535), metavar='PORT',
                        help='that of circuit 1 there [default: the same, and 10000 more at the same address]')


def run(asked: argparse.Namespace) -> int:
    if asked.check:
        return check_files(asked.check, not asked.no_sockets)
    if asked.tie and (not asked.write or asked.tie == asked.write):
        raise CannotWrite('--tie needs --write and another name')
    if asked.write:
        write_all(asked)
    else:
        print(text_of(plan_of(asked, asked.trunk or 1)), end='')
    return 0


def main() -> None:
    asked = parser().parse_args()
    status = 2
    try:
        status = run(asked)
    except CannotWrite as fault:
        print(f'e1gw-config: {fault}', file=sys.stderr)
    except BrokenPipeError:
        os.dup2(os.open(os.devnull, os.O_WRONLY), 1)
    except OSError as fault:
        print(f'e1gw-config: {words_of_fault(fault)}', file=sys.stderr)
    sys.exit(status)
