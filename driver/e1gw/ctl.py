"""Gives commands to trunks in service, and prints their answers.

  e1gw-ctl PATH COMMAND..     to one trunk: PATH is its control socket, or its name, for /run/e1gw/NAME/control
  e1gw-ctl PATH               commands from standard input, a line each
  e1gw-ctl --all COMMAND..    to each trunk of this machine
  e1gw-ctl                    a line for each trunk of this machine

Commands of e1gw-watch(1); N may be several circuits, as 1-4,7:
  status, status N, status json, events
  seize N, clear N, answer N, clear-back N
  block N, unblock N          out of service once their calls have ended, or --now; and back
  codec N CODEC TYPE [save]   until the call ends, or saved in the configuration
  reload, role, promote, demote, move, quit, help

Others:
  wait N STATE                prints which circuits are not in this state, until all are, or --for SECONDS
  why N                       what e1gw-picture finds of a circuit in the last 30 s that were recorded
  calls                       those that --last, --circuit, --from and --to select, each with the id that e1gw-call
                              takes; how many at once at most, and the erlang of each hour
  outages                     those between --from and --to
  report FILE                 a tar of version, status, options, journal and the last calls; --no-addresses hides hosts
  move NODE                   as root, has Pacemaker move the trunk

A TIME is 14:03, today, yesterday, 'yesterday 14:03' or 2026-11-23T07:30, in local time.

Statuses: 0 all was done; 1 a trunk refused something, or does not answer; 2 the command line, or nobody listens at
PATH; 3 circuits are not in the state.
"""
from __future__ import annotations

import argparse
import os
import socket
import stat
import subprocess
import sys
import time
from typing import BinaryIO

from e1gw_common.answers import answer_in
from e1gw_common.faults import Parser, checked, number, words_of_fault
from e1gw_common.session import CIRCUITS, circuit_of
from e1gw_common.session_clock import local_second
from .control_sockets import PATIENCE, SOCKETS, answer_to, connected, read_status, trunks_here
from .files_status import FilesStatus

# (What takes a while to be read is imported where it is used.)
ASKING = ('status', 'events', 'help', 'metrics', 'role')
SEVERAL = ('seize', 'clear', 'answer', 'clear-back', 'block', 'unblock', 'codec', 'status')
AT_ONCE = ('block', 'unblock')          # .. of which the trunk takes several at once

# The commands that have these options.
OPTIONS = {'last': ('calls',), 'circuit': ('calls',), 'from': ('calls', 'outages'), 'to': ('calls', 'outages'),
           'csv': ('calls', 'outages'), 'page': ('outages',), 'now': ('block',), 'for': ('wait',),
           'when-idle': ('reload',), 'no-addresses': ('report',)}


def path_of(word: str) -> str:
    """The socket that a path or the name of a trunk means."""
    return word if '/' in word or is_socket(word) else f'{SOCKETS}/{word}/control'


def is_socket(path: str) -> bool:
    try:
        return stat.S_ISSOCK(os.stat(path).st_mode)
    except (OSError, ValueError):
        return False


def trunks_meant(asked: argparse.Namespace) -> list[tuple[str, str]]:
    """The trunks that a command is for, as their sockets are now."""
    return trunks_here() if asked.all else [(asked.path, path_of(asked.path))]


def unit_words(path: str, fault: OSError) -> str:
    """What to look at if no trunk listens where one of a unit would."""
    folder, name = os.path.split(os.path.dirname(path))
    if folder != SOCKETS or not isinstance(fault, (FileNotFoundError, ConnectionRefusedError)):
        return ''
    return f' (systemctl status e1gw-watch@{name} e1gw-trunk@{name}; e1gw-ctl alone lists the trunks)'


def circuits_of(word: str) -> list[str]:
    """The circuits of 1-4,7; what is no such list is one word, which the trunk refuses."""
    found: list[str] = []
    for part in word.split(','):
        first, dash, last = part.partition('-')
        last = last if dash else first
        if not (first.isdecimal() and last.isdecimal() and int(first) <= int(last)) or len(part) > 5:
            return [word]
        found += map(str, range(int(first), int(last) + 1))
    return found


def each_circuit(command: str) -> list[str]:
    """A command for each of its circuits."""
    words = command.split()
    if len(words) < 2 or words[0] not in SEVERAL:
        return [command]
    each = words[1].split(',') if words[0] in AT_ONCE and 'auto' not in words else circuits_of(words[1])
    return [' '.join([words[0], circuit, *words[2:]]) for circuit in each]


def ask(stream: BinaryIO, line: socket.socket, command: str, patience: float, front: str = '') -> bool:
    """Gives a command and prints what answers it; returns whether it was done."""
    lines, word = answer_to(line, stream, command, patience), command.split()[0]
    print('\n'.join(f'{front}{each}' for each in lines), flush=True)
    answer = answer_in(lines)
    return answer.is_done if answer else word in ASKING


def print_events(stream: BinaryIO) -> None:
    """Prints events as they come."""
    for event in stream:
        print(event.decode(errors='replace'), end='', flush=True)


def run(path: str, words: list[str], patience: float) -> int:
    """Gives a trunk one command, or those of standard input; returns the status."""
    with connected(path, patience) as line:
        stream: BinaryIO = line.makefile('rb')
        if words == ['events']:
            answer_to(line, stream, 'events', patience)
            line.settimeout(None)
            print_events(stream)
            return 0
        commands = [' '.join(words)] if words else (each.strip() for each in sys.stdin)
        done = [ask(stream, line, each, patience) for command in commands if command for each in each_circuit(command)]
    return 0 if all(done) else 1


def run_all(words: list[str], patience: float) -> int:
    """Gives each trunk of this machine a command; a line of an answer begins with the trunk's name."""
    status, command = 0, ' '.join(words)
    for name, path in trunks_here():
        try:
            with connected(path, patience) as line:
                stream: BinaryIO = line.makefile('rb')
                done = [ask(stream, line, each, patience, f'{name}: ') for each in each_circuit(command)]
                status |= not all(done)
        except (OSError, EOFError) as fault:
            print(f'{name}: it does not answer: {words_of_fault(fault, path)}', flush=True)
            status = 1
    return status


def codec_saved(path: str, numbers: str, codec: str, kind: str, patience: float) -> int:
    """Gives circuits a codec, also in the configuration; returns the status."""
    if status := run(path, ['codec', numbers, codec, kind], patience):
        return status
    from .ctl_codec import save_codecs
    file = read_status(FilesStatus, path, patience).config_file
    try:
        save_codecs(file, [int(each) for each in circuits_of(numbers)], codec, int(kind))
    except ValueError as fault:
        print(f'{file}: {fault}', flush=True)
        return 1
    return run(path, ['reload'], patience)


def move(name: str, node: str) -> int:
    """Has Pacemaker move a trunk, whose resource has its name, to another node; returns the status."""
    steps = ['--move', '--promoted', '--node', node], ['--wait'], ['--clear']
    return max(subprocess.run(['crm_resource', '--resource', name, *words], check=False).returncode for words in steps)


def own_command(asked: argparse.Namespace, parser: argparse.ArgumentParser, command: list[str], patience: float
                ) -> int | None:
    """Does what e1gw-ctl does by itself, and returns the status; None of a command for a trunk."""
    trunks = trunks_meant(asked) if command else []
    first, end = getattr(asked, 'from'), asked.to
    match command:
        case ['calls']:
            from .ctl_calls import Wanted, calls_listed
            return calls_listed(trunks, Wanted(asked.last, asked.circuit, first, end), bool(asked.csv), patience)
        case ['outages']:
            from .ctl_calls import OutageForm, outages_listed
            form = OutageForm.PAGE if asked.page else OutageForm.CSV if asked.csv else OutageForm.TEXT
            return outages_listed(trunks, first, end, form, patience)
        case ['wait', *its]:
            from .ctl_wait import STATES, AwaitedState, wait
            circuits, state = {*map(circuit_of, circuits_of(its[0] if its else ''))}, ' '.join(its[1:])
            if 0 in circuits or state not in STATES:
                parser.error(f'wait: wants circuits, 1 to 30, and a state: {", ".join(STATES)}')
            return wait(lambda: trunks_meant(asked), AwaitedState(circuits, state), getattr(asked, 'for'), patience)
        case ['codec', numbers, codec, kind, 'save'] if not asked.all:
            return codec_saved(path_of(asked.path), numbers, codec, kind, patience)
        case ['why', *its]:
            if len(its) != 1 or not circuit_of(its[0]):
                parser.error('why: wants a circuit, 1 to 30')
            from .ctl_why import why
            return why(trunks, circuit_of(its[0]), patience)
        case ['report', *its] if not asked.all:
            if len(its) != 1:
                parser.error('report: wants a file')
            from .ctl_report import report
            return report(asked.path, path_of(asked.path), its[0], bool(asked.no_addresses), patience)
        case ['move', node] if not asked.all:
            return move(asked.path, node)
    return None


def started(asked: argparse.Namespace, parser: argparse.ArgumentParser, patience: float) -> int:
    """What the words ask for."""
    words = [asked.path] * bool(asked.path) + asked.command
    if asked.path == '' or not all(word.strip() and word.isprintable() for word in asked.command):
        parser.error('a word is empty, or cannot be printed')
    if asked.all and (not words or words == ['events']):
        parser.error('--all wants a command that is answered at once')
    command = words[not asked.all:]
    for option, names in OPTIONS.items():
        if getattr(asked, option.replace('-', '_')) is not None and not {*names} & {*command[:1]}:
            parser.error(f'--{option} is for {" and ".join(names)}')
    if (status := own_command(asked, parser, command, patience)) is not None:
        return status
    command += ['now'] * bool(asked.now) + ['when-idle'] * bool(asked.when_idle)
    if asked.all:
        return run_all(command, patience)
    if command and command[0] in [name for name, _ in trunks_here()]:
        parser.error(f'{command[0]} is a trunk: a command goes to one of them, and with --all to each')
    if asked.path:
        return run(path_of(asked.path), command, patience)
    from .ctl_all import overview
    return overview(patience)


def next_words(parsed_args: argparse.Namespace, **_: object) -> list[str]:
    """What completes the next word, for argcomplete."""
    words, circuits = [parsed_args.path] * bool(parsed_args.path) + (parsed_args.command or []), [*map(str, CIRCUITS)]
    if not words and not parsed_args.all:
        return [name for name, _ in trunks_here()]
    match words[not parsed_args.all:]:
        case []:
            return [*SEVERAL, 'wait', 'why', 'report', 'calls', 'outages', 'events', 'role', 'promote',
                    'demote', 'move', 'reload', 'quit', 'help']
        case ['status']:
            return ['json', *circuits]
        case ['reload']:
            return ['force']
        case [word] if word in (*SEVERAL, 'wait', 'why'):
            return circuits
        case ['wait', _]:
            from .ctl_wait import STATES
            return STATES
        case ['codec', _, _, _]:
            return ['save']
        case ['codec', _]:
            return ['pcma', 'pcmu', 'g726-16', 'g726-24', 'g726-32', 'g726-40']
    return []


def main(patience: float = PATIENCE) -> None:
    parser = Parser(prog='e1gw-ctl', description=__doc__, usage='e1gw-ctl [PATH | --all] [COMMAND..]',
                    formatter_class=argparse.RawDescriptionHelpFormatter)
    parser.add_argument('--all', action='store_true', help='each trunk of this machine')
    parser.add_argument('--last', metavar='N', type=number(1, 10**6), help='calls: the last N [default: 20, or all '
                        'with --from or --to]')
    parser.add_argument('--circuit', metavar='N', type=number(1, 30), help='calls: those of a circuit')
    parser.add_argument('--now', action='store_true', default=None, help='block: calls are cleared')
    parser.add_argument('--when-idle', action='store_true', default=None, help='reload: circuits in a call wait for '
                        'its end')
    parser.add_argument('--no-addresses', action='store_true', default=None, help='report: hosts are replaced')
    parser.add_argument('--for', metavar='SECONDS', type=number(0, 10**6, float), help='wait: no longer than that')
    when = checked(lambda text: local_second(text, time.time()), 'a time such as 14:03, yesterday or 2026-11-23T07:30')
    parser.add_argument('--from', metavar='TIME', type=when, help='calls, outages: those that ended after TIME')
    parser.add_argument('--to', metavar='TIME', type=when, help='calls, outages: those that began before TIME')
    parser.add_argument('--csv', action='store_true', default=None, help='calls, outages: as CSV')
    parser.add_argument('--page', action='store_true', default=None, help='outages: as a page of HTML to print')
    for each in (parser.add_argument('path', metavar='PATH', nargs='?'),
                 parser.add_argument('command', metavar='COMMAND', nargs='*')):
        setattr(each, 'completer', next_words)
    asked = parser.parse_args()
    try:
        status = started(asked, parser, patience)
        sys.stdout.flush()
    except BrokenPipeError:
        os.dup2(os.open(os.devnull, os.O_WRONLY), 1)
        status = 1
    except KeyboardInterrupt:
        status = 0
    except EOFError:
        print('e1gw-ctl: the trunk has ended', file=sys.stderr)
        status = 1
    except (TimeoutError, BlockingIOError) as fault:
        print(f'e1gw-ctl: {words_of_fault(fault, path_of(asked.path))}', file=sys.stderr)
        status = 1
    except OSError as fault:
        path = fault.filename or path_of(asked.path or '')
        print(f'e1gw-ctl: {words_of_fault(fault, path)}{unit_words(path, fault)}', file=sys.stderr)
        status = 2
    except UnicodeError:
        print('e1gw-ctl: a command cannot be read', file=sys.stderr)
        status = 2
    sys.exit(status)
