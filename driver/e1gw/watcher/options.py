"""The options of who watches a trunk, and what they ask for."""
from __future__ import annotations

import argparse
import os
import shlex
from ipaddress import ip_address

from e1gw_common.addresses import host_and_port
from e1gw_common.faults import checked, number
from e1gw_common.tls import add_tls, is_exposed
from ..holder_state import MEMORY, folder_in_memory
from ..recording_ring import seconds_of
from ..trunk_name import trunk_name
from .recordings import RecordingWants
from .watch import WatchWants

WATCHED = 'config', 'control', 'http', 'json', 'calls', 'session'     # what an operator may have of a trunk
KEPT = '/var/lib/e1gw'      # where e1gw-call looks by itself


def mode_of(text: str) -> int:
    """The mode of a file by its octal digits, or ValueError."""
    if not 0 <= (mode := int(text, 8)) <= 0o777:
        raise ValueError
    return mode


def add_options(words: argparse.ArgumentParser) -> None:
    """Those of e1gw-watch, in groups, the first of which is what one needs first."""
    add_first(words.add_argument_group('What it needs, and what one wants first'))
    add_calls(words.add_argument_group('Calls and reports'))
    add_names(words.add_argument_group('Its name, files and socket'))
    add_pair(words.add_argument_group('Two machines'))


def add_first(words: argparse._ArgumentGroup) -> None:
    """The configuration, and what shows and keeps the trunk."""
    words.add_argument('--config', metavar='FILE', required=True, help='the configuration, e1gw.toml(5)')
    words.add_argument('--control', metavar='PATH', help='a Unix socket for commands, e1gw-ctl(1)')
    words.add_argument('--http', type=checked(host_and_port), metavar='HOST:PORT',
                       help='serves a page (/; /trunks), /metrics (Prometheus), /status (JSON)')
    words.add_argument('--session', metavar='FILE', help='records all that the program receives, for e1gw replay and '
                       'check')
    words.add_argument('--keep', type=checked(seconds_of), metavar='TIME',
                       help='--session is a folder for the last 30m, 1h, 2d, in twelve to 360 files')


def add_calls(words: argparse._ArgumentGroup) -> None:
    """What is written and drawn of calls, and what ends them."""
    words.add_argument('--calls', metavar='FILE', help='a line of CSV for each call; ten files of 10 MiB are kept')
    words.add_argument('--json', metavar='FILE', help='a line of JSON for each change; - is standard output')
    words.add_argument('--picture', type=number(10, 3600, float), metavar='SECONDS',
                       help='/picture shows the last seconds, 10 to 3600, of what --keep has; wants both')
    words.add_argument('--on-loss', nargs='+', default=['keep'], metavar='WORD',
                       help='keep, clear SECONDS, or block SECONDS: what is done with the calls when the last '
                       'control client that asked for it is gone [default: keep]')
    words.add_argument('--dark', type=number(0, 86_400, float), metavar='SECONDS',
                       help='clears the calls of a trunk that has been in alarm for that long [default: never]')
    words.add_argument('--gap', type=number(20, 10_000), default=100, metavar='MS',
                       help='resynchronises the jitter buffers of calls if octets of MS milliseconds were lost '
                       '[default: 100]')


def add_names(words: argparse._ArgumentGroup) -> None:
    """What it is called, and where its files are."""
    words.add_argument('--name', help='the name of the trunk in metrics and files [default: that of FILE]')
    words.add_argument('--program', metavar='E1GW', help='the program, for replays [default: that of this repository, '
                       'or e1gw]')
    words.add_argument('--folder', metavar='DIR', help=f'where the folder of the trunk is [default: RUNTIME_DIRECTORY, '
                       f'or {MEMORY}]')
    words.add_argument('--control-mode', type=checked(mode_of, 'a mode of a file, as 660'),
                       default=WatchWants.control_mode, metavar='MODE',
                       help=f'the mode of --control, in octal [default: {WatchWants.control_mode:o}]')
    words.add_argument('--control-group', default=WatchWants.control_group, metavar='GROUP', help='its group')
    words.add_argument('-h', '--help', action='help', help='prints this')


def add_pair(words: argparse._ArgumentGroup) -> None:
    """The options of a trunk that two machines have."""
    words.add_argument('--feed', metavar='ADDRESS:PORT', help='listens there, and feeds the log to the other machine')
    words.add_argument('--fed-from', metavar='ADDRESS:PORT', help='--feed of the other machine, which feeds this one '
                       'while it stands by')
    add_tls(words.add_mutually_exclusive_group(), 'machine')


# ---- what they ask for ----

def folder_of(asked: argparse.Namespace) -> str:
    """The folder of this trunk: the same for each start, whatever else its options say."""
    within = asked.folder or os.environ.get('RUNTIME_DIRECTORY', '').partition(':')[0] or MEMORY
    return os.path.join(os.path.realpath(within), f'{trunk_name(asked.name, asked.config)}-{os.getuid()}')


def folder_now(asked: argparse.Namespace) -> str:
    """Where the folder is: a holder moves it into memory if it takes no writes."""
    usual = folder_of(asked)
    return max((usual, folder_in_memory(usual)), key=lambda folder: (modified_at(f'{folder}/holder'), folder == usual))


def modified_at(path: str) -> float:
    """When a file was written; 0 if there is none."""
    try:
        return os.stat(path).st_mtime
    except OSError:
        return 0.0


def recording_of(asked: argparse.Namespace, wait: int) -> RecordingWants | None:
    """What is kept of the trunk. ValueError if that cannot be."""
    if asked.keep and not asked.session:
        raise ValueError('--keep wants --session')
    if asked.picture and not (asked.http and asked.keep):
        raise ValueError('--picture wants --http, and --session with --keep')
    return RecordingWants(os.path.abspath(asked.session), asked.keep, trunk_name(asked.name, asked.config),
                          os.path.abspath(asked.config), wait) if asked.session else None


def kept_of(asked: argparse.Namespace) -> str | None:
    """The words by which e1gw-call finds a call behind its id; None if calls are not kept."""
    if not (asked.keep and asked.calls):
        return None
    folder, calls = os.path.abspath(asked.session), os.path.abspath(asked.calls)
    is_usual = calls == os.path.join(folder, 'calls.csv')
    return f' {shlex.quote(folder)}' * (not is_usual or os.path.dirname(folder) != KEPT) \
        + f' --calls {shlex.quote(calls)}' * (not is_usual)


def watched_of(asked: argparse.Namespace, program: str) -> WatchWants:
    """What an operator wants to have of it, drawn by this program."""
    picture = ['--last', f'{asked.picture}s', '--program', program,
               os.path.abspath(asked.session)] if asked.picture else []
    return WatchWants(name=trunk_name(asked.name, asked.config), picture=picture, kept=kept_of(asked), **{
        each: getattr(asked, each) for each in (*WATCHED, 'control_mode', 'control_group', 'dark', 'on_loss')})


def feeding_of(asked: argparse.Namespace) -> list[tuple[str, int]]:
    """Where this machine feeds the other one, and where it is fed; nothing if there is none. ValueError if it cannot
    be."""
    texts = [text for text in (asked.feed, asked.fed_from) if text]
    places = [(str(ip_address(host)), port) for host, port in map(host_and_port, texts)]
    if len(places) == 1:
        raise ValueError('--feed and --fed-from want each other')
    if places and is_exposed(places[0][0], asked):
        raise ValueError(f'{places[0][0]} is not a loopback address, and the feed has the speech of all calls: give '
                         '--tls, or --insecure within a tunnel')
    return places
