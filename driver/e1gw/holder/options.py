"""The options of a holder. They are read without argparse, whose import would be a part of each silence."""
from __future__ import annotations

import os
import signal
from typing import Callable, Mapping, NamedTuple

from e1gw_common.addresses import host_and_port
from ..holder_state import MEMORY, folder_in_memory
from ..trunk_name import trunk_name
from ..trunks import Stream, open_tcp, open_unix

NAME = 'e1gw-trunk'
MOST_PATH, LONGEST = 107, 'program.new'     # octets of the path of a socket; the longest one in the folder
HELP = f'''usage: {NAME} --config FILE (--in FILE --out FILE | --unix PATH | --tcp HOST:PORT | --satop ENDS) [OPTION..]
                  [-- WATCH_OPTION..]

Holds an E1 trunk in service: it opens the line, binds the circuits' sockets, and keeps the program e1gw(1) running on
them. If it dies the program ends with it, and the next one goes on with all calls.

What it needs:
  --config FILE         the configuration, e1gw.toml(5)
  --in FILE, --out FILE a device, files or FIFOs to read the trunk from, and to write it to; both may be one
  --unix PATH           a Unix stream socket to connect to, in place of the two
  --tcp HOST:PORT       a TCP socket to connect to, in place of the two
  --satop ENDS          SAToP (RFC 4553) over UDP: LOCAL:PORT,PEER:PORT, and options of e1gw satop as ,size=512,jitter=8

The line:
  --reopen              reopens a trunk that ends or fails, each second
  --clear               the device carries time slots 1 to 31 only
  --blocks FRAMES,N     of a DAHDI card: frames of a block, and how many it holds each way [default: 16,16]
  --align               octets of the trunk may begin at any bit
  --crc4                sends CRC-4 multiframes, and checks those received each second

Calls:
  --senders WHOSE       whose datagrams are received, e1gw(1): any, first, host or peer [default: host]
  --repeat N            sends each datagram again after the N-th that follows it, 0 to 8 [default: 0, never]
  --seizure-wait MS     releases a seizure that is not acknowledged in this time, 200 to 8000 [default: 200]

Its name, files and watcher:
  --name NAME           the name of the trunk in files [default: that of FILE]
  --program E1GW        the program [default: that of this repository, or e1gw]
  --folder DIR          where its sockets and its log are, in memory [default: RUNTIME_DIRECTORY, or {MEMORY}]
  --state FILE          saves the state there at the end, and loads it at the start if it is there
  --standby             starts without the trunk, and waits until it is told to take it
  --alone               starts no e1gw-watch(1), which is otherwise started too, with the options behind --, unless
                        systemd does so

Signals: SIGHUP reload; SIGUSR2 another process in place of this one; SIGTERM, SIGINT end.
Statuses: 0 ended as asked, or with the trunk's input; 1 the trunk or the program failed; 2 the command line or the
configuration, or another one holds the trunk.
'''
TEXTS = ('config', 'name', 'program', 'folder', 'in', 'out', 'unix', 'tcp', 'satop', 'blocks', 'senders', 'repeat',
         'seizure-wait', 'state')
FLAGS = 'reopen', 'clear', 'align', 'crc4', 'standby', 'alone'
SENDERS = 'any', 'first', 'host', 'peer'
SATOP = {'size': range(32, 1281, 32), 'jitter': range(501), 'rtp': range(128)}      # options of e1gw satop
CLOCKS = 'packets', 'own'


class LineWants(NamedTuple):
    """What the line is. `open` opens it, but for SAToP, which has two ends and the options of `e1gw satop`."""

    trunk: str                  # how it is named
    open: Callable[[], Stream]
    satop: tuple[str, ...]
    reopens: bool
    crc4: bool
    program: str                # for `e1gw satop`
    folder: str                 # .. which is known there by the next holder


class Options(NamedTuple):
    """What is asked for. `words` are options of each program, `watch` those of e1gw-watch; None if none is started."""

    config: str
    program: str
    name: str
    folder: str
    line: LineWants
    words: tuple[str, ...]
    senders: str
    wait: int
    state: str
    is_standby: bool
    watch: tuple[str, ...] | None

    @property
    def is_saved(self) -> bool:
        """Whether the state is: not of two machines, of which the other one may have gone on from it."""
        return bool(self.state) and not self.is_standby


def options_of(words: list[str], around: Mapping[str, str]) -> Options:
    """Those of a command line. ValueError says what is wrong with it."""
    rest = [*words, '--'].index('--')
    asked, watch = read(words[:rest]), words[rest + 1:]
    if not asked['config']:
        raise ValueError('--config is wanted')
    config = os.path.abspath(asked['config'])
    name = trunk_name(asked['name'], config)
    within = asked['folder'] or around.get('RUNTIME_DIRECTORY', '').partition(':')[0] or MEMORY
    folder = os.path.join(os.path.abspath(within), f'{name}-{os.getuid()}')
    for path in (f'{each}/{LONGEST}' for each in (folder, folder_in_memory(folder))):
        if len(os.fsencode(path)) > MOST_PATH:
            raise ValueError(f'{path}: a path of a socket has {MOST_PATH} octets at most')
    senders = asked['senders'] or 'host'
    if senders not in SENDERS:
        raise ValueError(f'--senders {senders} is none of {", ".join(SENDERS)}')
    wait = number(asked, 'seizure-wait', 200, 8000, 200)
    program = program_of(asked['program'], around)
    return Options(config, program, name, folder, line_of(asked, program, folder), words_of(asked, wait),
                   senders, wait, asked['state'] and os.path.abspath(asked['state']), bool(asked['standby']),
                   None if asked['alone'] else (*watch,))


def read(words: list[str]) -> dict[str, str]:
    """The options by their names; nothing for what is not asked for."""
    asked, rest = dict.fromkeys((*TEXTS, *FLAGS), ''), iter(words)
    for word in rest:
        name, equals, value = word.removeprefix('--').partition('=')
        if not word.startswith('--') or name not in asked:
            where = 'are WATCH=' if 'E1GW_OPTIONS' in os.environ else 'stand behind --'
            raise ValueError(f'{word}: no option of {NAME}; those of e1gw-watch(1) {where}')
        if name in FLAGS:
            value = 'yes'
        elif not equals:
            value = next(rest, '')
        if not value:
            raise ValueError(f'--{name} wants a value')
        asked[name] = value
    return asked


def number(asked: Mapping[str, str], name: str, least: int, most: int, default: int) -> int:
    text = asked[name] or str(default)
    if not (text.isascii() and text.isdecimal() and least <= int(text) <= most):
        raise ValueError(f'--{name} {text} is not {least} to {most}')
    return int(text)


def words_of(asked: Mapping[str, str], wait: int) -> tuple[str, ...]:
    """The options of each program."""
    repeat = number(asked, 'repeat', 0, 8, 0)
    if asked['align'] and (asked['satop'] or asked['clear']):
        raise ValueError('--align is for all 32 slots of a device or a socket; --satop aligns in any case')
    if asked['crc4'] and asked['clear']:
        raise ValueError('--crc4 is for all 32 slots; the device of --clear sends slot 0 itself, and CRC-4 in it')
    words = ['--repeat', str(repeat)] * (repeat > 0) + ['--align'] * bool(asked['align'])
    words += ['--crc4', '--live'] * bool(asked['crc4']) + ['--slots', '1-31'] * bool(asked['clear'])
    return (*words, *['--seizure-wait', str(wait)] * (wait != 200))


def program_of(asked: str, around: Mapping[str, str]) -> str:
    """The path of the program."""
    path = asked or around.get('E1GW', '')
    if '/' in path:
        return os.path.abspath(path)
    # it may be built, for long: who waits may end that, and nothing is held yet
    signal.pthread_sigmask(signal.SIG_UNBLOCK, (signal.SIGINT, signal.SIGTERM))
    from e1gw_common.programs import path_of_program
    return path_of_program(path)


# ---- the line ----

def line_of(asked: Mapping[str, str], program: str, folder: str) -> LineWants:
    """What the line is."""
    kinds = asked['in'] and asked['out'], asked['unix'], asked['tcp'], asked['satop']
    if bool(asked['in']) != bool(asked['out']) or sum(map(bool, kinds)) != 1:
        raise ValueError('a trunk is --in and --out, or --unix, or --tcp, or --satop')
    if asked['clear'] and asked['satop']:
        raise ValueError('--clear is for a device that keeps slot 0; --satop has all 32 slots')
    path, reads, writes = asked['unix'], asked['in'], asked['out']
    place = option_address('tcp', asked['tcp']) if asked['tcp'] else None
    if asked['blocks']:
        from .. import dahdi                        # (which a card's line loads in any case)
        dahdi.blocks_of(asked['blocks'])

    def opens() -> Stream:
        if path or place:
            return open_tcp(*place) if place else open_unix(path)
        from ..card_opening import open_device      # (who has the descriptors already does without)
        from ..dahdi import blocks_of
        return open_device(reads, writes, blocks_of(asked['blocks'] or '16,16'), bool(asked['clear']))
    trunk = asked['satop'] or path or asked['tcp'] or (reads if reads == writes else f'{reads} {writes}')
    return LineWants(trunk, opens, satop_of(asked['satop']), bool(asked['reopen']), bool(asked['crc4']),
                     program, folder)


def option_address(name: str, text: str) -> tuple[str, int]:
    """The address that an option has. ValueError, which names the option, where it has none."""
    try:
        return host_and_port(text)
    except ValueError as fault:
        raise ValueError(f'--{name}: {fault}' if text else f'--{name} lacks an address') from None


def satop_of(text: str) -> tuple[str, ...]:
    """Both ends, and the options of `e1gw satop`."""
    if not text:
        return ()
    near, far, *more = [*text.split(','), '']
    for each in near, far:
        option_address('satop', each)
    asked = {'size': '256'}
    for each in filter(None, more):
        name, _, value = each.partition('=')
        asked[name] = value
        if name == 'clock' and value in CLOCKS:
            continue
        if name == 'from':
            option_address('satop', value)
            continue
        if name not in SATOP:
            raise ValueError(f'--satop has {each}, and knows {", ".join(SATOP)}, from=, and clock= packets or own')
        its = SATOP[name]
        if not (value.isascii() and value.isdecimal() and int(value) in its):
            raise ValueError(f'{name}= of --satop is {its[0]} to {its[-1]}' + (
                f', a multiple of {its.step}' if its.step > 1 else ''))
    return (near, far, *(word for name, value in asked.items() for word in (f'--{name}', value)))
