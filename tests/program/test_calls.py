"""Which files and sockets each command opens, renames and removes, in which order, and that it opens no others.

A command runs under strace on an empty input. A row has all such calls, as far as the programmer of a command decides
them: `run` is its first read of standard input. Names of files are those in the folder of the run."""
from __future__ import annotations

import re
import shutil
import subprocess

import pytest

from .case import Program
from .udp_calls import CIRCUIT, CONFIG
from e1gw_testing.ports import free_ports

TRACED = ('open,openat,openat2,creat,rename,renameat,renameat2,unlink,unlinkat,rmdir,mkdir,mkdirat,link,linkat,symlink,'
          'symlinkat,chmod,fchmodat,truncate,flock,fsync,fdatasync,socket,socketpair,bind,connect,execve,read')
# What each command opens first, before it looks at its words: what stands for closed descriptors.
HELD = ['open /dev/null WRONLY', 'open /dev/null RDONLY', 'open /dev/null RDONLY']
QUIET = {'NOCTTY', 'CLOEXEC', 'NONBLOCK'}

READ_CONFIG, NEW_STATE = ['open config RDONLY'], ['open new.new WRONLY|CREAT|TRUNC', 'sync', 'rename new.new new']
DOOR = ['socket UNIX STREAM', 'bind {0}', 'chmod {0}']
UDP = ['socket INET DGRAM', 'bind 127.0.0.1:near']
LOG = [f'log/{name}' for name in ('state.0', 'records.0', 'state.1', 'records.1')]


def door(name: str) -> list[str]:
    """A Unix socket that clients connect to."""
    return [each.format(name) for each in DOOR]


def logged(flags: str) -> list[str]:
    """The four files of the log are opened."""
    return [f'open {name} {flags}' for name in LOG]


LOCKED = ['open log/lock RDWR|CREAT', 'lock', *logged('RDWR|CREAT'), 'open /proc/self/stat RDONLY']
# By command: the calls.
CALLS: dict[str, list[str]] = {
    '--help': [],
    'encode': ['run'],
    'decode': ['run'],
    'align': ['run'],
    'crc4': ['run'],
    'crc4 --check --live': ['run'],
    'crc4 --reports /dev/zero': ['open /dev/zero RDWR', 'run'],
    'crc4 --check --reports /dev/zero': ['open /dev/zero RDWR', 'run'],
    'check --config config --load old': [*READ_CONFIG, 'open old RDONLY', 'run'],
    'replay --config config': [*READ_CONFIG, 'run'],
    'replay --config config --load old --save new --tell tell':
        [*READ_CONFIG, 'open old RDONLY', *door('tell'), 'run', *NEW_STATE],
    'serve --config config --save new': [*READ_CONFIG, *UDP, 'run', *NEW_STATE],
    'serve --config config --senders peer': [*READ_CONFIG, *UDP, 'connect 127.0.0.1:far', 'run'],
    'trunk --config config': [*READ_CONFIG, *UDP, 'run'],
    'trunk --config config --crc4 --align --slots 1-31': [*READ_CONFIG, *UDP, 'run'],
    'trunk --config config --log log --load old --save new --control control --tell tell --crc4':
        [*LOCKED, *door('control'), *READ_CONFIG, *logged('RDONLY'), 'open old RDONLY',
         *logged('RDONLY'), *logged('RDWR|CREAT'), *UDP, *door('tell'), 'run', *NEW_STATE],
    'satop 127.0.0.1:near 127.0.0.1:far': [*UDP, 'connect 127.0.0.1:far', 'run'],
    'satop 127.0.0.1:near 127.0.0.1:far --from 127.0.0.1:near': [*UDP, 'connect 127.0.0.1:near', 'run'],
}


def address_in(call: str, names: dict[str, str]) -> str:
    """The address of a bind or a connect; a port has its name."""
    path = re.search(r'sun_path="([^"]*)"', call)
    port, host = re.search(r'htons\((\d+)\)', call), re.search(r'"([^"]*)"', call)
    return path[1] if path else f'{host[1] if host else call}:{names.get(port[1], port[1]) if port else "none"}'


def said_of(call: str, names: dict[str, str]) -> str | None:
    """A call as the table has it; None of a read that is none of standard input."""
    name, rest = call.split('(', 1)
    texts, flags = re.findall(r'"([^"]*)"', rest), [it for it in re.findall(r'\bO_(\w+)', rest) if it not in QUIET]
    match name:
        case 'read':
            return 'run' if rest.startswith('0,') else None
        case 'openat' | 'open':
            return f'open {texts[0]} {"|".join(flags)}'
        case 'socket':
            return ' '.join(['socket', *re.findall(r'(?:AF|SOCK)_(INET6?|UNIX|DGRAM|STREAM)', rest)])
        case 'bind' | 'connect':
            return f'{name} {address_in(rest, names)}'
    words = {'flock': 'lock', 'fsync': 'sync', 'unlink': 'remove'}
    return ' '.join([words.get(name, name), *texts])


def calls_in(trace: str, names: dict[str, str]) -> list[str]:
    """The calls of a run, from the first that is the program's own on; of reads of standard input the first alone."""
    found: list[str] = []
    for line in trace.splitlines():
        said = said_of(line, names) if re.match(r'\w+\(', line) else None
        if said == HELD[0] or (found and said and not (said == 'run' and 'run' in found)):
            found.append(said or '')
    return found


def prepare(program: Program) -> dict[str, str]:
    """A configuration, an old state and the folder of a log. Returns the names of the ports."""
    near, far = free_ports(2)
    (program.room / 'config').write_text(CONFIG.format(host='127.0.0.1') + CIRCUIT.format(
        number=1, local=near, peer_host='127.0.0.1', peer=far), encoding='ascii')
    program.run('replay', '--config', 'config', '--save', 'old')
    (program.room / 'log').mkdir()
    return {str(near): 'near', str(far): 'far'}


@pytest.mark.skipif(not shutil.which('strace'), reason='no strace')
@pytest.mark.parametrize('command', CALLS)
def test_calls(command: str, program: Program) -> None:
    """The calls of a command are these, in this order, and no others."""
    names = prepare(program)
    words = command
    for port, name in names.items():
        words = words.replace(f':{name}', f':{port}')
    done = subprocess.run(['strace', '-qq', '-e', f'trace={TRACED}', '-s', '300', '-o', 'trace', program.path,
                           *words.split()], stdin=subprocess.DEVNULL, capture_output=True, cwd=program.room,
                          check=False)
    found = calls_in((program.room / 'trace').read_text(encoding='utf-8', errors='replace'), names)
    assert (found, done.returncode) == ([*HELD, *CALLS[command]], 0), done.stderr
