"""A report of a trunk for who is to look at a fault: a tar of texts, which has no speech."""
from __future__ import annotations

import io
import json
import os
import platform
import subprocess
import tarfile
import time
from contextlib import suppress
from itertools import islice
from pathlib import Path
from typing import Iterator, Mapping

from e1gw_common.call_lines import FIELDS, csv_line, read_calls
from e1gw_common.faults import words_of_fault
from . import VERSION
from .addresses import HiddenAddresses
from .control_sockets import UNITS, status_in, status_text
from .metrics import table
from .status import TrunkStatus

CALLS, LINES = 200, 2000    # of the last calls, and of the journal
JOURNAL = ['journalctl', '--no-pager', '--no-hostname', '-q', '-o', 'short-iso', '-n', str(LINES)]
SECONDS = 30.0              # for the journal
OPTIONS = '.options', '.toml', '.tie'


def journal_of(name: str) -> str:
    """The last lines of its units in systemd's journal, or why there are none."""
    units = [word for unit in ('trunk', 'watch', 'tie') for word in ('-u', f'e1gw-{unit}@{name}')]
    try:
        done = subprocess.run([*JOURNAL, *units], stdout=subprocess.PIPE, stderr=subprocess.STDOUT, timeout=SECONDS,
                              check=False)
    except (OSError, subprocess.TimeoutExpired) as fault:
        return f'{fault}\n'
    return done.stdout.decode(errors='replace')


def options_of(name: str) -> Iterator[tuple[str, str]]:
    """The files of its options and of its configuration, if it is a unit's."""
    for ending in OPTIONS:
        with suppress(FileNotFoundError):
            path = Path(UNITS, f'{name}{ending}')
            try:
                yield path.name, path.read_text('utf-8', 'replace')
            except PermissionError as fault:
                yield path.name, f'{words_of_fault(fault)}\n'


def calls_of(status: TrunkStatus) -> str:
    """The lines of its last calls, the last one first."""
    if not (file := status.files.calls_file):
        return 'it writes no --calls\n'
    try:
        lines = [csv_line(call) for call in islice(read_calls(file), CALLS)]
    except OSError as fault:
        return f'{words_of_fault(fault, file)}\n'
    return '\n'.join([','.join(FIELDS), *lines, ''])


def parts_of(name: str, path: str, now: float, patience: float) -> dict[str, str]:
    """The texts by their names. A trunk that does not answer has a journal, too."""
    parts = {'about': f'e1gw {VERSION}, trunk {name}, {time.strftime("%Y-%m-%dT%H:%M:%SZ", time.gmtime(now))}\n'
             f'{platform.platform()}, Python {platform.python_version()}, {os.cpu_count()} processors\n'}
    try:
        status = status_in(TrunkStatus, text := status_text(path, patience))
        name = status.name
        parts |= {'status.json': json.dumps(json.loads(text), indent=1) + '\n', 'status': table(status),
                  'calls.csv': calls_of(status)}
    except (OSError, ValueError) as fault:
        parts['status'] = f'it does not answer: {words_of_fault(fault, path)}\n'
    return {**parts, **dict(options_of(name)), 'journal': journal_of(name)}


def without_addresses(parts: Mapping[str, str]) -> dict[str, str]:
    """The same without addresses and names of hosts."""
    hidden = HiddenAddresses()
    hidden.find_names(text for name, text in parts.items() if name.endswith(OPTIONS))
    return {name: hidden.hide_in(text) for name, text in parts.items()}


def report(name: str, path: str, file: str, hides: bool, patience: float) -> int:
    """Writes the report of a trunk to a new file; returns the status. OSError if that cannot be."""
    now = time.time()
    parts = parts_of(name, path, now, patience)
    parts = without_addresses(parts) if hides else parts
    with open(file, 'xb', opener=lambda its, flags: os.open(its, flags, 0o600)) as out, \
            tarfile.open(fileobj=out, mode='w') as tar:
        for part, text in parts.items():
            octets, about = text.encode(), tarfile.TarInfo(f'e1gw-report/{part}')
            about.size, about.mtime = len(octets), int(now)
            tar.addfile(about, io.BytesIO(octets))
    print(f'{file}: {", ".join(parts)}')
    return 0
