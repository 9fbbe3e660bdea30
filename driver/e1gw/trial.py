"""A process of its own, which a holder starts and which answers in JSON: it tries a program and a configuration on the
log of now, begins a log with a saved state, or saves the state behind a log."""
from __future__ import annotations

import ipaddress
import os
import re
import socket
import stat
import subprocess
import sys
import threading
import tomllib
from contextlib import closing
from dataclasses import dataclass, replace
from importlib import import_module
from typing import Any, Callable, Collection, Iterable, Mapping, Sequence, TypeVar

from e1gw_common.config_faults import config_words
from e1gw_common.fault_words import words_of_fault
from e1gw_common.lines import IN_CALL, TrunkConfig, circuit_words, config_text, no_peers, wait_words
from e1gw_common.plain import typed
from e1gw_common.session import CIRCUITS
from e1gw_common.writers import put_file
from .holder.job_types import JobAnswer, JobRequest, request_in
from .holder.log import remove
from .holder.version import NOT_PROVED, Tried
from .log_folder import LogFiles, LogPair, LogWriter
from .memory import in_memory

MOST_OCTETS = 65_536        # of a configuration
MOST_ENDED = 3              # calls that a reload may end without force
PORTS = 'local_port', 'peer_port'
NEW = re.compile(r'circuit (\d+) begins as new')

T = TypeVar('T')


class TrialRefused(Exception):
    """Why a version will not do."""


class TrialLater(Exception):
    """Why a version will not do now, and may do later."""


# ---- a program ----

def run(asked: JobRequest, program: int, words: Sequence[str], config: str,
        begun: LogPair | None) -> tuple[int, str, str]:
    """Runs a program to its end, over the records behind a state if there is one: its status, what it says, and what it
    writes."""
    wait, seconds = asked.wait, asked.seconds
    files = [in_memory(config.encode()), in_memory(begun.state if begun else b'')]
    load = ['--load', f'/dev/fd/{files[1]}'] if begun else []
    its = ['e1gw', words[0], '--config', f'/dev/fd/{files[0]}', *wait_words(wait),
           *words[1:], *load]
    try:
        done = subprocess.run(its, executable=f'/proc/self/fd/{program}', input=begun.records if begun else b'',
                              capture_output=True, pass_fds=[*files, program], timeout=seconds, check=False)
    except subprocess.TimeoutExpired:
        raise TrialLater(f'the program does not check the configuration within {seconds:g} s') from None
    finally:
        for file in files:
            os.close(file)
    return done.returncode, done.stderr.decode(errors='replace').strip(), done.stdout.decode(errors='replace')


@dataclass(frozen=True)
class Checked:
    """Circuits: those that begin as new, those that are in a call, and the codec and payload type that each has."""

    new: frozenset[int]
    calls: frozenset[int]
    codecs: Mapping[int, tuple[str, int]]


def check(asked: JobRequest, program: int, config: str, begun: LogPair | None) -> Checked:
    """Has a program check a configuration, and whether it goes on from a log: how the circuits stand then."""
    status, said, listed = run(asked, program, ['check'], config, begun)
    lines = said.splitlines()
    if status:
        raise TrialRefused('; '.join(line for line in lines if not NEW.fullmatch(line)) or f'status {status}')
    rows = [line.split() for line in listed.splitlines()]
    return Checked(frozenset(int(found[1]) for line in lines if (found := NEW.fullmatch(line))),
                   frozenset(int(row[0]) for row in rows if row[2:] and row[2] in IN_CALL),
                   {int(row[0]): (row[-2], int(row[-1])) for row in rows if row[2:]})


def version_name(asked: JobRequest) -> str:
    """The version that a program says; nothing if it says none. What was built without proof has it in its name."""
    program, path = asked.program, os.readlink(f'/proc/self/fd/{asked.program}')
    try:
        done = subprocess.run(['e1gw', '--version'], executable=f'/proc/self/fd/{program}', pass_fds=[program],
                              stdin=subprocess.DEVNULL, capture_output=True, timeout=asked.seconds, check=False)
    except OSError as fault:
        raise OSError(fault.errno, fault.strerror, path) from None
    name, _, version = done.stdout.decode(errors='replace').strip().partition(' ')
    if name != 'e1gw':
        return ''
    return f'{version}, {NOT_PROVED}' if path.endswith('.unproved') else version


# ---- a configuration ----

def read(path: str) -> str:
    """The text of a configuration. What is no file (a FIFO, say) or is too long is refused."""
    with open(path, 'rb', opener=lambda name, flags: os.open(name, flags | os.O_NONBLOCK)) as opened:
        if not stat.S_ISREG(os.fstat(opened.fileno()).st_mode):
            raise TrialLater(f'{path} is no file')
        octets = opened.read(MOST_OCTETS + 1)
    if len(octets) > MOST_OCTETS:
        raise TrialRefused(f'the configuration has more than {MOST_OCTETS} octets')
    return octets.decode()


def is_address(host: str) -> bool:
    try:
        ipaddress.ip_address(host)
    except ValueError:
        return False
    return True


def look_up(names: Iterable[str], seconds: float) -> dict[str, str]:
    """The addresses of names, which are looked up side by side."""
    found, faults = dict[str, str](), dict[str, str]()

    def looks(name: str) -> None:
        try:
            answers = socket.getaddrinfo(name, None, type=socket.SOCK_DGRAM)
            found[name] = str(min(answers, key=lambda each: each[0] is not socket.AF_INET)[4][0])
        except OSError as fault:
            faults[name] = f'{name}: {fault.strerror or fault}'
    threads = [threading.Thread(target=looks, args=[name], daemon=True) for name in names]
    for each in threads:
        each.start()
    for each in threads:
        each.join(seconds)
    if faults:
        raise TrialLater('; '.join(faults.values()))
    if late := {*names} - {*found}:
        raise TrialLater(f'names are not looked up within {seconds:g} s: {", ".join(sorted(late))}')
    return found


def with_addresses(tables: Mapping[str, Any], seconds: float) -> dict[str, Any]:
    """The same configuration with addresses in place of names, however the file has spelled it."""
    circuits = tables.get('circuit', [])
    hosts = {str(table['peer_host']) for table in circuits if 'peer_host' in table} | {
        str(each) for each in [tables.get('host')] if each}
    found = look_up(sorted(host for host in hosts if not is_address(host)), seconds)
    host = {'host': found.get(tables['host'], tables['host'])} if 'host' in tables else {}
    return {**tables, **host, 'circuit': [
        table | {'peer_host': found.get(table['peer_host'], table['peer_host'])} if 'peer_host' in table else table
        for table in circuits]}


def in_pieces(tables: Mapping[str, Any], senders: str, name: str) -> Tried:
    """A configuration as a holder has it."""
    def piece(table: Mapping[str, Any]) -> str:
        return config_text({'circuit': [table]})
    return Tried(config_text({key: value for key, value in tables.items() if key != 'circuit'}),
                 {table['number']: (piece(table), piece({key: table[key] for key in table if key not in PORTS}))
                  for table in tables.get('circuit', ())},
                 {n: address for address, n in typed(TrunkConfig, tables).addresses().items()}, senders, name)


# ---- what is asked ----

@dataclass(frozen=True)
class ReloadEffects:
    """Circuits: in a call now; those that begin as new; those that had a port, and those that have one then."""

    calls: frozenset[int]
    new: frozenset[int]
    ports: frozenset[int]
    ports_then: frozenset[int]

    @property
    def ended_calls(self) -> frozenset[int]:
        """Whose calls end."""
        return self.new & self.calls

    @property
    def muted_calls(self) -> frozenset[int]:
        """Whose calls lose their ports."""
        return (self.calls & self.ports) - self.ports_then - self.new

    @property
    def affected_calls(self) -> frozenset[int]:
        return self.ended_calls | self.muted_calls

    def is_refused(self, force: bool) -> bool:
        """Whether it ends too many calls."""
        return len(self.affected_calls) > MOST_ENDED and not force


def try_version(asked: JobRequest) -> JobAnswer:
    """Tries a version, behind one before it if there is one."""
    program, config = asked.program, asked.config
    text, name = read(config), version_name(asked)
    try:
        check(asked, program, text, None)       # (before any Python reads it)
        tables = with_addresses(tomllib.loads(text), asked.seconds)
        if why := no_peers(typed(TrunkConfig, tables)):
            raise TrialRefused(why)
    except TrialRefused as fault:
        cause = config_words(config)
        raise TrialRefused(f'{fault}: {cause}' if cause else str(fault)) from None
    version, log = in_pieces(tables, asked.senders, name), last_of(asked.log)
    found = check(asked, program, version.config(), log)
    if not (before := asked.before):
        return JobAnswer(tried=version)
    now = circuits_now(asked, before, log)
    calls = now.calls | found.calls
    hurt = ReloadEffects(calls, found.new, frozenset(before.ports), frozenset(version.ports)).affected_calls
    if wait := {n for n in hurt if asked.when_idle or has_codec(before, version, n, now.codecs)}:
        if version.head != before.head:
            raise TrialRefused('law and host are of all circuits, and wait for no call')
        version = keep_circuits(version, before, wait)
        found = check(asked, program, version.config(), log)
    runs = is_same_file(asked) and version._replace(wait=before.wait) == before
    return JobAnswer(tried=version, told=describe_effects(asked.force, before, version, found.new, calls),
                     changes=describe_changes(before, version), runs=runs)


def keep_circuits(version: Tried, before: Tried, circuits: Collection[int]) -> Tried:
    """The same version, but that these circuits wait."""
    def join(new: Mapping[int, T], old: Mapping[int, T]) -> dict[int, T]:
        return {n: its for n in sorted({*new, *old}) if (its := (old if n in circuits else new).get(n))}
    return version._replace(circuits=join(version.circuits, before.circuits), ports=join(version.ports, before.ports),
                            wait=tuple(sorted(circuits)))


def circuits_now(asked: JobRequest, before: Tried, log: LogPair | None) -> Checked:
    """How the circuits stand with the configuration before, by either program. If neither says it, all may be in a
    call."""
    for program in asked.program, asked.program_before:
        try:
            return check(asked, program, before.config(), log)
        except (TrialRefused, TrialLater, OSError):
            pass
    return Checked(frozenset(), frozenset(CIRCUITS), {})


def has_codec(before: Tried, version: Tried, circuit: int, codecs: Mapping[int, tuple[str, int]]) -> bool:
    """Whether a circuit has the codec of its new table already, and nothing else of that is new."""
    if not all(circuit in each.circuits for each in (before, version)):
        return False
    old, new = (typed(TrunkConfig, tomllib.loads(each.head + each.circuits[circuit][1])) for each in (before, version))
    own, its = (replace(each.circuit[0], codec=None, payload=None) for each in (old, new))
    return own == its and codecs.get(circuit) == new.lines()[circuit].configured


def is_same_file(asked: JobRequest) -> bool:
    """Whether the program is the file that runs."""
    now, before = map(os.fstat, (asked.program, asked.program_before))
    return os.path.samestat(now, before) and (now.st_size, now.st_mtime_ns) == (before.st_size, before.st_mtime_ns)


def describe_changes(before: Tried, version: Tried) -> str:
    """What is new of a version, in words."""
    others = [n for n in CIRCUITS if before.circuits.get(n) != version.circuits.get(n)]
    return '; '.join([*[f'program {version.name} in place of {before.name}'] * (version.name != before.name),
                      *['another law or host'] * (version.head != before.head),
                      *[f'circuits {circuit_words(others)} are configured otherwise'] * bool(others),
                      *[f'circuits {circuit_words(version.wait)} change when their calls end'] * bool(version.wait)])


def describe_effects(force: bool, before: Tried, version: Tried, new: frozenset[int], calls: frozenset[int]) -> str:
    """What a reload does to calls, in words. TrialRefused if that is too much."""
    found = ReloadEffects(calls, new, frozenset(before.ports), frozenset(version.ports))
    if found.is_refused(force):
        raise TrialRefused(f'it would end {calls_in(found.affected_calls)}: '
                           'reload --when-idle waits for them, reload force does')
    return '; '.join([*[f'it ends {calls_in(found.ended_calls)}'] * bool(found.ended_calls),
                      *[f'it takes the ports of {calls_in(found.muted_calls)}'] * bool(found.muted_calls)])


def calls_in(circuits: Iterable[int]) -> str:
    """How many calls these are, and of which circuits."""
    numbers = sorted(circuits)
    return f'{len(numbers)} calls (circuits {", ".join(map(str, numbers))})'


def last_of(folder: str) -> LogPair | None:
    """What a log has that can be loaded, if there is one."""
    try:
        with closing(LogFiles(folder)) as files:
            return files.last()
    except OSError:
        return None


def load_state(asked: JobRequest) -> JobAnswer:
    """Begins a log with the state that was saved in a file: all of it, or nothing."""
    with open(asked.state, 'rb') as file:
        octets = file.read()
    remove(new := f'{asked.log}.new')
    with closing(LogWriter(new)) as writer:
        writer.begin(0, octets)
    remove(asked.log)
    os.rename(new, asked.log)
    return JobAnswer()


def save_state(asked: JobRequest) -> JobAnswer:
    """Puts the state behind a whole log into a file, whole and up to the disk."""
    if log := last_of(asked.log):
        new = f'{asked.state}.new'
        status, said, _ = run(asked, asked.program, ['replay', '--save', new], asked.config, log)
        if status:
            raise OSError(0, said or f'status {status}')
        with open(new, 'rb') as file:
            octets = file.read()
        os.unlink(new)
        put_file(asked.state, octets, 0o640, is_synced=True)
    return JobAnswer()


def try_start(asked: JobRequest) -> JobAnswer:
    """The holder of now could begin."""
    import_module('.holder.main', __package__)
    return JobAnswer()


DOES: Mapping[str, Callable[[JobRequest], JobAnswer]] = {
    'try': try_version, 'load': load_state, 'save': save_state, 'begin': try_start}


def answer(asked: JobRequest) -> JobAnswer:
    """What is answered: what was found; why it is refused; or why it cannot be done now."""
    try:
        return DOES[asked.what](asked)
    except TrialRefused as fault:
        return JobAnswer(refused=str(fault))
    except (ValueError, RecursionError) as fault:
        return JobAnswer(refused=f'the configuration is not understood: {fault}')
    except Exception as fault:      # pylint: disable=broad-exception-caught
        return JobAnswer(later=words_of_fault(fault) or type(fault).__name__)


def main() -> None:
    """Answers what standard input asks."""
    os.write(1, answer(request_in(sys.stdin.buffer.read())).spell())
    os._exit(0)                 # (threads may look names up still)
