"""The command: begins to hold a trunk, or goes on where the holder before has left."""
from __future__ import annotations

import os
import stat
import sys
import time
from typing import NoReturn

from e1gw_common.fault_words import options_words, words_of_fault
from e1gw_common.writers import hold_descriptors
from ..holder_state import plain_in
from ..lock import InUse, release_lock, take_lock
from .decisions import Beginning, beginning_of, is_active
from .holder import Holder
from .job import Job
from .job_types import JobRequest
from .note import HolderNote
from .journal import NAME, Severity, log_line
from .lifecycle import LOST, finish
from .line import HeldLine
from .log import is_there, silence_of
from .loop import Loop
from .options import HELP, Options, options_of
from .program import HeldProgram, counted_octets
from .roles import give_log
from .satop_line import SatopLine
from .store import Store
from .version import Version, tried_in, version_of
from .watcher_child import WatcherChild

FAILED, REST = 1, 0.5       # the status of what may fail again; seconds before systemd begins the next one, at once


def main(words: list[str] | None = None) -> NoReturn:
    """Holds a trunk to its end."""
    hold_descriptors()
    words = sys.argv[1:] if words is None else words
    if {'-h', '--help'} & {*words}:
        print(HELP, end='', flush=True)
        os._exit(0)
    try:
        options = options_of(words, os.environ)
    except ValueError as fault:
        log_line(Severity.ERROR, f'{fault}; see {NAME} --help{options_words()}')
        os._exit(2)
    loop, store = Loop(), Store()
    loop.catch()
    try:
        lock = lock_trunk(options.folder, store)
    except InUse as fault:
        log_line(Severity.ERROR, f'process {fault} holds this trunk')
        os._exit(2)
    except OSError as fault:
        log_line(Severity.ERROR, words_of_fault(fault))
        end(FAILED, store)
    line = SatopLine if options.line.satop else HeldLine
    holder = Holder(options, store, line(options.line, store.files, loop), loop)
    holder.lock = lock
    begin(holder)
    holder.watcher = watcher_of(options, store, loop)
    status = holder.run()
    release_lock(holder.lock, f'{options.folder}.lock')
    end(status, store)


def end(status: int, store: Store) -> NoReturn:
    """The end of this process."""
    if status == FAILED and store.has_manager:
        time.sleep(REST)
    os._exit(status)


def lock_trunk(folder: str, store: Store) -> int:
    """The lock of the trunk, whose folder nobody else can write to. InUse says who has it; OSError if it cannot be
    had."""
    os.makedirs(os.path.dirname(folder), exist_ok=True)
    lock = store.files.pop('lock') if 'lock' in store.files else take_lock(f'{folder}.lock')
    make_own(folder)
    return lock


def make_own(folder: str) -> None:
    """Makes a folder that no other user can write to. OSError if such a one has made it before."""
    os.makedirs(folder, 0o700, exist_ok=True)
    about = os.lstat(folder)
    if not stat.S_ISDIR(about.st_mode) or about.st_uid != os.getuid() or about.st_mode & 0o022:
        raise OSError(f'{folder}: other users can write there; --folder gives another place')


def begin(holder: Holder) -> None:
    """Goes on where the holder before this one has left, or from what was saved, or anew."""
    store, options, log = holder.store, holder.options, f'{holder.folder}/log'
    has_log, before = is_there(log) or bool(holder.log.files), plain_in(f'{holder.folder}/holder')
    how = beginning_of(store.was is not None, has_log, options.is_saved and os.path.exists(options.state))
    holder.is_active = is_active(options.is_standby, before.get('role', ''), bool(holder.line.files))
    holder.why, holder.was_up = str(how.value), how in (Beginning.REPLACED, Beginning.KILLED)
    if version := version_left(holder, how):
        holder.versions.switch_to(version)
    if holder.line.files:
        holder.line.since = before.get('opened', holder.line.since)
    if how is Beginning.REPLACED and store.was:
        holder.since = before.get('since', holder.since)
        resume_replaced(holder, store.was)
    elif how is Beginning.KILLED:
        holder.down_since -= silence_of(log)
        holder.lost = LOST if has_died(holder.folder) else ''
        if 'DSCP' in os.environ:            # (it marks what this cgroup has opened, and that of before is gone)
            holder.sockets.close_others(())
            store.keep(holder.descriptors_to_store())
            store.wait_until_closed()
    elif how is Beginning.SAVED:
        load(holder)
        if holder.status is not None:
            return
    if not holder.is_active:
        give_log(holder)
    while store.files:                      # (what was given, and nobody has taken)
        os.close(store.files.popitem()[1])
    holder.listen()                         # (before it is known: who knows it may ask)
    if not holder.is_active:
        holder.report_waiting('it does not have the trunk')
    holder.publish()


def version_left(holder: Holder, how: Beginning) -> Version | None:
    """That of the holder before this one; None if it is not known, or there was none."""
    files = holder.store.files
    if {'program', 'tried'} <= files.keys():
        return Version(files.pop('program'), files.pop('tried'))
    if how is Beginning.KILLED:
        try:
            found = tried_in(plain_in(f'{holder.folder}/tried'))
            return version_of(os.open(holder.options.program, os.O_RDONLY | os.O_CLOEXEC), found)
        except (OSError, KeyError, TypeError, ValueError):
            pass
    return None


def watcher_of(options: Options, store: Store, loop: Loop) -> WatcherChild | None:
    """The e1gw-watch(1) of this trunk, where no systemd starts one."""
    if options.watch is None or store.has_manager:
        return None
    path = os.path.join(os.path.dirname(os.path.abspath(sys.argv[0])), 'e1gw-watch')
    watcher = WatcherChild([path, '--config', options.config, '--name', options.name, '--program', options.program,
                            '--folder', os.path.dirname(options.folder), *options.watch], loop)
    if store.was and store.was.watcher:
        watcher.adopt_child(store.was.watcher)
    return watcher


def resume_replaced(holder: Holder, was: HolderNote) -> None:
    """This process was another holder, whose child and descriptors it has."""
    files = holder.store.files
    holder.program = HeldProgram(was.child, holder.loop, files.pop('leash'), files.pop('said'))
    holder.line.restore_note(was.line)
    log_line(Severity.NOTICE, f'{holder.why}: program {was.child} goes on')


def has_died(folder: str) -> bool:
    """Whether the program before this holder has ended in no order."""
    try:
        with open(f'{folder}/said', encoding='utf-8', errors='replace') as text:
            return counted_octets(text.read().splitlines()) is None
    except OSError:
        return True


def load(holder: Holder) -> None:
    """Begins with the state that was saved."""
    asked = JobRequest('load', state=holder.options.state, log=f'{holder.folder}/log')
    if why := Job(asked).wait_for_answer().why_not:
        finish(holder, f'the state is not loaded: {why}', 1)
