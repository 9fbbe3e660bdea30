"""The life of a program. It starts once the log is there and free, the circuits' sockets are bound, and the line gives
octets; it is up once it answers; and what follows once it has ended, up to the end of all."""
from __future__ import annotations

import errno
import os
import signal
import time
from contextlib import suppress
from math import inf
from typing import TYPE_CHECKING

from e1gw_common.fault_words import name_of_process, words_of_fault
from e1gw_common.writers import put_file
from ..holder_state import folder_in_memory
from .decisions import FIRST_PAUSE, Decision, EndFault, EndOfProgram, EndReason, NextAct, after_end
from .job import Job
from .job_types import JobRequest
from .journal import Severity, log_line
from .log import has_log, is_there, process_that_locks, rename_over
from .program import CRASHES, HeldProgram, ProgramWants, counted_octets, end_words, fault_in, open_said
from .version import Version

if TYPE_CHECKING:
    from .holder import Holder

NO_WRITES = errno.EROFS, errno.EACCES, errno.EPERM      # a disk has failed
START, RELOADED = 10.0, 1.0     # seconds to carry the trunk; for a new version, that has one before it
OLD = 1.0                   # seconds for which speech may wait in sockets that no program reads
LEFT, SOON = 0.2, 0.002     # seconds for a program that nobody holds to end; between two looks
GRACE = 5.0                 # seconds for a program to end in order
LOST, ANEW = ', what it had in hand is lost: 2048 octets (8 ms) at most', '; all calls begin anew'


# ---- its start ----

def start_program(holder: Holder, now: float) -> None:
    """Starts a program, or waits for who has the log."""
    version = holder.versions.now
    assert version
    make_folder(holder)
    if wait_for_log(holder, now):
        return
    put_back_log(holder)
    bind_sockets(holder, now)
    holder.line.begin(now)
    config = put_version(holder, version)
    said = open_said(f'{holder.folder}/said')
    try:
        holder.program = HeldProgram.started(ProgramWants(
            version.program, config, holder.folder, holder.line.program_files,
            holder.sockets.program_descriptors(version.its.ports), said,
            ['--senders', version.its.senders, *holder.options.words]), holder.loop,
            now + (RELOADED if holder.versions.before else START))
    except OSError:
        os.close(said)
        raise


def put_back_log(holder: Holder) -> None:
    """The log, if it is gone; in another folder, if this one has no room for it."""
    try:
        is_back = holder.log.put_back(f'{holder.folder}/log')
    except OSError as fault:
        if not move_folder(holder, words_of_fault(fault)):
            raise
        is_back = holder.log.put_back(f'{holder.folder}/log')
    if is_back:
        holder.publish()                    # (the next holder goes on from this one, too)
        log_line(Severity.WARNING, 'the log was gone, and is put back')


def put_version(holder: Holder, version: Version) -> str:
    """Puts down a version, also for who watches the trunk. The configuration of a program of it."""
    config = version.its.config(holder.sockets.lacking)
    with suppress(OSError):                 # (a folder that is full: then they are those before)
        put_file(f'{holder.folder}/config', config.encode(), 0o640)
        put_file(f'{holder.folder}/tried', version.its.text().encode(), 0o640)
    return config


def make_folder(holder: Holder) -> None:
    """The folder of the trunk, if it is gone; another one, if nobody may write there any more (a disk has failed)."""
    try:
        os.makedirs(log := f'{holder.folder}/log', 0o700, exist_ok=True)
        if not os.access(log, os.W_OK):
            raise OSError(errno.EROFS, os.strerror(errno.EROFS), log)
    except OSError as fault:
        if fault.errno not in NO_WRITES or not move_folder(holder, words_of_fault(fault)):
            raise


def move_folder(holder: Holder, why: str) -> bool:
    """Another folder, in memory, unless it is that already: whether it has changed."""
    other = folder_in_memory(holder.options.folder)
    if holder.folder == other:
        return False
    log_line(Severity.ERROR, f'{why}: the folder of the trunk is {other} from now on')
    os.makedirs(f'{other}/log', 0o700, exist_ok=True)
    holder.folder = other
    return True


def wait_for_log(holder: Holder, now: float) -> bool:
    """Whether a process has the log locked. A program that no holder has on its leash ends in a moment, or is killed;
    anybody else is named and waited for."""
    log = f'{holder.folder}/log'
    pid = process_that_locks(log)
    if not pid:
        holder.log_locker = 0, now
        return False
    is_left = pid > 0 and has_log(pid, log)
    if pid != holder.log_locker[0]:
        holder.log_locker = pid, now
        if not is_left:
            log_line(Severity.ERROR, f'the log is in use by {name_of(pid)}: the next program waits for that')
    if is_left and now >= holder.log_locker[1] + LEFT:
        log_line(Severity.WARNING, f'program {pid} goes on without a holder, and is killed')
        holder.log_locker = pid, now
        with suppress(OSError):
            os.kill(pid, signal.SIGKILL)
    holder.due = now + (SOON if is_left else FIRST_PAUSE)
    return True


def name_of(pid: int) -> str:
    """A process, in words."""
    with suppress(OSError):
        return f'process {pid} ({name_of_process(pid)})'
    return 'a process that is not seen from here'


def bind_sockets(holder: Holder, now: float) -> None:
    """The circuits' sockets."""
    version, sockets = holder.versions.now, holder.sockets
    assert version
    if now > holder.down_since + OLD:
        sockets.drop_old()
    known = {*sockets.lacking}
    sockets.bind(version.its.ports)
    for n in sorted(sockets.lacking.keys() - known):
        log_line(Severity.ERROR, f'circuit {n} has no port: {sockets.lacking[n]}; it is tried again each second')


def on_program_up(holder: Holder, now: float) -> None:
    """A program carries the trunk."""
    program, versions = holder.program, holder.versions
    assert program
    after = f'goes on after {(now - holder.down_since) * 1000:.0f} ms' if holder.was_up else 'carries the trunk'
    words = f'{holder.why}: program {program.pid} {after}{holder.lost}'
    holder.was_up, holder.since = True, time.time()
    versions.on_up(now)
    holder.sockets.close_others(versions.addresses())
    with suppress(OSError):                 # (it was removed in this moment: the next program has another one)
        holder.log.hold(f'{holder.folder}/log')
    with suppress(OSError):
        if holder.options.state:
            os.unlink(holder.options.state)     # (it is no longer the state of the trunk)
    holder.publish()
    log_line(Severity.WARNING if holder.lost else Severity.NOTICE, words)
    holder.lost = ''
    holder.store.notify('READY=1', f'STATUS=program {program.pid}')
    holder.answer_waiting('reload', 'take')


# ---- its end ----

def is_late(program: HeldProgram, now: float) -> bool:
    """Whether a program does not come up in time, or does not end in time."""
    return now >= min(inf if program.is_up else program.deadline, (program.asked or inf) + GRACE)


def on_program_exit(holder: Holder, program: HeldProgram, status: int, now: float) -> None:
    """What follows a program that has ended with a status."""
    lines = program.lines()
    end, line_words = gather_end(holder, program, status, now)
    words = 'hangs, and was killed' if program.hangs else end_words(status, lines)
    is_asked = end.reason is not EndReason.NONE
    if program.asked or program.is_up:
        holder.down_since = program.asked or now
    holder.why = str(end.reason.value) if is_asked and end.is_well else f'the program {words}'
    if end.was_up:                          # (else what was lost before it is still to be told)
        holder.lost = '' if end.is_well else LOST
    program.close()
    holder.program, holder.reason = None, EndReason.NONE
    decided = after_end(end)
    holder.deaths = decided.deaths
    if decided.trial:
        holder.versions.trial = decided.trial
    carry_out(holder, decided, line_words or holder.why, now)


def gather_end(holder: Holder, program: HeldProgram, status: int, now: float) -> tuple[EndOfProgram, str]:
    """All that decides what follows; and why the line has ended, if it has."""
    lines = program.lines()
    is_well, fault = status == 0 and not program.hangs, fault_in(lines)
    was_up = program.is_up or is_well       # (one may have ended before anybody saw that it was)
    reason = EndReason.END if holder.ending else holder.reason if holder.is_active else EndReason.RELEASE
    words = ''
    if reason is EndReason.NONE and was_up and (is_well or fault is EndFault.TRUNK):
        words = holder.line.why_ended(counted_octets(lines) or 0)
        if fault is EndFault.TRUNK:
            words = words or f'the trunk has ended: the program {end_words(status, lines)}'
        elif words.startswith(EndFault.TRUNK.value):
            fault = EndFault.TRUNK          # (of `e1gw satop`: the program was given its end, and ended well)
    return EndOfProgram(reason, fault, was_up, is_well, is_crash(status), bool(words), not holder.was_up,
                        holder.options.line.reopens, holder.versions.trial, holder.deaths, now), words


def is_crash(status: int) -> bool:
    """Whether a signal has ended a program that a fault of its own raises. (Who kills it says nothing of it.)"""
    return -status in {int(each) for each in CRASHES}


def carry_out(holder: Holder, decided: Decision, words: str, now: float) -> None:
    """Does what was decided."""
    holder.due = now + decided.pause
    match decided.act:
        case NextAct.FINISH:
            return finish(holder, holder.ending or words, decided.status)
        case NextAct.RELEASE:
            return holder.release()
        case NextAct.REOPEN:
            holder.why = words
            holder.answer_waiting('reload', refused=words)     # (the next program may be a long time to come)
            holder.line.end(words, now)
        case NextAct.GO_BACK:
            go_back(holder)
        case NextAct.NEW_LOG:
            log_line(Severity.ERROR, f'{holder.why}: the log is put aside, and a new one begins')
            holder.log.close()
            rename_over(log := f'{holder.folder}/log', f'{log}.damaged')
            holder.lost = ANEW
        case NextAct.MOVE_LOG:
            move_folder(holder, holder.why)
        case _ if decided.pause:
            log_line(Severity.ERROR, f'{holder.why}: the next one begins in {decided.pause:g} s')
    if decided.act is not NextAct.START or decided.pause:     # (else the next one does it: calls wait)
        holder.publish()


def go_back(holder: Holder) -> None:
    """The version before comes back."""
    log_line(Severity.ERROR, f'reload: refused, the version before comes back: {holder.why}')
    holder.versions.roll_back()
    holder.answer_waiting('reload', refused=f'the version before comes back: {holder.why}')
    holder.why = 'the version before comes back'


def finish(holder: Holder, why: str, status: int) -> None:
    """No other program follows."""
    log_line(Severity.ERROR if status else Severity.NOTICE, f'ends: {why}')
    holder.store.notify('STOPPING=1')
    holder.reloads.close()
    holder.answer_waiting(*(each.word for each in holder.requests), refused=why)
    is_kept = bool(holder.options.is_saved and is_there(f'{holder.folder}/log')) and not save(holder)
    holder.status = 1 if is_kept else status
    holder.line.close()
    holder.sockets.close_others(())
    holder.store.forget()
    holder.door.close()
    if not is_kept:
        for folder in {holder.folder, holder.options.folder}:
            remove_whole(folder)


def remove_whole(folder: str) -> None:
    """Removes a folder, in which others may write in this moment: by its name nobody finds it any more."""
    import shutil
    with suppress(OSError):
        os.rename(folder, gone := f'{folder}.ended')
        folder = gone
    shutil.rmtree(folder, ignore_errors=True)


def save(holder: Holder) -> bool:
    """Whether the state behind the whole log is in its file."""
    version = holder.versions.now
    if not version:
        return False
    asked = JobRequest('save', program=version.program, config=version.its.config(), state=holder.options.state,
                       log=f'{holder.folder}/log', wait=holder.options.wait)
    if why := Job(asked, [version.program]).wait_for_answer().why_not:
        log_line(Severity.ERROR, f'the state is not saved, and the log stays: {why}')
    return not why
