"""Of a trunk that two machines have: this holder takes it, with the log that was fed here, or releases it."""
from __future__ import annotations

import re
from typing import TYPE_CHECKING

from e1gw_common.fault_words import words_of_fault
from .decisions import EndReason
from .journal import Severity, log_line
from .lifecycle import ANEW
from .log import is_there, process_that_locks, remove, rename_over, silence_of
from .requests import HolderRequest

if TYPE_CHECKING:
    from .holder import Holder

MOST_AGE = 60.0             # seconds after which what was fed is of no use
CHANGES = re.compile(r'take( \d{1,5})?|release')     # the number is that of the next packet, of a line that has packets
REVERSE = 'the reverse was asked for meanwhile'


def change_role(holder: Holder, request: HolderRequest, now: float) -> None:
    """The holder is to have the trunk from now on, or not. What is asked for twice is done once."""
    is_active, program = request.word == 'take', holder.program
    if is_active is not holder.is_active:
        if program:                         # (what it has is there)
            holder.request_end(EndReason.TAKEN_BACK if is_active else EndReason.RELEASE, now)
        elif is_active:
            take_log(holder, now)
            holder.line.number = int(request.text[5:]) & 0xffff if request.text[5:] else None
        holder.is_active, holder.due = is_active, now
        holder.answer_waiting('release' if is_active else 'take', refused=REVERSE)
    if is_active and program and program.is_up and not program.asked:
        return request.answer_done()
    holder.requests.append(request)
    if not (is_active or program):
        holder.release()
    holder.publish()


def take_log(holder: Holder, now: float) -> None:
    """What was fed here is the log. The trunk begins anew if there is none, or it is old."""
    log, fed = f'{holder.folder}/log', f'{holder.folder}/fed'
    holder.why, holder.was_up, holder.lost, holder.down_since = 'promoted', True, '', now
    holder.log.close()
    remove(log)
    if is_there(fed) and (age := silence_of(fed)) <= MOST_AGE:
        holder.down_since -= age
        move_log(holder, fed, log)
        holder.log.hold(log)
    else:
        holder.lost = ANEW
    remove(fed)


def move_log(holder: Holder, fed: str, log: str) -> None:
    """What was fed is in its place. It is copied if a process has it locked, who may hang, and write to it later."""
    try:
        if process_that_locks(fed):
            holder.log.hold(fed)
            holder.log.put_back(log)
    except OSError as fault:
        log_line(Severity.WARNING, f'{words_of_fault(fault)}: what was fed is not copied')
    if not is_there(log):
        rename_over(fed, log)


def give_log(holder: Holder) -> None:
    """What this machine knows of a trunk that it has no more is as if the other one had fed it."""
    holder.log.close()
    try:
        rename_over(f'{holder.folder}/log', f'{holder.folder}/fed')
    except OSError as fault:
        log_line(Severity.ERROR, f'{words_of_fault(fault)}: what is known of the trunk is lost')
