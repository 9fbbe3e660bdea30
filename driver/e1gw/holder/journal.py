"""What a holder says on standard error. It waits for nobody: a line for which there is no room is lost."""
from __future__ import annotations

import os
import select
from enum import IntEnum

NAME, MOST_OCTETS = 'e1gw-trunk', 4000


class Severity(IntEnum):
    """As syslog(3) has them."""

    ERROR = 3
    WARNING = 4
    NOTICE = 5


def log_line(level: Severity, words: str) -> None:
    """Says a line: to systemd's journal with its level, else with the name of the command."""
    front = f'<{int(level)}>' if 'JOURNAL_STREAM' in os.environ else f'{NAME}: '
    line = front + ' '.join(words.splitlines())
    try:
        if select.select([], [2], [], 0)[1]:
            os.write(2, line.encode(errors='replace')[:MOST_OCTETS] + b'\n')
    except OSError:
        pass


def report_failure(fault: BaseException, before: str) -> None:
    """Reports a failure of a holder that goes on, with its place, unless it is the one before."""
    if str(fault) == before:
        return
    at = fault.__traceback__
    while at and at.tb_next:
        at = at.tb_next
    where = f' ({os.path.basename(at.tb_frame.f_code.co_filename)}:{at.tb_lineno})' if at else ''
    log_line(Severity.ERROR, f'the holder goes on: {type(fault).__name__}: {fault}{where}')
