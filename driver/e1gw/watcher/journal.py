"""Lines for the operator, by the logging of Python: one thread writes them, so no slow disk or reader is waited for.
--debug has tracebacks, too."""
from __future__ import annotations

import logging
import logging.handlers
import os
import queue
import sys
import threading

from e1gw_common.line_files import MOST_WAITING
from ..events import Event, Level

MOST, MINUTE = 20, 60.0             # lines of a kind in a minute
NOTICE = 25                         # between INFO and WARNING
LEVELS = {logging.ERROR: 3, logging.WARNING: 4, NOTICE: 5, logging.INFO: 6, logging.DEBUG: 7}       # of syslog
PACKAGES = 'e1gw', 'e1gw_common'     # whose lines these are
FLUSH = 2.0                         # seconds at the end for what is not written yet

logger = logging.getLogger(__name__)


class LineLimit(logging.Filter):
    """Lets MOST lines of a kind through in a minute, and then says how many more there were. The kind of a line is
    given as extra={'kind': ..}; lines without one all pass."""

    def __init__(self) -> None:
        super().__init__()
        self._kinds: dict[str, tuple[float, int]] = {}

    def filter(self, record: logging.LogRecord) -> bool:
        kind = getattr(record, 'kind', None)
        if kind is None:
            return True
        began, told = self._kinds.get(kind, (-MINUTE, 0))
        if not 0 <= record.created - began < MINUTE:        # (the clock may have been set back)
            if told > MOST:
                more = f'{kind}: .. and {told - MOST} more in the last minute'
                record.msg, record.args = f'{more}\n{record.getMessage()}', None
            began, told = record.created, 0
        self._kinds[kind] = began, told + 1
        return told < MOST


class LineFormatter(logging.Formatter):
    """Before each line the level where the journal of systemd reads it (systemd.exec(5)), else the program's name."""

    def __init__(self, name: str) -> None:
        super().__init__()
        about = os.fstat(2)
        self._has_levels = os.environ.get('JOURNAL_STREAM') == f'{about.st_dev}:{about.st_ino}'
        self._name = name

    def format(self, record: logging.LogRecord) -> str:
        front = f'<{LEVELS.get(record.levelno, 6)}>' if self._has_levels else f'{self._name}: '
        return front + super().format(record).replace('\n', f'\n{front}')


class ServiceJournal:
    """Standard error, from the first line to the last."""

    def __init__(self, name: str) -> None:
        waiting = queue.Queue[logging.LogRecord](MOST_WAITING)
        writes = logging.StreamHandler(sys.stderr)
        writes.setFormatter(LineFormatter(name))
        sends = logging.handlers.QueueHandler(waiting)
        setattr(sends, 'handleError', lambda record: None)      # (a line for which there is no room is not kept)
        sends.addFilter(LineLimit())
        for name, level in (*((each, logging.INFO) for each in PACKAGES), ('asyncio', logging.ERROR)):
            its = logging.getLogger(name)
            its.setLevel(level)
            its.propagate = False
            its.handlers[:] = [sends]
        self._listener = logging.handlers.QueueListener(waiting, writes)
        self._listener.start()

    def close(self) -> None:
        """Waits until all is written, FLUSH at most."""
        stops = threading.Thread(target=self._listener.stop, daemon=True)
        stops.start()
        stops.join(FLUSH)


def tell_journal(event: Event) -> None:
    """What an operator is to read."""
    if (level := event.level()) is not Level.SILENT:
        number = NOTICE if level is Level.NOTICE else logging.WARNING
        logger.log(number, '%s', event.words(), extra={'kind': event.name})
