"""The lines of calls: a file of CSV, and those that it has followed."""
from __future__ import annotations

import csv
import io
import time
from collections.abc import Iterable, Iterator
from typing import NamedTuple

from .line_files import files_of


class CallLine(NamedTuple):
    """A line of a call, by its fields."""
    trunk: str
    circuit: str
    direction: str
    seized: str
    answered: str
    ended: str
    by: str
    codec: str
    sent: str
    received: str
    lost: str
    late: str
    call: str
    discarded: str = ''
    cause: str = ''


FIELDS = CallLine._fields
FEWEST = len(FIELDS) - len(CallLine._field_defaults)    # of a line of an older version


def read_calls(path: str, word: str = '') -> Iterator[CallLine]:
    """The lines of calls in a file and those that it has followed, those with a word in them, the last one first."""
    for each in files_of(path):
        with open(each, encoding='utf-8', errors='replace', newline='') as file:
            lines = [line for line in file if word in line and line.endswith('\n')]
        rows = [row for row in csv.reader(lines) if len(row) >= FEWEST and row[1].isdecimal()]
        yield from (CallLine(*row[:len(FIELDS)]) for row in reversed(rows))


def csv_line(fields: Iterable[object]) -> str:
    text = io.StringIO()
    csv.writer(text, lineterminator='').writerow(fields)
    return text.getvalue()


def moment(seconds: float | None) -> str:
    """A time of day in UTC, with milliseconds; nothing if there is none."""
    if seconds is None:
        return ''
    return time.strftime('%Y-%m-%dT%H:%M:%S', time.gmtime(seconds)) + f'.{int(seconds * 1000) % 1000:03}Z'
