"""Numbers of the packets of an emulated circuit, by what is in the folder of its trunk: the number with which `e1gw
satop` has begun, and what it has said since. The holder goes on with them, and the other machine of a pair."""
from __future__ import annotations

import json
import os
import time
from typing import NamedTuple

from e1gw_common.writers import put_file
from .holder_state import plain_in

OCTETS_A_SECOND = 256_000
ENDS = '.ends'              # behind the path of what the process says: a file with how it began


def next_number(first: int, lines: list[str], seconds: float, size: int) -> int:
    """The number of the next packet behind those of a process that began with the first one: by how many it said last
    that it had sent, and the seconds since. (A few more or less are within the window of the far end.)"""
    sent = 0
    for line in lines:
        words = dict(word.partition('=')[::2] for word in line.split()[1:]) if line.startswith('satop ') else {}
        sent = int(words['sent']) if words.get('sent', '').isdecimal() else sent
    return first + sent + round(max(0.0, seconds) * OCTETS_A_SECOND / size) & 0xffff


def lines_in(path: str) -> list[str]:
    """What the process has said."""
    try:
        with open(path, encoding='utf-8', errors='replace') as file:
            return file.read().splitlines()
    except OSError:
        return []


class SatopBegun(NamedTuple):
    """How the process began: the ends and options as they were `asked` for, and as it has them, in `words`; and the
    number of its first packet. Empty if that is not known."""

    asked: tuple[str, ...] = ()
    words: tuple[str, ...] = ()
    first: int | None = None

    def write_to(self, path: str) -> None:
        put_file(f'{path}{ENDS}', json.dumps(self._asdict()).encode(), 0o640)


def begun_in(path: str) -> SatopBegun:
    """How the process began that says something at a path."""
    plain = plain_in(f'{path}{ENDS}')
    texts = {name: tuple(its) for name in ('asked', 'words') if isinstance(its := plain.get(name), list)}
    return SatopBegun(**texts, first=first if isinstance(first := plain.get('first'), int) else None)


class PacketNumber(NamedTuple):
    """That of the next packet, and the octets of each."""

    number: int
    size: int

    def zero(self, octets: int) -> int:
        """That of the packet with the trunk's octet 0, if this number of octets came before the next one."""
        return self.number - octets // self.size & 0xffff


def number_of_now(path: str) -> PacketNumber | None:
    """That of now; None if no process has begun there."""
    begun = begun_in(path)
    words, first = begun.words, begun.first
    if first is None or '--size' not in words[:-1]:
        return None
    size = int(words[words.index('--size') + 1])
    try:
        since = time.time() - os.stat(path).st_mtime
    except OSError:
        return PacketNumber(first, size)
    return PacketNumber(next_number(first, lines_in(path), since, size), size)
