"""What a process notes for the one that it becomes, which has its descriptors."""
from __future__ import annotations

import json
from typing import Mapping, NamedTuple, Sequence

Identity = tuple[int, int]      # by which a file is known again: its device and its inode


class HeldLineNote(NamedTuple):
    """Of the line: the process of an emulated circuit, its words, and why it has ended."""

    pid: int = 0
    words: Sequence[str] = ()
    why: str = ''


class HolderNote(NamedTuple):
    """The program, the line, e1gw-watch. `files` are the descriptors by their names, `kept`
    those that systemd keeps."""

    child: int
    line: HeldLineNote
    watcher: int = 0
    files: Mapping[str, int] = {}
    kept: Mapping[str, Identity] = {}

    def spell(self) -> str:
        return json.dumps({**self._asdict(), 'line': self.line._asdict()})


def note_in(text: str) -> HolderNote:
    """The note that a text is."""
    plain = json.loads(text)
    line = HeldLineNote(**{name: its for name, its in plain['line'].items() if name in HeldLineNote._fields})
    kept = {name: (device, inode) for name, (device, inode) in plain['kept'].items()}
    return HolderNote(plain['child'], line, plain.get('watcher', 0), plain['files'], kept)
