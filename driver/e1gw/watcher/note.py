"""What a process notes for the next one, in files. None of it is needed for a call to go on."""
from __future__ import annotations

import os
import zlib
from contextlib import suppress

from e1gw_common.writers import write_at
from ..log_folder import HEAD_LEN, Head, head_of

NOTES = 'note.0', 'note.1'  # the files of the note, in its folder
ROOM = 64 << 10             # octets that each of them has from the first note on


class NoteFiles:
    """The files of the note, written in turn, each behind a head as a file of a log has it. So neither a full folder
    nor a death in the midst of a write takes away what was noted."""

    def __init__(self, folder: str) -> None:
        self._paths = [os.path.join(folder, name) for name in NOTES]
        self._turn, self._text = max(map(self._read, (0, 1)))[0], b''

    def _read(self, number: int) -> tuple[int, bytes]:
        """The turn in which a file was written, and its octets; none if it is not whole."""
        with suppress(OSError), open(self._paths[number], 'rb') as file:
            head = head_of(octets := file.read())
            text = octets[HEAD_LEN:HEAD_LEN + head.length] if head else b''
            if head and zlib.adler32(text) == head.sum:
                return head.turn, text
        return 0, b''

    def read(self) -> bytes:
        """What was noted last; nothing if there is no note."""
        return max(map(self._read, (0, 1)))[1]

    def write_text(self, text: bytes) -> None:
        """Notes this, unless it is there. OSError if it does not go: then what was noted before is there."""
        if text == self._text and all(map(os.path.exists, self._paths)):
            return
        turn = self._turn + 1
        file = os.open(self._paths[turn % 2], os.O_WRONLY | os.O_CREAT | os.O_CLOEXEC, 0o600)
        try:
            os.posix_fallocate(file, 0, max(ROOM, HEAD_LEN + len(text)))
            write_at(file, text, HEAD_LEN)
            write_at(file, Head(turn, len(text), zlib.adler32(text)).spell(), 0)
        finally:
            os.close(file)
        self._turn, self._text = turn, text
