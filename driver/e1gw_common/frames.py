"""Octets of a trunk where a session is wanted: whether they are some, and the command that makes a session of them."""
from __future__ import annotations

from collections.abc import Iterator

from .session import FRAME

FAS, DOUBLE = 0x1B, 2 * FRAME       # the frame alignment signal without its first bit; frames come in pairs
SIGNALS = 8                         # that are found one after another
MOST_WRONG = 3                      # signals in a row that are errored
ENOUGH = 4096                       # octets that are looked at
REVERSED = bytes(int(f'{octet:08b}'[::-1], 2) for octet in range(256))


def is_frame(octets: bytes | bytearray, at: int) -> bool:
    """Whether frames with and without the frame alignment signal begin there by turns."""
    return (all(octet & 0x7F == FAS for octet in octets[at:at + SIGNALS * DOUBLE:DOUBLE])
            and all(octet & 0x40 for octet in octets[at + FRAME:at + SIGNALS * DOUBLE:DOUBLE]))


class FrameSearch:
    """Finds the frames in octets of a trunk that come in pieces, again behind each loss of alignment."""

    def __init__(self, place: int = 0) -> None:
        """The first octet has this place."""
        self.losses = list[int]()           # places at which alignment was lost
        self._held, self._place, self._aligned, self._wrong = bytearray(), place, False, 0

    def take(self, octets: bytes) -> Iterator[tuple[int, bytes]]:
        """Takes octets. Whole pairs of frames, one or more, with the place of the first octet."""
        self._held += octets
        while len(self._held) >= (DOUBLE if self._aligned else (SIGNALS + 1) * DOUBLE):
            if not self._aligned:
                at = next((at for at in range(DOUBLE) if is_frame(self._held, at)), None)
                self._aligned, self._wrong = at is not None, 0
                self._drop(DOUBLE if at is None else at)
                continue
            signals = bytes(self._held[:len(self._held) // DOUBLE * DOUBLE:DOUBLE])
            count = len(signals) - len(signals.lstrip(bytes([FAS, FAS | 0x80])))
            self._wrong = 0 if count else self._wrong + 1
            if self._wrong == MOST_WRONG:
                self.losses.append(self._place)
                self._aligned = False
                continue
            size = max(count, 1) * DOUBLE
            yield self._place, bytes(self._held[:size])
            self._drop(size)

    def _drop(self, size: int) -> None:
        self._place += size
        del self._held[:size]


def is_trunk(octets: bytes) -> bool:
    """Whether frames begin anywhere in octets, aligned to time slots."""
    return len(octets) >= (SIGNALS + 1) * DOUBLE and any(is_frame(octets, at) for at in range(DOUBLE))


def shifted(octets: bytes, bits: int) -> bytes:
    """The octets that begin a number of bits later."""
    number = int.from_bytes(octets, 'big') << bits
    return number.to_bytes(len(octets) + 1, 'big')[1:-1]


def raw_words(octets: bytes, name: str) -> str | None:
    """What octets are that are no session, with the command that makes one of them; None if they are no trunk."""
    octets = octets[:ENOUGH]
    for turned, how in ((octets, ''), (octets.translate(REVERSED), ' --reverse')):
        if is_trunk(turned):
            what = 'octets of a trunk, the bits of each in reverse order' if how else 'octets of a trunk'
            return f'these are {what}, and no session: e1gw-records --from-raw{how} {name} > trunk.rec'
        if any(is_trunk(shifted(turned, bits)) for bits in range(1, 8)):
            first = f'e1gw-records --from-raw{how} {name} | e1gw-records --to-raw | e1gw align' if how \
                else f'e1gw align < {name}'
            return ('these are octets of a trunk that begin at any bit, and no session: '
                    f'{first} | e1gw-records --from-raw > trunk.rec')
    return None


def raw_words_of(path: str) -> str | None:
    """The same of a file; None where it cannot be read again."""
    try:
        with open(path, 'rb') as file:
            return raw_words(file.read(ENOUGH), path)
    except OSError:
        return None
