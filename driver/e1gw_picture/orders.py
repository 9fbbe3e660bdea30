"""The order of the code words of G.726 in datagrams: RFC 3551's, the first word lowest, or that of AAL2 (ITU-T I.366.2,
Annex E), the first word highest. Nothing in a datagram tells the two apart, so some are decoded both ways by
`e1gw decode`: what reads like speech in one of them was sent in that one."""
from __future__ import annotations

import subprocess
from collections.abc import Callable, Sequence

from e1gw_common.session import datagram_record
from e1gw_common.sound import HeardSamples, compared, sound
from .facts import BITS

STRETCH = 10                # consecutive datagrams
SETTLES = 4                 # of them those before the decoder has settled, which are ignored
WAITING = 240               # stretches queued for decoding
SECONDS = 30                # seconds for a run of the program
HEADER = bytes([0x80, 96]) + bytes(10)      # RTP, of the payload type that `e1gw decode` has for G.726
OnHeard = Callable[[int, int, HeardSamples], None]    # of a circuit, at a place


def reordered(payload: bytes, bits: int) -> bytes:
    """Words of this number of bits, from the order of AAL2 to that of RFC 3551: eight words are as many octets as a
    word has bits. The rest behind the last eight is left out."""
    mask, out = (1 << bits) - 1, bytearray()
    for at in range(0, len(payload) - bits + 1, bits):
        eight = int.from_bytes(payload[at:at + bits], 'big')
        turned = sum((eight >> shift & mask) << 7 * bits - shift for shift in range(0, 8 * bits, bits))
        out += turned.to_bytes(bits, 'little')
    return bytes(out)


class Orders:
    """Stretches of datagrams, decoded both ways when many are queued or when the page is drawn. Without a program, or
    if it fails, there is no result."""

    def __init__(self, program: str | None, law: str, tell: OnHeard) -> None:
        self.program, self.law, self.tell = program, law, tell
        self.waiting: dict[str, list[tuple[int, int, list[bytes]]]] = {}        # by codec

    def queue(self, circuit: int, place: int, codec: str, payloads: list[bytes]) -> None:
        """A stretch of a circuit's datagrams from a place."""
        stretches = self.waiting.setdefault(codec, [])
        stretches.append((circuit, place, payloads))
        if len(stretches) >= WAITING:
            self.decode_queued()

    def decode_queued(self) -> None:
        """Decodes everything queued."""
        for codec, stretches in self.waiting.items():
            bits = BITS[codec]
            payloads = [payload[:len(payload) // bits * bits] for *_, each in stretches for payload in each]
            own = self._decoded(codec, payloads)
            other = self._decoded(codec, [reordered(payload, bits) for payload in payloads])
            at = 0
            for circuit, place, each in stretches if own and other else ():
                seen = HeardSamples()
                for n, payload in enumerate(each):
                    end = at + len(payload) // bits * 8
                    if n >= SETTLES:
                        seen.join(compared(sound(own[at:end], self.law), sound(other[at:end], self.law)))
                    at = end
                self.tell(circuit, place, seen)
        self.waiting.clear()

    def _decoded(self, codec: str, payloads: Sequence[bytes]) -> bytes:
        """The program's output for payloads, one behind the other; nothing if it fails."""
        given = b''.join(datagram_record(1, HEADER + payload) for payload in payloads)
        words = [self.program or '', 'decode', '--law', {'A': 'a', 'mu': 'mu'}[self.law], '--codec', codec]
        try:
            done = subprocess.run(words, input=given, check=True, stdout=subprocess.PIPE, stderr=subprocess.DEVNULL,
                                  timeout=SECONDS)
        except (OSError, subprocess.SubprocessError):
            return b''
        return done.stdout if len(done.stdout) == sum(map(len, payloads)) // BITS[codec] * 8 else b''
