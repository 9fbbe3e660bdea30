"""Both ends of a trunk for scripts: `e1gw serve` as a process, and the exchange that its trunk leads to."""
import subprocess
from typing import NoReturn

from e1gw_common.session import FRAME, HEAD, MULTIFRAME, Command, Kind, command_record, trunk_record

FAS, NFAS = 0x9B, 0xDF      # slot 0: the frame alignment signal, and the octet between two of them
REMOTE_ALARM = 0x20         # bit A of the octet between two signals
MULTIFRAME_ALARM = 0x04     # bit y of slot 16 in frame 0
IDLE_OCTET = {'A': 0xD5, 'mu': 0xFF}

# The pairs ab of ITU-T Q.421.
SEIZED, ANSWERED, IDLE, ACKNOWLEDGED = 0b00, 0b01, 0b10, 0b11

COMMANDS = {command.word: command for command in Command}


class ServeProcess:
    """A running `e1gw serve`, or another subcommand that answers records. What it was given and what it has written is
    kept, record by record."""

    def __init__(self, program: str, config: str, *options: str, subcommand: str = 'serve',
                 stderr: int | None = None) -> None:
        self.process: subprocess.Popen[bytes] = subprocess.Popen(
            [program, subcommand, '--config', config, *options], stdin=subprocess.PIPE, stdout=subprocess.PIPE,
            stderr=stderr)
        assert self.process.stdin and self.process.stdout
        self.input, self.output = self.process.stdin, self.process.stdout
        self.given: list[bytes] = []
        self.answered: list[bytes] = []

    def give(self, given: bytes) -> None:
        """Gives it a record."""
        self.given.append(given)
        try:
            self.input.write(given)
            self.input.flush()
        except BrokenPipeError:
            self._on_exit()

    def answer(self) -> bytes:
        """The body of the next answer, behind what is sent before it."""
        while len(head := self.output.read(4)) == 4:
            body: bytes = self.output.read(HEAD.unpack(head)[2])
            self.answered.append(head + body)
            if head[0] != Kind.DATAGRAM:
                return body
        self._on_exit()

    def passes(self, record: bytes) -> bytes:
        """Gives it a record; returns the body of the answer."""
        self.give(record)
        return self.answer()

    def _on_exit(self) -> NoReturn:
        raise SystemExit(f'e1gw serve has ended with status {self.process.wait()}')

    def trunk(self, octets: bytes) -> bytes:
        """Gives it octets of the trunk; returns as many that it sends."""
        return self.passes(trunk_record(octets))

    def command(self, circuit: int, name: str) -> int:
        """An operator's command; returns 0, or the number of the fault."""
        return self.passes(command_record(circuit, COMMANDS[name]))[1]

    def end(self) -> int:
        """Ends its input and returns its status."""
        self.input.close()
        self.answered.append(self.output.read())
        return self.process.wait()

    def close(self) -> None:
        """Ends what is left."""
        self.process.kill()
        self.process.wait()
        self.input.close()
        self.output.close()


class Exchange:
    """The exchange at the other end of a trunk: it sends multiframes, and reads those that come back."""

    def __init__(self, law: str = 'A') -> None:
        self.silence = bytes([IDLE_OCTET[law]])
        self.pairs = {circuit: IDLE for circuit in range(1, 31)}     # the line signals that it sends
        self.speech: dict[int, bytearray] = {}      # by circuit: octets that wait to be sent
        self.heard: dict[int, bytearray] = {}       # by circuit: octets received since the first multiframe
        self.signals: dict[int, int] = {}           # by circuit: the pair of the last multiframe
        self.aligned = False        # a multiframe was found in what is received
        self.remote_alarms = True   # the other end has no frame alignment, or no multiframe alignment
        self.received = bytearray()

    def multiframe(self) -> bytes:
        """The next 16 frames."""
        out = bytearray(self.silence) * MULTIFRAME
        out[0::2 * FRAME] = bytes([FAS]) * 8
        out[FRAME::2 * FRAME] = bytes([NFAS]) * 8
        out[16] = 0x0B
        for circuit in range(1, 16):
            # The bits cd are 01.
            high, low = (self.pairs[c] << 2 | 1 for c in (circuit, circuit + 15))
            out[circuit * FRAME + 16] = high << 4 | low
        for circuit, waiting in self.speech.items():
            piece, waiting[:] = waiting[:16], waiting[16:]
            out[slot_of(circuit)::FRAME] = piece.ljust(16, self.silence)
        return bytes(out)

    def receive(self, octets: bytes) -> None:
        """Takes what the gateway sent: finds its frames and multiframes once, then reads each multiframe."""
        self.received += octets
        if not self.aligned:
            start = first_multiframe(self.received)
            if start is None:
                return
            self.aligned = True
            del self.received[:start]
        while len(self.received) >= MULTIFRAME:
            self._read(bytes(self.received[:MULTIFRAME]))
            del self.received[:MULTIFRAME]

    def _read(self, multiframe: bytes) -> None:
        if not is_multiframe(multiframe, 0):
            raise SystemExit('the exchange has lost the alignment of what the gateway sends')
        self.remote_alarms = bool(multiframe[FRAME] & REMOTE_ALARM or multiframe[16] & MULTIFRAME_ALARM)
        for circuit in range(1, 31):
            self.heard.setdefault(circuit, bytearray()).extend(multiframe[slot_of(circuit)::FRAME])
            signals = multiframe[(circuit - 1) % 15 * FRAME + FRAME + 16]
            self.signals[circuit] = (signals >> 4 if circuit < 16 else signals & 15) >> 2


def slot_of(circuit: int) -> int:
    """The time slot of a circuit: slots 0 and 16 are not for speech."""
    return circuit if circuit < 16 else circuit + 1


def is_multiframe(octets: bytes | bytearray, at: int) -> bool:
    """A multiframe begins there: eight frame alignment signals (ITU-T G.704, 2.3), and the multiframe's own."""
    slots = octets[at:at + MULTIFRAME:FRAME]
    signalling = octets[at + 16:at + MULTIFRAME:FRAME]
    return (len(signalling) == 16 and all(octet & 0x7F == FAS & 0x7F for octet in slots[0::2])
            and all(octet & 0x40 for octet in slots[1::2])
            and signalling[0] & 0xF0 == 0 and all(octet & 0xF0 for octet in signalling[1:]))


def first_multiframe(octets: bytes | bytearray) -> int | None:
    """Where the first multiframe begins, or None. A seized circuit's 0001 is no multiframe signal, 0000 is."""
    for at in range(len(octets) - MULTIFRAME + 1):
        if octets[at] & 0x7F == FAS & 0x7F and is_multiframe(octets, at):
            return at
    return None
