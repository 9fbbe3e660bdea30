"""What a program tells (--tell, e1gw-tell(5)): the whole state of a trunk, then each change, line by line."""
from __future__ import annotations

import time
from typing import Callable

from e1gw_common.lines import IN_CALL, LEADS, OPEN, PAIRS, Alignment, Line, Role, State, TrunkConfig
from e1gw_common.session import Codec, Command, codec_record, command_record
from ..counts import DatagramCounts, ToldCounts
from ..events import (AlarmChanged, AlignmentFound, AlignmentLost, CodecChanged, LineChanged, Placed,
                      RemoteAlarmChanged)
from ..status import CircuitStatus, ToldStatus

VERSION = '1'
MOST_LINE = 4096            # octets of a line
BITS = {text: pair for pair, text in PAIRS.items()}


class BadTelling(Exception):
    """A report is not understood; the words say what it is."""


class TrunkState:
    """The lines and the alarms of a trunk, as a program tells them. Its clock is this machine's. `tell` is called with
    each change, `began` with each whole state."""

    def __init__(self, config: TrunkConfig, tell: Callable[[Placed], None], counts: DatagramCounts,
                 clock: Callable[[], float] = time.monotonic, began: Callable[[], None] = lambda: None) -> None:
        self.law, self.lines, self.report_event = config.law, config.lines(), tell
        self.counts, self.began, self._clock = counts, began, clock
        self.on_command_told: Callable[[bytes], None] = lambda record: None     # a C or K record was given
        self.place = 0                      # octets of the trunk so far
        self.losses = {each: 0 for each in Alignment}
        self.alarms = {each: False for each in Alignment}       # that the gateway sends
        self.remote = {each: False for each in Alignment}       # that the other end sends
        self.known = False                  # whether a whole state was ever told
        self.live = False                   # whether changes are reported now
        self.begun = 0                      # the place at which this session has begun
        self._held = ''
        self.seizures: dict[int, int] = {}  # how often each line was seized in this session
        self._led: dict[int, State] = {}    # where commands have led lines whose state is still to be told
        self._greeting: dict[str, Callable[..., None]] = {'e1gw': self._greet}
        self._changes: dict[str, Callable[..., None]] = {
            'at': self._at, 'alarms': self._alarms, 'line': self._row, 'seizures': self._seizures, 'now': self._now,
            'counts': self._counts, 'command': self._command, 'codec': self._change}
        self._words = self._greeting        # those that may come now

    def outage(self) -> str | None:
        """Why no seizure can reach the other end, or None."""
        if any(self.alarms.values()):
            return 'no alignment'
        return 'the other end has no alignment' if any(self.remote.values()) else None

    def open_circuits(self) -> list[int]:
        return [n for n, line in self.lines.items() if line.state in OPEN]

    def status(self) -> ToldStatus:
        """What was told of the trunk."""
        return ToldStatus(self.place, law=self.law, alarm={**self.alarms}, remote_alarm={**self.remote},
                          losses={**self.losses})

    def rows(self) -> list[CircuitStatus]:
        """What was told of each circuit."""
        now = self._clock()
        return [CircuitStatus(line=line.status(now, self.known), packets=self.counts.status(n))
                for n, line in self.lines.items()]

    def begin(self, place: int | None = None) -> None:
        """A program is there that will tell the whole state; its session has begun at this place, by default that of
        now."""
        if place is None or place != self.begun:
            self.counts.begin()
        self.begun = self.place if place is None else place
        self._held, self.live, self._words = '', False, self._greeting
        self._led.clear()
        self.seizures = {}

    def configure(self, config: TrunkConfig) -> None:
        """This is the configuration of the program that tells from now on."""
        for n, line in config.lines().items():
            its = self.lines[n]
            its.prefill, its.port, its.configured = line.prefill, line.port, line.configured

    def replay_until(self, place: int, clock: Callable[[], float]) -> TrunkState:
        """What is told of these lines, from this place on, by another one that tells, with counts of its own."""
        again = TrunkState(TrunkConfig(), self.report_event, DatagramCounts(), clock)
        again.lines, again.alarms, again.remote, again.losses = self.lines, self.alarms, self.remote, self.losses
        again.known = self.known
        again.begin(place)
        return again

    def on_disconnect(self) -> None:
        """Nobody tells any more."""
        self.live, self.counts.ended = False, 'nobody tells'

    def take(self, octets: bytes) -> None:
        """Octets of reports. BadTelling if they are not understood; what comes before that was done."""
        *lines, self._held = (self._held + octets.decode('ascii', 'replace')).split('\n')
        if len(self._held) > MOST_LINE:
            raise BadTelling(f'a line of more than {MOST_LINE} octets')
        for line in lines:
            name, *words = line.split() or ['']
            word = self._words.get(name)
            if word is None and self._words is self._greeting:
                raise BadTelling(f'it does not begin with "e1gw tell": {line[:80]}')
            if word:            # (others are of a later version)
                try:
                    word(*words)
                except (KeyError, TypeError, ValueError):
                    raise BadTelling(f'not understood: {line[:80]}') from None

    def _greet(self, tell: str, version: str, law: str) -> None:
        if (tell, version) != ('tell', VERSION):
            raise BadTelling(f'it speaks version {version}, and {VERSION} is known')
        self.law = law
        self._words = self._changes

    def _at(self, place: str) -> None:
        self.place = self.begun + int(place)

    def _seizures(self, *counts: str) -> None:
        self.seizures = {n: int(count) for n, count in zip(self.lines, counts, strict=True)}

    def _now(self) -> None:
        self.live, self.known, self.counts.ended = True, True, None
        self.counts.commit()
        self.began()

    def _alarms(self, frame: str, multiframe: str, far_frame: str, far_multiframe: str) -> None:
        for what, bit in (Alignment.FRAME, frame), (Alignment.MULTIFRAME, multiframe):
            lost = bool(int(bit))
            if self.known and lost is not self.alarms[what]:
                self.losses[what] += lost
                self.report_event(AlignmentLost(what, self.place) if lost else AlignmentFound(what, self.place))
            self._alarm(AlarmChanged, self.alarms, what, lost)
        for what, bit in (Alignment.FRAME, far_frame), (Alignment.MULTIFRAME, far_multiframe):
            self._alarm(RemoteAlarmChanged, self.remote, what, bool(int(bit)))

    def _alarm(self, kind: type[AlarmChanged], alarms: dict[Alignment, bool], what: Alignment, on: bool) -> None:
        if alarms[what] is not on:
            alarms[what] = on
            self.report_event(kind(what, on, self.place))

    def _counts(self, circuit: str, accepted: str, _lost: str, jitter: str, *refused: str) -> None:
        # (Lost packets are those that counts.py counts, from the log.)
        told = ToldCounts(int(accepted), int(jitter), tuple(map(int, refused)))
        if self.live:
            self.counts.count(int(circuit), told, self.place)
        else:
            self.counts.take(int(circuit), told)

    def _command(self, circuit: str, command: str, code: str) -> None:
        line, given = self.lines[int(circuit)], Command(int(command))
        if int(code) == 0:
            line.count_command(given)
            self._led[line.circuit] = LEADS[given]
        self.on_command_told(command_record(line.circuit, given))

    def _change(self, circuit: str, codec: str, payload_type: str, _: str) -> None:
        self.on_command_told(codec_record(int(circuit), Codec(int(codec)), int(payload_type)))

    def _row(self, circuit: str, role: str, state: str, sent: str, recognised: str, *counts: str) -> None:
        """The row of a circuit in the listing."""
        *numbers, codec, payload_type = counts
        line, row = self.lines[int(circuit)], self.counts.circuits[int(circuit)]
        line.role, line.sent, line.recognised = Role(role), BITS[sent], BITS[recognised]
        row.sent, row.admitted, row.refused = map(int, numbers)
        if not self.known:
            line.codec, line.payload = codec, int(payload_type)
            return line.begin(State(state), self._clock())
        if (codec, int(payload_type)) != (line.codec, line.payload):
            line.codec, line.payload = codec, int(payload_type)
            self.report_event(CodecChanged(line.circuit, codec, line.payload, self.place))
        if state != line.state:
            self._change_state(line, State(state))

    def _change_state(self, line: Line, state: State) -> None:
        """A line has another state than was told before."""
        before, line.state = line.state, state
        commanded = self._led.pop(line.circuit, None)
        if before is State.SEIZED and state in (State.RELEASING, State.IDLE) and self.live and not commanded:
            line.unacknowledged += 1
        if line.role is Role.OUTGOING and before is State.IDLE and state in IN_CALL and not commanded:
            line.seizures += 1          # (of which nobody was told)
        line.count_change(before, self._clock())
        self.report_event(LineChanged(line.circuit, line.role, before, state, self.place, None if self.live else True))
