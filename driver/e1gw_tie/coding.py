"""The codec of each circuit of a tie: G.711 until the call is answered, then the configured one.

The codec follows from the state of the local line alone, and the tie brings the two ends of a call to the same state.
So a missed change is made later. Between the two changes each end refuses the packets of the other codec by their
payload type, and plays silence."""
from __future__ import annotations

from dataclasses import dataclass
from typing import Callable, Iterable, NamedTuple

from e1gw_common.lines import State
from .events import CodecGiven, Tell, Warned
from .trunk import FollowedTrunk, TrunkLink


class Coding(NamedTuple):
    """A codec and its RTP payload type, as the command `codec` takes them."""

    codec: str
    payload: int


SIGNALLING = {'pcma': Coding('pcma', 8), 'pcmu': Coding('pcmu', 0)}     # with their static types, RFC 3551, section 6
DYNAMIC = range(96, 128)
LAWS = {'A': 'pcma', 'mu': 'pcmu'}
ANSWERED = frozenset((State.ANSWERED, State.CLEAREDBACK))


@dataclass
class CircuitCoding:
    """The codecs of a circuit, and whether a change is under way."""

    configured: Coding
    present: Coding
    refused: Coding | None = None
    is_changing: bool = False

    def wanted(self, state: State, own: str | None, far: str | None) -> Coding | None:
        """The codec to give it in this state, where the sites have these until the answer; None if it has it, or was
        refused it: a refused change is retried only when another was needed."""
        found = self.configured
        if own and far == own and state not in ANSWERED and found.codec != own:
            found = SIGNALLING[own]
        return None if self.is_changing or found in (self.present, self.refused) else found


class CodecChanges:
    """Gives each circuit here the codec that it needs, by one change at a time. `asked` is the codec until the answer;
    without one codecs are left alone. `look` looks at a circuit again once a change is answered."""

    def __init__(self, asked: str | None, trunk: TrunkLink, tell: Tell, look: Callable[[int], None]) -> None:
        self.own: str | None = None             # the same, if the circuits here can have it; sent to the other site
        self._asked, self._trunk, self._tell, self._look = asked, trunk, tell, look
        self._heard: list[str | None] = []      # the other site's codec, once it is connected
        self._circuits: dict[int, CircuitCoding] = {}

    def begin(self, status: FollowedTrunk) -> None:
        """Takes the circuits of the trunk, and warns if they cannot have the codec asked for."""
        if self._asked is None:
            return
        self._circuits = {line.circuit: CircuitCoding(Coding(line.configured_codec, line.configured_payload),
                                                      Coding(line.codec, line.payload))
                          for line in (row.line for row in status.circuits)}
        fixed = [str(n) for n, each in self._circuits.items()
                 if each.configured.codec != self._asked and each.configured.payload not in DYNAMIC]
        self.own = None
        if LAWS.get(status.law) != self._asked:
            self._warn(f'{self._asked} does not match the law of this trunk')
        elif fixed:
            self._warn(f'the payload type of circuits {", ".join(fixed)} is not in 96 to 127')
        else:
            self.own = self._asked

    def _warn(self, why: str) -> None:
        self._tell(Warned(f'calls use their configured codec from the start: {why}'))

    def on_far_codec(self, far: str | None) -> None:
        """Takes the other site's codec, and warns if it is not this one's."""
        if self._heard != [far]:
            self._heard = [far]
            if self.own and far != self.own:
                self._warn(f'the other site has --until-answer {far}' if far else
                           'the other site has no --until-answer')

    def on_codec(self, n: int, coding: Coding) -> None:
        """Takes the codec that a circuit has."""
        circuit = self._circuits.get(n)
        if circuit and not circuit.is_changing:
            circuit.present = coding

    def give_codec(self, n: int, state: State) -> None:
        """Gives a circuit in this state the codec that it needs; none before the other site is connected."""
        circuit = self._circuits.get(n)
        if circuit and self._trunk.is_up and self._heard:
            if wanted := circuit.wanted(state, self.own, self._heard[0]):
                circuit.is_changing = True
                self._trunk.begin(self._change(n, circuit, wanted))

    async def _change(self, n: int, circuit: CircuitCoding, coding: Coding) -> None:
        answer = await self._trunk.answer(f'codec {n} {coding.codec} {coding.payload} auto')
        circuit.is_changing = False
        if answer is None:
            return
        self._tell(CodecGiven(n, coding.codec, coding.payload, answer.short))
        circuit.present, circuit.refused = (coding, None) if answer.is_done else (circuit.present, coding)
        self._look(n)

    async def restore(self, idle: Iterable[int]) -> None:
        """Restores the configured codec of these circuits, before the end."""
        circuits, self._circuits = self._circuits, {}
        for n in idle:
            if n in circuits and circuits[n].configured != circuits[n].present and self._trunk.is_up:
                await self._change(n, circuits[n], circuits[n].configured)
