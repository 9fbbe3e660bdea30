"""One circuit of a tie line: the command that follows from the states of its two ends.

At one end the circuit is incoming, and its exchange seizes it; at the other end it is outgoing, and the gateway seizes
it for each call. Commands follow from states and never from a message, so a lost message is made up for by the next
one. There is no clock here and nothing is sent: `next_command` follows from the circuit's value, the state of the link
and --congestion alone.

The incoming end names each call. The outgoing end keeps the name of the last call passed on to it; so both know whether
the state there belongs to this call, to an earlier one or to none."""
from __future__ import annotations

from dataclasses import dataclass, replace
from enum import Enum

from e1gw_common.lines import IN_CALL, OPEN, Role, State
from e1gw_common.session import Command

NO_CALL = ''        # the name of no call


class LinkState(Enum):
    """The state of the connection to the other end."""

    GOOD = 'good'               # connected, and both trunks are in service
    LOST = 'lost'               # not connected; calls wait
    GIVEN_UP = 'given up'       # not connected for so long that calls are ended


@dataclass(frozen=True, slots=True)
class CircuitEnd:
    """The state of one end, as sent to the other."""

    role: Role
    state: State
    call: str | None            # of its latest call; None: not yet known
    over: bool = False          # the incoming end has given this call up
    passed: str = NO_CALL       # the incoming end: the last call that the outgoing one has named


@dataclass(frozen=True, slots=True)
class TieCircuit(CircuitEnd):
    """One end of a circuit, and what is known of the other."""

    kept: bool = False          # the operator has blocked it, and alone lifts that
    stuck: bool = False         # a release that the exchange does not follow
    far: CircuitEnd | None = None      # None: not yet received, or not joined with this end

    def end(self) -> CircuitEnd:
        """The state to send to the other end. A release that is stuck is a fault to it, and an outgoing circuit that
        the operator has blocked is blocked."""
        is_blocked = self.kept and self.role is Role.OUTGOING and self.state is State.IDLE
        state = State.FAULT if self.stuck else State.BLOCKED if is_blocked else self.state
        return CircuitEnd(self.role, state, self.call, self.over, self.passed)

    def with_state(self, state: State, call: str | None = None) -> TieCircuit:
        """Takes a new state of the line here, with the name of the call that begins in it, if any."""
        begun = call is not None
        return replace(self, state=state, call=call if begun else self.call, over=self.over and not begun, stuck=False)

    def with_far(self, far: CircuitEnd) -> TieCircuit:
        """Takes the state of the other end."""
        if self.role is Role.INCOMING:
            return replace(self, far=far, passed=self.passed if far.call is None else far.call)
        # An end that has forgotten its call learns it from the other one.
        return replace(self, far=far, call=far.passed if self.call is None else self.call)

    def with_attempt(self, call: str) -> TieCircuit:
        """The call was passed on to this outgoing end, done or refused."""
        return replace(self, call=call)

    def marked_over(self, link: LinkState) -> TieCircuit:
        """Marks a call that cannot be set up as given up until it ends."""
        return replace(self, over=True) if not self.over and self.has_lost_other_end(link) else self

    def has_lost_other_end(self, link: LinkState) -> bool:
        """The call at this incoming end has no other end, or none any more."""
        if self.role is not Role.INCOMING or self.state not in OPEN:
            return False
        if self.over or link is LinkState.GIVEN_UP:
            return True
        if link is LinkState.LOST or self.far is None or self.far.call is None:
            return False
        if self.far.call == self.call:
            return self.far.state not in IN_CALL
        # Not yet passed on: possible unless that end is blocked or in fault, or another call was answered here.
        return self.state is not State.ACKED or self.far.state in (State.BLOCKED, State.FAULT)

    def next_command(self, link: LinkState, waits: bool = False) -> Command | None:
        """The command that this end needs now. A call that cannot be set up is reported to its caller, or `waits`."""
        if self.role is Role.OUTGOING:
            return self._outgoing(link)
        return None if waits and self.state is State.ACKED and self.has_lost_other_end(link) else self._incoming(link)

    def clear_reason(self, command: Command, link: LinkState) -> str | None:
        """Why an outgoing end clears its call."""
        if command is not Command.CLEAR:
            return None
        if link is LinkState.GIVEN_UP or self.far is None:
            return 'the other site is gone, or a trunk is out of service'
        return 'the other end has given the call up' if self.far.over else (
            f'the other end has no such call: it is {self.far.state}')

    def _outgoing(self, link: LinkState) -> Command | None:
        called = self.state in IN_CALL
        if link is LinkState.GIVEN_UP:
            return Command.CLEAR if called else None
        if link is LinkState.LOST or self.far is None:
            return None
        far = self.far
        stands = far.state in OPEN and not far.over
        if called:
            return None if stands and far.call == self.call else Command.CLEAR
        begins = stands and far.state is State.ACKED and far.call != self.call
        return Command.SEIZE if begins and self.state is State.IDLE and not self.kept else None

    def _incoming(self, link: LinkState) -> Command | None:
        far = self.far if link is LinkState.GOOD else None
        if self.state is State.IDLE:
            out = link is not LinkState.GOOD or far is not None and far.state in (State.BLOCKED, State.FAULT)
            return Command.BLOCK if out else None
        if self.state is State.BLOCKED:
            free = far is not None and far.state is State.IDLE and not self.kept
            return Command.UNBLOCK if free else None
        if self.has_lost_other_end(link):
            # A clear-back can only follow an answer.
            return {State.ACKED: Command.ANSWER, State.ANSWERED: Command.CLEAR_BACK}.get(self.state)
        return self._followed(far.state) if far is not None and far.call == self.call else None

    def _followed(self, far: State) -> Command | None:
        """The command that passes the state of the outgoing end's call on to its caller."""
        answered = far is State.ANSWERED or far is State.CLEAREDBACK and self.state is State.ACKED
        if answered and self.state in (State.ACKED, State.CLEAREDBACK):
            return Command.ANSWER
        return Command.CLEAR_BACK if far is State.CLEAREDBACK and self.state is State.ANSWERED else None


def start_circuit(known: TieCircuit | None, fresh: TieCircuit) -> TieCircuit:
    """A circuit as the trunk has it, with what is known of the same call."""
    if known is not None and known.role is fresh.role and known.call == fresh.call:
        return replace(known, state=fresh.state, stuck=False, kept=fresh.kept)
    return fresh


def call_name(life: str, seizures: int) -> str:
    """The name of the latest call of an incoming circuit: by the life of the trunk, and its number in it."""
    return f'{life}.{seizures}' if seizures else NO_CALL
