"""The states of a tie line: from whatever states and memories, both ends of a circuit come to agree."""
from __future__ import annotations

import unittest
from dataclasses import replace
from itertools import product
from typing import Iterator

from e1gw_common.lines import Role, State
from e1gw_common.session import Command
from e1gw_tie.circuit import NO_CALL, CircuitEnd, LinkState, TieCircuit, start_circuit, call_name

S, GOOD, LOST, GIVEN_UP = State, LinkState.GOOD, LinkState.LOST, LinkState.GIVEN_UP
IDLE, SEIZED, ACKED, ANSWERED = S.IDLE, S.SEIZED, S.ACKED, S.ANSWERED
CLEAREDBACK, RELEASING, BLOCKED, FAULT = S.CLEAREDBACK, S.RELEASING, S.BLOCKED, S.FAULT
SPEAKING = (ACKED, ANSWERED, CLEAREDBACK)
CALLED = (SEIZED,) + SPEAKING

# ITU-T Q.421: the next state by the recognised bits a and b, 10, 11, 01 and 00 in this order.
OUTGOING = {
    IDLE: (IDLE, BLOCKED, FAULT, FAULT), BLOCKED: (IDLE, BLOCKED, FAULT, FAULT), FAULT: (IDLE, BLOCKED, FAULT, FAULT),
    SEIZED: (SEIZED, ACKED, FAULT, FAULT), ACKED: (FAULT, ACKED, ANSWERED, FAULT),
    ANSWERED: (FAULT, CLEAREDBACK, ANSWERED, FAULT), CLEAREDBACK: (FAULT, CLEAREDBACK, ANSWERED, FAULT),
    RELEASING: (IDLE, RELEASING, RELEASING, RELEASING)}
INCOMING = {
    IDLE: (IDLE, FAULT, FAULT, ACKED), ACKED: (IDLE, FAULT, FAULT, ACKED), ANSWERED: (IDLE, FAULT, FAULT, ANSWERED),
    CLEAREDBACK: (IDLE, FAULT, FAULT, CLEAREDBACK), BLOCKED: (BLOCKED,) * 4, FAULT: (IDLE, FAULT, FAULT, FAULT)}
COLUMN = {0b10: 0, 0b11: 1, 0b01: 2, 0b00: 3}

# Of each command: the states in which it is done, and the one that it leads to.
DONE = {Command.SEIZE: ((IDLE,), SEIZED), Command.CLEAR: (CALLED, RELEASING),
        Command.ANSWER: ((ACKED, CLEAREDBACK), ANSWERED), Command.CLEAR_BACK: ((ANSWERED,), CLEAREDBACK),
        Command.BLOCK: ((IDLE,), BLOCKED), Command.UNBLOCK: ((BLOCKED,), IDLE)}


def acted(circuit: TieCircuit, link: LinkState) -> TieCircuit:
    """An end gives the command that it wants, which the gateway never refuses then."""
    circuit = circuit.marked_over(link)
    if command := circuit.next_command(link):
        of, to = DONE[command]
        assert circuit.state in of, (command, circuit)
        circuit = circuit.with_state(to)
        if command is Command.SEIZE and circuit.far:
            circuit = circuit.with_attempt(circuit.far.call or NO_CALL)
    return circuit


def settled(near: TieCircuit, far: TieCircuit, link: LinkState = GOOD) -> tuple[TieCircuit, TieCircuit]:
    """What comes of two ends, which hear one another if they are connected. A line that is released becomes idle."""
    for _ in range(9):
        near, far = acted(near, link), acted(far, link)
        far = far.with_state(IDLE) if far.state is RELEASING else far
        if link is GOOD:
            near, far = near.with_far(far.end()), far.with_far(near.end())
    return near, far


def disagreement(near: TieCircuit, far: TieCircuit) -> str | None:
    """What is wrong between two ends at rest that hear one another."""
    if far.state in CALLED:
        if near.state not in SPEAKING or near.call != far.call or near.over:
            return 'a call is up at the outgoing end alone'
        if far.state in (ANSWERED, CLEAREDBACK) and near.state is not far.state:
            return 'an answer or a clear-back is not passed on'
        return None
    if near.state in (ACKED, ANSWERED):
        return 'a call is up at the incoming end alone'
    if near.state is IDLE and far.end().state is not IDLE:
        return 'a circuit that is out of use can be seized'
    if near.state is BLOCKED and far.end().state is IDLE and not near.kept:
        return 'a circuit is left blocked'
    return None


def anything() -> Iterator[tuple[TieCircuit, TieCircuit]]:
    """An incoming end and an outgoing one in any states and with any memory, which have not heard of one another."""
    for near, over, passed in product(INCOMING, (False, True), (NO_CALL, 'call 1', 'call 2')):
        one = TieCircuit(Role.INCOMING, near, 'call 2', over and near in SPEAKING, passed)
        for far, call in product(OUTGOING, (None, NO_CALL, 'call 1', 'call 2')):
            yield one, TieCircuit(Role.OUTGOING, far, call)


class TieAgreementTests(unittest.TestCase):
    def test_every_pair_of_states(self) -> None:
        """From any states and memories both ends come to agree once they hear one another, or do so again."""
        for link, (one, other) in product((GOOD, LOST), anything()):
            near, far = settled(acted(one, link), acted(other, link))
            self.assertIsNone(disagreement(near, far), (one, other, near, far))

    def test_no_call_for_ever(self) -> None:
        """If the connection does not come again, no call is up and no circuit can be seized."""
        for one, other in anything():
            near, far = settled(one, other, GIVEN_UP)
            self.assertNotIn(far.state, CALLED)
            self.assertIn(near.state, (BLOCKED, FAULT, CLEAREDBACK))


class TieCommandTests(unittest.TestCase):
    """What no agreement shows."""

    def test_what_an_end_wants(self) -> None:
        """A call that somebody else has answered is not passed on, and one waits for a lost connection. If no answer
        may be feigned, nothing is reported before the answer; a call that was answered is ended."""
        incoming, outgoing = Role.INCOMING, Role.OUTGOING
        rows: list[tuple[Role, State, str, State, LinkState, bool, Command | None]] = [
            (outgoing, IDLE, 'call 1', ANSWERED, GOOD, False, None),
            (outgoing, ANSWERED, 'call 2', IDLE, LOST, False, None),
            (incoming, ACKED, 'call 2', IDLE, GOOD, True, None),
            (incoming, ACKED, 'call 2', ANSWERED, GOOD, True, Command.ANSWER),
            (incoming, ANSWERED, 'call 2', IDLE, GOOD, True, Command.CLEAR_BACK)]
        for role, state, call, far, link, waits, command in rows:
            end = CircuitEnd(outgoing if role is incoming else incoming, far, 'call 2')
            self.assertIs(TieCircuit(role, state, call, far=end).next_command(link, waits), command, (role, state))

    def test_why_an_end_clears(self) -> None:
        gone, over, none = 'the other site is gone, or a trunk is out of service', \
            'the other end has given the call up', 'the other end has no such call: it is idle'
        for far, link, why in ((None, GOOD, gone), (CircuitEnd(Role.INCOMING, ACKED, 'call 1', True), GOOD, over),
                               (CircuitEnd(Role.INCOMING, IDLE, 'call 1'), GOOD, none),
                               (CircuitEnd(Role.INCOMING, IDLE, 'call 1'), GIVEN_UP, gone)):
            circuit = TieCircuit(Role.OUTGOING, ANSWERED, 'call 1', far=far)
            self.assertEqual([circuit.clear_reason(each, link) for each in (Command.CLEAR, Command.SEIZE)], [why, None])

    def test_what_the_other_end_is_told(self) -> None:
        """A release that is stuck is a fault to it; an outgoing circuit that the operator has blocked is blocked."""
        for role, state, kept, stuck, told in ((Role.OUTGOING, IDLE, True, False, BLOCKED),
                                               (Role.INCOMING, IDLE, True, False, IDLE),
                                               (Role.OUTGOING, ACKED, True, False, ACKED),
                                               (Role.OUTGOING, RELEASING, False, True, FAULT)):
            self.assertIs(TieCircuit(role, state, 'call 1', kept=kept, stuck=stuck).end().state, told)

    def test_given_up_stays_so(self) -> None:
        """A call that was given up is not passed on when the other end comes back; the next one is."""
        circuit = TieCircuit(Role.INCOMING, ACKED, 'call 2', far=CircuitEnd(Role.OUTGOING, IDLE, 'call 1'))
        circuit = circuit.marked_over(GIVEN_UP)
        self.assertTrue(circuit.end().over)
        self.assertTrue(circuit.with_state(ANSWERED).with_state(CLEAREDBACK).end().over)
        self.assertFalse(circuit.with_state(IDLE).with_state(ACKED, 'call 3').end().over)

    def test_who_knows_which_call(self) -> None:
        """The incoming end names it and remembers which one the other has named; the other learns that if it has
        forgotten its own."""
        circuit = TieCircuit(Role.INCOMING, IDLE, 'call 1').with_state(ACKED, 'call 2')
        for named, passed in (('call 1', 'call 1'), (None, 'call 1'), ('call 2', 'call 2')):
            circuit = circuit.with_far(CircuitEnd(Role.OUTGOING, SEIZED, named))
            self.assertEqual((circuit.call, circuit.end().passed), ('call 2', passed))
        for known, call in ((None, 'call 2'), ('call 7', 'call 7')):
            far = TieCircuit(Role.OUTGOING, SEIZED, known).with_far(circuit.end())
            self.assertEqual((far.call, far.with_attempt('call 8').call), (call, 'call 8'))

    def test_what_goes_on_with_another_trunk(self) -> None:
        """What is known of a call goes on with it, and with no other one."""
        known = TieCircuit(Role.INCOMING, ACKED, 'call 1', over=True, stuck=True)
        for role, call, over in ((Role.INCOMING, 'call 1', True), (Role.INCOMING, 'call 2', False),
                                 (Role.OUTGOING, 'call 1', False)):
            fresh = TieCircuit(role, ANSWERED, call, kept=True)
            self.assertEqual((start_circuit(known, fresh), start_circuit(None, fresh)),
                             (replace(fresh, over=over), fresh))
        self.assertEqual([call_name('a', n) for n in (0, 1)], [NO_CALL, 'a.1'])
