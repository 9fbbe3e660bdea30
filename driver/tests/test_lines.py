"""The thirty lines of a trunk: what is counted of them, and what a configuration says of them."""
from __future__ import annotations

import tomllib
import unittest

from .properties import PropertyCase
from e1gw_common.lines import (IN_CALL, OPEN, PAIRS, SEIZURE_WAIT, CircuitConfig, Line, Role, State, TrunkConfig,
                               config_text, no_peer, no_peers, wait_words)
from e1gw_common.plain import plain_of, typed
from e1gw_common.session import Command


class LineTests(unittest.TestCase):
    def test_a_new_one(self) -> None:
        self.assertEqual(plain_of(Line(3).status(2.0)), {
            'circuit': 3, 'role': 'outgoing', 'state': 'fault', 'sent': '--', 'recognised': '--', 'for': 2.0,
            'seizures': 0, 'answers': 0, 'unacknowledged': 0, 'faults': 0, 'open': 0.0, 'codec': 'pcma', 'payload': 8,
            'configured_codec': 'pcma', 'configured_payload': 8, 'prefill': 0, 'jitter_buffer_ms': 0.0})

    def test_an_outgoing_call(self) -> None:
        """Seizures are the commands, answers the exchange's; the path is open from the acknowledgement."""
        line, now = Line(3), 0.0
        line.begin(State.IDLE, now)
        for command in (Command.SEIZE, *[Command.ANSWER] * 3, Command.BLOCK):
            line.count_command(command)
        for state in (State.SEIZED, State.ACKED, State.ANSWERED, State.CLEAREDBACK, State.ANSWERED, State.RELEASING,
                      State.FAULT):
            now, before, line.state = now + 1.0, line.state, state
            line.count_change(before, now)
        self.assertEqual((line.seizures, line.answers, line.faults, line.since, line.opened, line.open_for),
                         (1, 4, 1, 7.0, None, 4.0))
        its = line.status(9.25)
        self.assertEqual((its.for_, its.open, its.state, its.role, its.sent),
                         (2.25, 4.0, State.FAULT, Role.OUTGOING, '--'))

    def test_an_incoming_call(self) -> None:
        """Seizures are the exchange's. What was before the state of the begin is not known."""
        line = Line(3, Role.INCOMING, prefill=320)
        line.begin(State.ACKED, 1.0)
        found = line.status(2.5)
        self.assertEqual((line.opened, found.open, found.jitter_buffer_ms), (1.0, 1.5, 40.0))
        for now, (before, line.state) in enumerate(((State.ACKED, State.IDLE), (State.IDLE, State.ACKED),
                                                    (State.ACKED, State.ANSWERED)), 2):
            line.count_change(before, now)
        self.assertEqual((line.seizures, line.answers, line.opened, line.open_for), (1, 0, 3, 1.0))
        line.sent, line.recognised = 0, 3
        self.assertEqual((line.status(2.5).sent, line.status(2.5).recognised, PAIRS[1], PAIRS[2]),
                         ('00', '11', '01', '10'))
        line.begin(State.IDLE, 8.0)
        self.assertEqual((line.opened, line.since), (None, 8.0))
        self.assertEqual((OPEN | {State.SEIZED}, SEIZURE_WAIT), (IN_CALL, 200))

    def test_lines_of_a_configuration(self) -> None:
        config = typed(TrunkConfig, {'law': 'mu', 'circuit': [
            {'number': 2, 'role': 'incoming', 'codec': 'g726-16', 'payload': 96, 'prefill': 160, 'local_port': 4000}]})
        lines = config.lines()
        self.assertEqual([*lines], [*range(1, 31)])
        self.assertEqual(lines[2], Line(2, Role.INCOMING, 'g726-16', 96, 160, 4000, configured=('g726-16', 96)))
        self.assertEqual(lines[1], Line(1, codec='pcmu', payload=0, configured=('pcmu', 0)))
        self.assertEqual(TrunkConfig().lines()[30], Line(30, codec='pcma', payload=8, configured=('pcma', 8)))
        self.assertEqual((config.circuits()[2].peer_host, config.addresses()), ('127.0.0.1', {('127.0.0.1', 4000): 2}))
        self.assertEqual((wait_words(200), wait_words(7)), ([], ['--seizure-wait', '7']))

    def test_circuits_that_are_configured_otherwise(self) -> None:
        """Another law is of all; what is written that would be so without it is no other."""
        own, its = TrunkConfig(circuit=(CircuitConfig(1), CircuitConfig(2))), CircuitConfig(2, ssrc=7)
        for other, circuits in ((own, ()), (TrunkConfig('A', '::1', (its, CircuitConfig(1))), (2,)),
                                (TrunkConfig(circuit=(CircuitConfig(1, sequence=0),)), (2,)),
                                (TrunkConfig('mu', circuit=own.circuit), range(1, 31))):
            self.assertEqual(own.differing(other), {*circuits})

    def test_peers(self) -> None:
        for host, why in (('192.0.2.1', ''), ('peer.example', ''), ('::1', ''), ('224.0.0.1', 'is a multicast address'),
                          ('ff02::1', 'is a multicast address'), ('0.0.0.0', 'is the address of no machine'),
                          ('::', 'is the address of no machine'), ('255.255.255.255', 'is the address of no machine')):
            self.assertEqual(no_peer(host), why, host)
        circuits = CircuitConfig(9, peer_host='::'), CircuitConfig(4, peer_host='0.0.0.0'), CircuitConfig(2)
        words = 'circuit 4: peer_host 0.0.0.0 is the address of no machine'
        self.assertEqual(no_peers(TrunkConfig(circuit=circuits)), words)
        self.assertEqual(no_peers(TrunkConfig(circuit=circuits[2:])), '')

    def test_what_no_configuration_has(self) -> None:
        for value in (True, 1.5, None, [1]):
            with self.assertRaisesRegex(ValueError, '^key is neither a text nor a whole number$'):
                config_text({'key': value})


class ConfigPropertyTests(PropertyCase):
    def test_text(self) -> None:
        """A configuration as a text is that configuration, whatever keys and texts it has."""
        st = self.st
        text = st.text('aB_9é√"\'\\\n\t\0\x1f\x7f =.#', max_size=6)
        table = st.dictionaries(text.filter(lambda key: key != 'circuit') | st.sampled_from(('law', 'peer_host')),
                                text | st.integers(-2 ** 63, 2 ** 63 - 1), max_size=4)

        def check(top: dict[str, object], circuits: list[dict[str, object]]) -> None:
            config = top | ({'circuit': circuits} if circuits else {})
            self.assertEqual(tomllib.loads(config_text(config)), config)
        self.holds(check, table, st.lists(table, max_size=3))
