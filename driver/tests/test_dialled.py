"""Line signals and a dialled call with an exchange that is not ours: libopenr2 (bench/exchange), in lock step."""
from __future__ import annotations

import functools
import tempfile
import unittest

from . import support
from .world import World, config_of
from e1gw_testing.openr2 import NoOpenR2, OpenR2, build

FOLDER = tempfile.TemporaryDirectory()
SECOND = 500            # multiframes
LATEST_MS = 40          # a line signal is recognised within 20 +- 7 ms (Q.422); six multiframes to and fro
ANSWERED, ACKNOWLEDGED = 'receives 5', 'receives d'       # ABCD (Q.421)


@functools.lru_cache(None)
def exchange_program() -> str:
    """The exchange, built once. The test is skipped if its packages are not installed."""
    try:
        return build(FOLDER.name)
    except NoOpenR2 as missing:
        raise unittest.SkipTest(str(missing)) from None


class DialledWorld(World):
    """A driver whose trunk leads to the exchange of libopenr2. Circuits 1 to 15 are incoming."""

    def __init__(self, config: str, *options: str) -> None:
        self.openr2 = OpenR2(exchange_program(), *options)
        self._received = b'\xff' * 512
        super().__init__(config, answers=False)

    def step(self, multiframes: int = 1) -> None:
        for _ in range(multiframes):
            self._received = self.exchange_octets(self.openr2.step(self._received))

    def __exit__(self, *_: object) -> None:
        self.openr2.end()
        super().__exit__()

    def reports(self, circuit: int, pattern: str, most: int = SECOND) -> str:
        """Steps until the exchange reports another event of a circuit that the pattern matches; returns its text."""
        known = len(self.openr2.found(circuit, pattern))
        self.until(lambda: len(self.openr2.found(circuit, pattern)) > known, most)
        return self.openr2.found(circuit, pattern)[-1].string

    def has_state(self, circuit: int, state: str) -> bool:
        """Steps until the driver has a circuit in this state; returns whether that is within LATEST_MS."""
        for _ in range(LATEST_MS // 2):
            if self.state(circuit) == state:
                return True
            self.step()
        return False


def dialled(config: str, *options: str) -> DialledWorld:
    """A driver in service: the exchange has found the multiframes, and each circuit idle."""
    world = DialledWorld(config, *options)
    world.until(lambda: all(world.openr2.found(n, 'idle') for n in range(1, 31)))
    world.step(15)
    return world


class LineSignalTests(unittest.TestCase):
    """Those of Q.421, as both sides have them: circuits 1 to 15 are called by the exchange, the others by us."""

    def asked(self, command: str, pattern: str = '', answer: str = 'done') -> None:
        """A command to the driver, and what the exchange reports then."""
        self.assertEqual(self.world.ask(command), f'{command}: {answer}')
        if pattern:
            self.world.reports(int(command.split()[1]), pattern, LATEST_MS // 2)

    def ordered(self, command: str, pattern: str = '', state: str = '') -> None:
        """A command to the exchange, what it reports then, and the state of the circuit at the driver."""
        circuit = int(command.split()[1])
        self.world.openr2.command(command)
        if pattern:
            self.world.reports(circuit, pattern, LATEST_MS // 2)
        if state:
            self.assertTrue(self.world.has_state(circuit, state), command)

    def test_each_signal(self) -> None:
        self.world = dialled(config_of(range(1, 31), incoming=tuple(range(1, 16))))
        self.addCleanup(self.world.__exit__)
        self.ordered('call 5 1 2', ACKNOWLEDGED, 'acked')
        self.asked('answer 5', ANSWERED)
        self.asked('clear-back 5', ACKNOWLEDGED)
        self.world.reports(5, 'ended')
        self.assertTrue(self.world.has_state(5, 'idle'))
        self.ordered('call 6 1 2', ACKNOWLEDGED)
        self.ordered('hangup 6', 'ended', 'idle')
        self.asked('seize 20', 'seized')
        self.assertTrue(self.world.has_state(20, 'acked'))
        self.asked('clear 20', 'ended')
        self.assertTrue(self.world.has_state(20, 'idle'))
        self.ordered('block 21', state='blocked')
        self.asked('seize 21', answer='refused: not idle')
        self.ordered('unblock 21', state='idle')
        self.asked('block 7', 'blocked')
        self.ordered('call 7 1 2', 'refused')
        self.asked('unblock 7', 'idle')


class DialledCallTests(unittest.TestCase):
    def test_dialled(self) -> None:
        """The exchange dials by MFC-R2 on circuit 3. Its tones go as RTP to circuit 4, on which it is called with the
        same numbers; it answers and hangs up. What a tie does between the two circuits is done here."""
        support.program()
        world = dialled(config_of(range(1, 31), incoming=(3,)), '--ani', '3', '--dnis', '2', '--answer', '100')
        self.addCleanup(world.__exit__)
        world.openr2.command('call 3 907 41')
        world.reports(3, ACKNOWLEDGED)
        self.assertEqual(world.ask('seize 4'), 'seize 4: done')
        self.assertEqual(world.reports(4, 'offered', 8 * SECOND), 'offered 907 41')
        world.reports(4, 'answers')
        self.assertTrue(world.has_state(4, 'answered'))
        self.assertEqual(world.ask('answer 3'), 'answer 3: done')
        world.reports(3, 'answered')
        world.openr2.command('hangup 3')
        self.assertTrue(world.has_state(3, 'idle'))
        self.assertEqual(world.ask('clear 4'), 'clear 4: done')
        world.reports(4, 'ended')
        self.assertFalse([event for event in world.openr2.events if event.text.startswith('error')])
