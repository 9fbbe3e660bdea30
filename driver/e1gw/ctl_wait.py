"""Waits until circuits of trunks are in a state."""
from __future__ import annotations

import time
from dataclasses import dataclass
from typing import Callable, Collection

from e1gw_common.faults import words_of_fault
from e1gw_common.lines import State, circuit_words
from .ctl_all import status_of
from .events import BlockNews
from .metrics import states_of
from .status import TrunkStatus

LOOK = 0.5                  # seconds between two looks
LEFT = 3                    # the status if some circuits are not in the state
STATES = [*(str(each) for each in State if each is not State.UNKNOWN), str(BlockNews.BLOCKING)]
Trunks = list[tuple[str, str]]


@dataclass(frozen=True)
class AwaitedState:
    """The state in which circuits are to be."""

    circuits: Collection[int]
    state: str

    def compare_status(self, status: TrunkStatus) -> tuple[bool, str]:
        """Whether they are, and in which states those are that are not."""
        if status.fault:
            return False, status.fault
        rows = [row for row in status.circuits if row.line.circuit in self.circuits]
        left = dict[State, list[int]]()
        for row in rows:
            if self.state not in states_of(row):
                left.setdefault(row.line.state, []).append(row.line.circuit)
        if left or not rows:
            words = (f'{circuit_words(circuits)} {state}' for state, circuits in left.items())
            return False, ', '.join(words) or 'it has no such circuit'
        return True, f'{circuit_words(row.line.circuit for row in rows)} {self.state}'

    def ask_trunk(self, name: str, path: str, patience: float) -> tuple[bool, str]:
        """The same of a trunk that is asked. (A name may be that of a socket here that is still to come.)"""
        try:
            return self.compare_status(status_of(path, patience))
        except FileNotFoundError:
            return False, 'no trunk yet' + f', here or at {path}' * (path != name)
        except ConnectionRefusedError:
            return False, 'no trunk listens yet' + f' at {path}' * (path != name)
        except (OSError, ValueError) as fault:
            return False, f'it does not answer: {words_of_fault(fault, path)}'


def wait(trunks: Callable[[], Trunks], awaited: AwaitedState, seconds: float | None, patience: float) -> int:
    """Prints a line for each trunk of now whenever its states have changed, until all are as awaited, or the seconds
    are over; returns the status."""
    until, told = seconds is not None and time.monotonic() + seconds, dict[str, str]()
    try:
        while True:
            found = {name: awaited.ask_trunk(name, path, patience) for name, path in trunks()}
            for name, (_, words) in found.items():
                if words != told.get(name):
                    print(f'{time.strftime("%H:%M:%S", time.gmtime())} {name}: {words}', flush=True)
                    told[name] = words
            if all(is_so for is_so, _ in found.values()):
                return 0
            if until and time.monotonic() >= until:
                print(f'not all are {awaited.state} after {seconds:g} s', flush=True)
                return LEFT
            time.sleep(LOOK)
    except KeyboardInterrupt:
        return LEFT
