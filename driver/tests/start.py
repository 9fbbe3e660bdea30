"""Starts a command, as the programs of bin/ do, with the limits of time of tests/limits.py and by the clock of
tests/hand_clock.py. A trunk has its folder next to the program: trunks of another suite that have the same options do
not share it."""
from __future__ import annotations

import os
import sys
from typing import NoReturn

from e1gw_common.start import load
from . import hand_clock, limits

# A program that does so: the Python, the folder of this package, the command.
PROGRAM = '''#!{}
import os
import sys

sys.dont_write_bytecode = not sys.pycache_prefix or 'E1GW_MUTANT' in os.environ
sys.path[0] = {!r}

from tests.start import start

start({!r})
'''


def start(name: str) -> NoReturn:
    command = load(name)
    limits.put_given()
    hand_clock.put_given()
    limits.put({f'{module}.MEMORY': os.path.dirname(sys.argv[0])
                for module in ('watcher.options', 'holder.options', 'holder_state')})
    sys.exit(command.main())
