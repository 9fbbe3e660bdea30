"""Which of two faults is told first."""
from __future__ import annotations

from .case import Program


def test_the_fault_of_a_session_comes_before_that_of_its_state(program: Program) -> None:
    ran = program.run("replay", "--config", "trunk.toml", "--save", "no-such-folder/x", given=b"\x58",
                      config=b'law = "A"\n')
    assert (ran.out, ran.err, ran.status) == (
        b"", "fault 4 Truncated\ncannot save the state: no-such-folder/x: No such file or directory (os error 2)\n", 1)
