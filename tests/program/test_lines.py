"""Each state of a line, each pair that is recognised in it, and each command (ITU-T Q.421)."""
from __future__ import annotations

from typing import Iterator

import pytest

from .case import Case, Like, Program
from .octets import LAW_A, ends, gateway, lists_first, multiframe, record

# The pairs ab of ITU-T Q.421, and the commands by their octets.
PAIRS = ("10", "11", "01", "00")
SEIZE_IT, CLEAR, ANSWER, CLEAR_BACK, BLOCK, UNBLOCK = 1, 2, 3, 4, 5, 6

# By role and state: the steps from a new line to it (a pair that is received ten times, or a command), the pair that it
# sends, and the next states by the pairs above.
Step = str | int
LINES: dict[str, dict[str, tuple[tuple[Step, ...], str, str]]] = {
    "outgoing": {
        "fault": ((), "10", "idle blocked fault fault"),
        "idle": (("10",), "10", "idle blocked fault fault"),
        "blocked": (("11",), "10", "idle blocked fault fault"),
        "seized": (("10", SEIZE_IT), "00", "seized acked fault fault"),
        "acked": (("10", SEIZE_IT, "11"), "00", "fault acked answered fault"),
        "answered": (("10", SEIZE_IT, "11", "01"), "00", "fault clearedback answered fault"),
        "clearedback": (("10", SEIZE_IT, "11", "01", "11"), "00", "fault clearedback answered fault"),
        "releasing": (("10", SEIZE_IT, "11", "01", CLEAR), "10", "idle releasing releasing releasing"),
    },
    "incoming": {
        "fault": ((), "11", "idle fault fault fault"),
        "idle": (("10",), "10", "idle fault fault acked"),
        "blocked": (("10", BLOCK), "11", "blocked blocked blocked blocked"),
        "acked": (("10", "00"), "11", "idle fault fault acked"),
        "answered": (("10", "00", ANSWER), "01", "idle fault fault answered"),
        "clearedback": (("10", "00", ANSWER, CLEAR_BACK), "11", "idle fault fault clearedback"),
    },
}

# By command: for which role, from which states it leads to which, and the number of its fault in the others.
ORDERS = {
    SEIZE_IT: ("outgoing", "idle", "seized", 2),
    CLEAR: ("outgoing", "seized acked answered clearedback", "releasing", 4),
    ANSWER: ("incoming", "acked clearedback", "answered", 3),
    CLEAR_BACK: ("incoming", "answered", "clearedback", 4),
    BLOCK: ("incoming", "idle", "blocked", 2),
    UNBLOCK: ("incoming", "blocked", "idle", 5),
}


def received(pair: str) -> bytes:
    """A record of a multiframe in which each circuit is signalled this pair, and 01."""
    return record(b"T", 0, multiframe(int(pair, 2) << 2 | 1))


def line_session(steps: tuple[Step, ...]) -> bytes:
    """A session of these steps, on circuit 1. Nothing is received in its first multiframe."""
    return received("10") + b"".join(
        received(step) * 10 if isinstance(step, str) else record(b"C", 1, bytes([step])) for step in steps)


def line_at(role: str, state: str, heard: str | None) -> Like[bytes]:
    """The first line of a listing: circuit 1 in this state, in which it sends its pair."""
    sent = LINES[role][state][1]
    return lists_first(f" 1 {role} {state:11} {sent} {heard or '--'} ")


def lines() -> Iterator[Case]:
    for role, states in LINES.items():
        config = LAW_A + f'[[circuit]]\nnumber = 1\nrole = "{role}"\n'.encode()
        for state, (steps, _, following) in states.items():
            heard = next((step for step in reversed(steps) if isinstance(step, str)), None)
            yield gateway(f"{role} {state}", "check", line_session(steps), line_at(role, state, heard), config=config)
            for pair, then in zip(PAIRS, following.split()):
                yield gateway(f"{role} {state} hears {pair}", "check", line_session((*steps, pair)),
                              line_at(role, then, pair), config=config)
            for order, (of_role, before, to, fault) in ORDERS.items():
                then, answer = (state, 1) if of_role != role else (to, 0) if state in before.split() else (state, fault)
                name, given = f"{role} {state} is given command {order}", line_session((*steps, order))
                yield gateway(name, "check", given, line_at(role, then, heard), config=config)
                yield gateway(name, "replay", given, ends(record(b"R", 1, bytes([0x43, answer]))), config=config)


def waits() -> Iterator[Case]:
    """A seizure is released behind its wait, in whole multiframes of 2 ms."""
    for milliseconds, multiframes in ((None, 100), (200, 100), (201, 101), (2000, 1000), (8000, 4000)):
        for count, state in ((multiframes - 1, "seized"), (multiframes, "releasing")):
            given = line_session(("10", SEIZE_IT)) + received("10") * count
            wait = [] if milliseconds is None else ["--seizure-wait", str(milliseconds)]
            yield Case(f"check: a seizure waits {milliseconds} ms, {count} multiframes",
                       ["check", "--config", "trunk.toml", *wait], given, line_at("outgoing", state, "10"),
                       config=LAW_A)


@pytest.mark.parametrize("case", [*lines(), *waits()])
def test_line(case: Case, program: Program) -> None:
    assert program.ran(case) == case.wanted
