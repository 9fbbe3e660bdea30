"""Processes that a watcher starts, for replays and pictures."""
from __future__ import annotations

import asyncio
import os
import sys
from asyncio.subprocess import PIPE, Process
from contextlib import suppress
from typing import Iterable, Sequence

from ..crc4 import COUNTS

PATIENCE = 5.0              # seconds for one that was killed: it may wait for a device
TOTALS = 'records', 'octets', 'datagrams', 'dropped', 'port_faults', 'discarded_multiframes'
AT_END = {*TOTALS, *COUNTS, 'unreported'}       # what a program counts at its end
PYTHON = 'import sys; sys.path[:0] = [sys.argv.pop(1)]; from {} import main; sys.exit(main())'
TOP = os.path.dirname(os.path.dirname(os.path.dirname(os.path.abspath(__file__))))


async def start_process(executable: str, words: Sequence[str], passed: Iterable[int] = (), reads: int = PIPE,
                        writes: int = PIPE) -> Process:
    """A process of a session of its own; `words` begin with its name. It has the `passed` descriptors by their numbers.
    OSError if it cannot be started."""
    return await asyncio.create_subprocess_exec(*words, executable=executable, stdin=reads, stdout=writes, stderr=PIPE,
                                                pass_fds=tuple(passed), start_new_session=True)


async def run_process(process: Process, given: bytes, seconds: float) -> tuple[int | None, str, bytes]:
    """Runs a process to its end: its status, None if that takes too long, what it says, and what it writes."""
    try:
        async with asyncio.timeout(seconds):
            written, said = await process.communicate(given)
            return process.returncode, said.decode(errors='replace'), written
    except TimeoutError:
        return None, '', b''
    finally:
        await kill_process(process)


async def kill_process(process: Process) -> None:
    """Ends a process, if it goes on."""
    with suppress(ProcessLookupError, TimeoutError):
        if process.returncode is None:
            process.kill()
            async with asyncio.timeout(PATIENCE):
                await process.wait()


def python_words(module: str, *words: str) -> list[str]:
    """The command line of a module that has main()."""
    return [sys.executable, '-BP', '-c', PYTHON.format(module), TOP, *words]
