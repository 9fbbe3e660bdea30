"""A program and a configuration as they were at one moment, for replays: of a log from which a recording, calls or a
standby are made."""
from __future__ import annotations

import os
from asyncio.subprocess import PIPE, Process
from contextlib import suppress
from dataclasses import dataclass
from typing import Iterable, Sequence

from e1gw_common.lines import SEIZURE_WAIT, wait_words
from ..log_folder import LogPair
from ..memory import in_memory, octets_in
from .process import run_process, start_process

CHECK = 10.0                # seconds for a program to check a configuration, or to replay a log


@dataclass(frozen=True)
class ReplayVersion:
    """A version. `file` is a descriptor of the program, `config` one of the configuration in memory, in which names
    are addresses; `name` is what the program says, and `wait` the milliseconds after which it releases a seizure. One
    that was tried is executed, whatever becomes of the rights of its file."""

    program: str
    file: int
    config: int
    senders: str
    name: str = ''
    wait: int = SEIZURE_WAIT
    was_tried: bool = False

    def config_path(self) -> str:
        return f'/dev/fd/{self.config}'

    def config_octets(self) -> bytes:
        return octets_in(self.config)

    async def start(self, words: Sequence[str], passed: Iterable[int] = (), reads: int = PIPE,
                    writes: int = PIPE) -> Process:
        """Starts a process of it: a subcommand, which reads its configuration, with further words."""
        executable = f'/proc/self/fd/{self.file}'
        with suppress(OSError):         # (by its path, as long as it is the same file)
            if os.path.samestat(os.stat(self.program), os.fstat(self.file)):
                executable = self.program
        words = [self.program, words[0], '--config', self.config_path(), *wait_words(self.wait), *words[1:]]
        if os.access(executable, os.X_OK) or not self.was_tried:
            return await start_process(executable, words, [self.file, self.config, *passed], reads, writes)
        copy = in_memory(octets_in(self.file))
        try:
            return await start_process(f'/proc/self/fd/{copy}', words, [copy, self.config, *passed], reads, writes)
        finally:
            os.close(copy)

    async def run(self, words: Sequence[str], begun: LogPair | None) -> tuple[int | None, str, bytes]:
        """Runs a process of it to its end, over the records behind a state if there is one."""
        state = in_memory(begun.state if begun else b'')
        words = [*words, '--load', f'/dev/fd/{state}'] if begun else words
        try:
            return await run_process(await self.start(words, [state]), begun.records if begun else b'', CHECK)
        finally:
            os.close(state)

    def close(self) -> None:
        os.close(self.file)
        os.close(self.config)
