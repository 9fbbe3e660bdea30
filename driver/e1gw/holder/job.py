"""A process of its own for what the holder leaves alone: it tries a version, loads or saves a state. Whatever it loads,
waits for or dies of is nothing to the program that carries the trunk."""
from __future__ import annotations

import os
import signal
import sys
import time
from typing import Collection

from e1gw_common.fault_words import words_of_fault
from ..memory import in_memory, octets_in
from .job_types import JobAnswer, JobRequest, answer_in
from .program import spawned

SECONDS, PATIENCE = 10.0, 30.0      # for the program to check a configuration, and for names; for all of it
SOON = 0.002                # seconds between two looks at one that is waited for
TOP = os.path.dirname(os.path.dirname(os.path.dirname(os.path.abspath(__file__))))
PYTHON = 'import sys; sys.path[:0] = [sys.argv.pop(1)]; from e1gw.trial import main; main()'


class Job:
    """One that runs."""

    def __init__(self, asked: JobRequest, files: Collection[int] = ()) -> None:
        """It has these descriptors by their numbers."""
        self._until, self._later = time.monotonic() + PATIENCE, 'it is not tried to its end'
        self._found = self._pid = wants = -1
        try:
            self._found = os.memfd_create('e1gw-found')
            wants = in_memory(asked._replace(seconds=SECONDS).spell())
            os.lseek(wants, 0, os.SEEK_SET)
            self._pid = spawned(sys.executable, [sys.executable, '-BPS', '-c', PYTHON, TOP],
                                [(wants, 0), (self._found, 1), *zip(files, files)])
        except OSError as fault:
            self._later = words_of_fault(fault)
        if wants >= 0:
            os.close(wants)

    def poll_answer(self) -> JobAnswer | None:
        """Its answer, once, if it has one; of one that cannot be started, dies or takes too long why it is refused."""
        if self._pid > 0 and os.waitpid(self._pid, os.WNOHANG)[0]:
            self._pid = -1                  # (from now on its number may be another one's)
        if self._pid > 0 and time.monotonic() < self._until:
            return None
        try:
            return answer_in(octets_in(self._found))
        except ValueError:
            return JobAnswer(later=self._later)
        finally:
            self.end()

    def wait_for_answer(self) -> JobAnswer:
        """Waits for its answer."""
        while (found := self.poll_answer()) is None:
            time.sleep(SOON)
        return found

    def end(self) -> None:
        """It is ended, if it goes on. To be called before it is dropped without an answer."""
        if self._found >= 0:
            os.close(self._found)
        if self._pid > 0:
            os.kill(self._pid, signal.SIGKILL)
            os.waitpid(self._pid, 0)
        self._found = self._pid = -1
