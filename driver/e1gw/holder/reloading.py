"""What an operator asks for: another program or configuration, and another holder in place of this one. Each is tried
by a process of its own, while the program of now carries the trunk."""
from __future__ import annotations

import os
import signal
import time
from typing import TYPE_CHECKING

from e1gw_common.fault_words import words_of_fault
from .decisions import EndReason
from .job import Job
from .job_types import JobAnswer, JobRequest
from .journal import Severity, log_line
from .lifecycle import finish, put_version
from .note import HolderNote
from .requests import HolderRequest
from .version import Version, version_of

if TYPE_CHECKING:
    from .holder import Holder

AGAIN = 0.5                 # seconds before a first version is tried again
NOTHING = 'nothing to do: this program and this configuration run'


class Reloads:
    """One trial at a time."""

    def __init__(self, holder: Holder) -> None:
        self._holder, self._program, self._said = holder, -1, ''
        self._job: Job | None = None
        self._request = HolderRequest(None, '')

    @property
    def is_busy(self) -> bool:
        return self._job is not None

    def on_signal(self, number: int) -> None:
        if number in (signal.SIGTERM, signal.SIGINT):
            self._holder.end(f'signal {number}')
        elif number == signal.SIGHUP:
            self.begin(HolderRequest(None, 'reload'))
        elif number == signal.SIGUSR2:
            self.replace()

    # ---- a version ----

    def try_first(self) -> None:
        """Tries the first version, where there is none before it."""
        if not self.is_busy:
            self._try(HolderRequest(None, 'begin'), None)

    def begin(self, request: HolderRequest) -> None:
        """Tries the program and the configuration of now; a program of them follows if they will do."""
        holder = self._holder
        if holder.ending:
            return request.answer_refused('the end is asked for')
        if self.is_busy or not holder.versions.now:
            return request.answer_refused('one is tried already', 'busy')
        holder.store.notify('RELOADING=1', f'MONOTONIC_USEC={time.monotonic_ns() // 1000}')
        self._try(request, holder.versions.now)

    def _try(self, request: HolderRequest, before: Version | None) -> None:
        options = self._holder.options
        try:
            self._program = program = os.open(options.program, os.O_RDONLY | os.O_CLOEXEC)
        except OSError as fault:
            return self._refuse(request, JobAnswer(later=words_of_fault(fault)))
        asked = JobRequest('try', program=program, config=options.config, senders=options.senders, wait=options.wait,
                           log=self._log(), force=request.text.endswith(' force'),
                           when_idle=request.text.endswith(' when-idle'), before=before.its if before else None,
                           program_before=before.program if before else -1)
        self._request, self._job = request, Job(asked, [program, before.program] if before else [program])

    def _log(self) -> str:
        """What is known of the trunk."""
        return f'{self._holder.folder}/{"log" if self._holder.is_active else "fed"}'

    def follow_trial(self, now: float) -> None:
        """Does what follows a trial."""
        found = self._job.poll_answer() if self._job else None
        if found is None:
            return
        request, self._job = self._request, None
        if request.word == 'replace':
            return self._become_next(found)
        if found.tried:
            version, request.told = version_of(self._program, found.tried), found.changes
            if found.runs and request.has_client and not request.text.endswith(' force'):
                request.told = request.told or NOTHING
                return self._keep_on(request, version)
            return self._switch_to(request, version, found.told, now)
        os.close(self._program)
        self._refuse(request, found)

    def _keep_on(self, request: HolderRequest, version: Version) -> None:
        """No program follows for this version: what is new of it waits, or there is none now."""
        holder = self._holder
        holder.versions.replace_now(version)
        put_version(holder, version)
        holder.publish()
        if request.word == 'reload':
            holder.store.notify('READY=1')
        request.answer_done()

    def _switch_to(self, request: HolderRequest, version: Version, told: str, now: float) -> None:
        """A program of this version follows."""
        holder = self._holder
        if told:
            log_line(Severity.WARNING, f'reload: {told}')
        if not version.its.is_proved:
            log_line(Severity.WARNING, f'e1gw {version.its.name}: it is for trials, and takes more of a processor')
        if request.told:
            log_line(Severity.NOTICE, f'reload: {request.told}')
        if not holder.is_active or not (holder.program or holder.line.files and request.word == 'reload'):
            holder.versions.confirm()         # (there is nothing to go back to)
            return self._keep_on(request, version)
        holder.versions.switch_to(version)
        holder.requests.append(request)
        if holder.program:
            holder.request_end(EndReason.RELOAD, now)
        holder.due = now

    def _refuse(self, request: HolderRequest, found: JobAnswer) -> None:
        """The trunk goes on as it was. Without a version what may come back is waited for, if somebody wants that."""
        holder, why = self._holder, found.why_not
        if request.word != 'begin':
            log_line(Severity.ERROR, f'reload: refused, the trunk goes on as it was: {why}')
            holder.store.notify('READY=1')
            return request.answer_refused(f'the trunk goes on as it was: {why}')
        if not holder.was_up and (found.refused or not holder.options.line.reopens):
            return finish(holder, why, 2 if found.refused else 1)
        if why != self._said:
            log_line(Severity.ERROR, f'{why}; it is tried again')
            holder.report_waiting(why)
        self._said = why
        holder.due = time.monotonic() + AGAIN

    # ---- a holder ----

    def replace(self) -> None:
        """Another holder in place of this one, if it can begin. The program goes on meanwhile."""
        if why := self._why_not_replaced():
            return log_line(Severity.ERROR, f'replace: refused: {why}')
        self._job, self._request = Job(JobRequest('begin')), HolderRequest(None, 'replace')

    def _why_not_replaced(self) -> str:
        program = self._holder.program
        if self.is_busy or not (program and program.is_up and not program.asked):
            return 'no program carries the trunk, or another one is to follow'
        return ''

    def _become_next(self, found: JobAnswer) -> None:
        holder, program = self._holder, self._holder.program
        why = found.why_not or self._why_not_replaced()
        if why or not program:
            return log_line(Severity.ERROR, f'replace: refused: {why}')
        holder.versions.confirm()             # (its trial ends here)
        holder.publish()
        files = {**holder.descriptors_to_store(), **holder.line.files, 'leash': program.leash, 'said': program.said,
                 'lock': holder.lock}
        watcher = holder.watcher.pid if holder.watcher else 0
        holder.store.become_next(files, HolderNote(program.pid, holder.line.note(), watcher))

    def close(self) -> None:
        """Ends what is tried."""
        if self._job:
            self._job.end()
            self._request.answer_refused('the trunk has ended')
        self._job = None
