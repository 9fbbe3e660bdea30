"""Processes that may take their time."""
from __future__ import annotations

import os
import shutil
import subprocess


def put_behind(process: int, nice: int) -> None:
    """Gives a process what the calls leave of a processor, also when this one goes at real-time priority."""
    try:
        if os.sched_getscheduler(process) != os.SCHED_OTHER:
            os.sched_setscheduler(process, os.SCHED_OTHER, os.sched_param(0))
        os.setpriority(os.PRIO_PROCESS, process, nice)
    except OSError:
        pass


def put_last(process: int) -> None:
    """Gives a process what all others leave of a processor."""
    put_behind(process, 19)
    try:
        os.sched_setscheduler(process, os.SCHED_IDLE, os.sched_param(0))
    except OSError:
        pass


def run_last(words: list[str]) -> tuple[int, str]:
    """Runs a program as the last of the machine's work. Returns its status, and what it told."""
    idle = shutil.which('ionice')
    words = [idle, '-c', '3', '-t', *words] if idle else words
    with subprocess.Popen(words, stdin=subprocess.DEVNULL, stdout=subprocess.DEVNULL, stderr=subprocess.PIPE,
                          start_new_session=True, umask=0o027) as process:
        put_last(process.pid)
        told = process.communicate()[1].decode(errors='replace')
    return process.returncode, told
