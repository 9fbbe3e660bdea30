"""Errors of the system in words that name what was refused, never a number alone."""
from __future__ import annotations

import grp
import os
import re
from contextlib import suppress


def words_of_fault(fault: BaseException, what: str = '') -> str:
    """`what: No such file or directory`; `what` is by default the file that the fault names."""
    if not isinstance(fault, OSError):
        return f'{what}: {fault}' if what else str(fault)
    why = fault.strerror or str(fault) or type(fault).__name__
    name = what or (fault.filename if isinstance(fault.filename, str) else '')
    is_named = not name or re.search(rf'(?<!\S){re.escape(name)}(?![^\s:;,])', why)
    return why if is_named else f'{name}: {why}'


def named(fault: OSError, what: str) -> OSError:
    """The same error, which names what it is about."""
    return OSError(fault.errno or 0, words_of_fault(fault, what))


def group_of(path: str) -> str:
    """The name of a file's group."""
    number = os.stat(path).st_gid
    with suppress(KeyError):
        return grp.getgrgid(number).gr_name
    return str(number)


def name_of_process(pid: int | str) -> str:
    """The name of a process, by its command line: a program that was started by a descriptor has else the name `9`.
    OSError if it is not seen."""
    with open(f'/proc/{pid}/cmdline', encoding='utf-8', errors='replace') as words:
        if name := os.path.basename(words.read(4096).partition('\0')[0]):
            return name
    with open(f'/proc/{pid}/comm', encoding='utf-8', errors='replace') as file:     # (a thread of the kernel)
        return file.read().strip()


def options_words() -> str:
    """The file with a unit's options, behind an error in them; nothing if no unit started this."""
    path = os.environ.get('E1GW_OPTIONS')
    if not path:
        return ''
    return f'; its options are in {path}' if os.path.exists(path) else f'; {path}, which has its options, is missing'
