"""Unix sockets at which a service listens."""
from __future__ import annotations

import grp
import os
import socket
import stat
from contextlib import suppress

BACKLOG = 64                # who may wait to be connected


class CannotListen(Exception):
    """Why nobody could connect."""


def give_to_group(path: str, group: str) -> None:
    """Gives a file to a group, by its name or its number."""
    try:
        os.chown(path, -1, int(group) if group.isdecimal() else grp.getgrnam(group).gr_gid)
    except KeyError:
        raise CannotListen(f'--control-group {group}: there is no such group') from None
    except OSError as fault:
        raise CannotListen(f'--control-group {group}: {fault.strerror}') from None


def unix_listener(path: str, mode: int, group: str | None) -> socket.socket:
    """A Unix socket that listens, with its mode and group, from the moment on at which it is there."""
    line, new = socket.socket(socket.AF_UNIX), f'{path}~'
    if os.path.lexists(path):
        if not stat.S_ISSOCK(os.lstat(path).st_mode):
            raise CannotListen(f'{path} is there and no socket')
        if line.connect_ex(path) == 0:
            raise CannotListen(f'at {path} another one listens')
    with suppress(FileNotFoundError):
        os.unlink(new)
    before = os.umask(0o777 & ~mode)
    try:
        line.bind(new)
    except OSError as fault:
        raise CannotListen(f'--control {path}: {fault.strerror}') from None
    finally:
        os.umask(before)
    if group:
        give_to_group(new, group)
    line.listen(BACKLOG)
    os.replace(new, path)
    return line
