"""What systemd is told."""
from __future__ import annotations

import os
import socket
from contextlib import suppress


class Notifier:
    """Tells systemd the state of a service, if systemd listens (sd_notify(3)). Nothing here waits."""

    def __init__(self) -> None:
        self._path = os.environ.get('NOTIFY_SOCKET', '').replace('@', '\0', 1)
        self._line = socket.socket(socket.AF_UNIX, socket.SOCK_DGRAM)
        self._line.setblocking(False)

    def notify(self, *lines: str) -> None:
        if self._path:
            with suppress(OSError):
                self._line.sendto('\n'.join(lines).encode(), self._path)
