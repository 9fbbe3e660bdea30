"""What a status has of the files of a trunk. e1gw-ctl reads it without the rest, whose import takes longer."""
from __future__ import annotations

from dataclasses import dataclass


@dataclass(frozen=True)
class FilesStatus:
    """Where a trunk is configured, kept and shown."""

    config_file: str = ''
    calls_file: str | None = None
    events_file: str | None = None
    session_path: str | None = None
    http: tuple[str, int] | None = None
