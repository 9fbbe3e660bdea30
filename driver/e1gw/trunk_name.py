"""The name of a trunk: files, sockets and pages have it."""
from __future__ import annotations

import os


def trunk_name(asked: str | None, config: str) -> str:
    """The one that is asked for with --name, else that of the configuration. ValueError if no file could have it."""
    name = asked or os.path.splitext(os.path.basename(os.path.abspath(config)))[0]
    if '/' in name or not name.isprintable() or name in ('', '.', '..'):
        raise ValueError(f'--name {name!r} is no name of a file')
    return name
