"""Files in memory without a name."""
from __future__ import annotations

import os

from e1gw_common.writers import write_all


def in_memory(octets: bytes) -> int:
    """A file in memory that has these octets."""
    file = os.memfd_create('e1gw')
    try:
        write_all(file, octets)
        return file
    except OSError:
        os.close(file)
        raise


def octets_in(file: int) -> bytes:
    """All that a file has; nothing if there is none."""
    return os.pread(file, os.fstat(file).st_size, 0) if file >= 0 else b''
