"""What is wrong with a circuit of each trunk, by what it has recorded."""
from __future__ import annotations

from typing import Iterable

from e1gw_common.session_files import InputError
from e1gw_picture import finding_lines, last_facts
from .control_sockets import each_trunk, read_status
from .files_status import FilesStatus


def why(trunks: Iterable[tuple[str, str]], circuit: int, patience: float) -> int:
    """Prints it; returns the status."""
    def looks(_: str, path: str) -> None:
        files = read_status(FilesStatus, path, patience)
        if not files.session_path:
            raise ValueError('it records nothing that could be looked at (--session)')
        try:
            facts = last_facts(files.session_path, circuit, files.config_file or None)
        except InputError as fault:
            raise ValueError(str(fault)) from None
        print('\n'.join(finding_lines(facts, circuit)), flush=True)
    return each_trunk(trunks, looks)
