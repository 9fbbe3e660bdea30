"""What a test of the program is given."""
from __future__ import annotations

import os
import shutil
from pathlib import Path
from typing import Iterator

import pytest

from .case import Case, Program


def pytest_make_parametrize_id(val: object) -> str | None:
    """A case is known by its name."""
    return val.name if isinstance(val, Case) else None


@pytest.fixture
def program(tmp_path: Path) -> Iterator[Program]:
    """The program, in a folder that goes with the test: a log has 17 MB."""
    if not os.access(path := os.environ['E1GW'], os.X_OK):
        pytest.skip('no program: --program names one, scripts/build builds it')
    yield Program(path, tmp_path)
    shutil.rmtree(tmp_path)
