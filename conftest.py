"""How pytest runs the tests: `--program PROGRAM` is the one that they look at, and with another `--seed N` what they
choose by chance is other. A test that fails is named at once. The last line is `N passed, M failed`."""
from __future__ import annotations

import os
import shutil
import sys
import tempfile
from pathlib import Path
from typing import Any

import pytest

BUILT = Path(__file__).resolve().parent / 'out' / 'e1gw'
PROGRAM = pytest.StashKey[str]()
# The files of tests for which a program without proof is fast enough: it checks itself as it runs.
QUICK = 'test_command_line.py', 'test_config.py'


def pytest_addoption(parser: pytest.Parser) -> None:
    parser.addoption('--program', metavar='PROGRAM', default=os.environ.get('E1GW') or str(BUILT),
                     help='the program [default: that of the variable E1GW, or out/e1gw]')
    parser.addoption('--brief', action='store_true', help='leave out tests that take long without a proved program')
    parser.addoption('--seed', metavar='N', type=int, default=1, help='by which random tests choose [default: 1]')


def pytest_configure(config: pytest.Config) -> None:
    """What tests find around them, and the commands that they start: the program, the Python that this is, and where
    what it makes of modules is kept. (Those who run tests beside each other have it of who has started them.)"""
    if 'E1GW_SEED' in os.environ:
        config.stash[PROGRAM] = os.environ['E1GW']
        return
    program = os.path.realpath(config.option.program)
    if program.endswith('.unproved'):           # (its version would say so)
        folder = tempfile.TemporaryDirectory(dir='/dev/shm' if os.path.isdir('/dev/shm') else None)
        config.add_cleanup(folder.cleanup)
        program = shutil.copy(program, f'{folder.name}/e1gw')
    sys.pycache_prefix = str(BUILT.parent / 'pycache')
    os.environ |= {'E1GW': program, 'E1GW_SEED': str(config.option.seed), 'PYTHONPYCACHEPREFIX': sys.pycache_prefix,
                   'PATH': f'{os.path.dirname(sys.executable)}:{os.environ.get("PATH", os.defpath)}'}
    os.environ.pop('PYTHONDONTWRITEBYTECODE', None)
    config.stash[PROGRAM] = program


def pytest_collection_modifyitems(config: pytest.Config, items: list[pytest.Item]) -> None:
    """First those that have a time of their own, then larger modules: they take longer. Who wants the first that fails
    alone (-x) has given them in another order."""
    if config.option.maxfail != 1:
        items.sort(key=lambda item: (item.get_closest_marker('timeout') is None, -item.path.stat().st_size))


def pytest_runtest_setup(item: pytest.Item) -> None:
    """With --brief the quick tests alone have the program."""
    if item.config.option.brief:
        os.environ['E1GW'] = item.config.stash[PROGRAM] if item.path.name in QUICK else '/none'


def pytest_report_teststatus(report: pytest.TestReport) -> tuple[str, str, str] | None:
    return ('failed', f'\n{report.nodeid}\n', 'FAILED') if report.failed and report.when == 'call' else None


def pytest_unconfigure(config: pytest.Config) -> None:
    """The last line. A test that was passed over for want of the program has failed, unless it was left out."""
    if (reporter := config.pluginmanager.get_plugin('terminalreporter')) and not config.option.collectonly:
        counts: dict[str, list[Any]] = reporter.stats
        missing = [each for each in counts.get('skipped', []) if 'no program' in str(each.longrepr)]
        if config.option.brief and missing:
            print(f'{len(missing)} tests left out: they take long without a proved program, which scripts/build makes')
            missing = []
        failed = len(counts.get('failed', [])) + len(counts.get('error', [])) + len(missing)
        print(f'{len(counts.get("passed", []))} passed, {failed} failed')
