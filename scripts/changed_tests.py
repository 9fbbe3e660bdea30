"""Prints the files of Python tests of the modules that are changed, one a line, first those that are soon done:
python3 scripts/changed_tests.py [HEAD], for scripts/hooks/pre-commit what is to be committed, with HEAD, for
scripts/test, what differs from the last commit. They have a module's name, or import it, or what imports it if no test
does. Needs git."""
import ast
import functools
import os
import subprocess
import sys
from pathlib import Path
from typing import Iterator

TOP = os.path.dirname(os.path.dirname(os.path.realpath(__file__)))
DRIVER, TESTS = 'driver', ('driver/tests', 'tests/dist', 'tests/program', 'tests/scripts')
TRUNKS = 'tests.world', 'tests.keepers', 'tests.test_watcher'       # who imports them has a trunk in service


def module_of(path: str) -> str:
    """The name by which a file below driver/ is imported."""
    return os.path.relpath(path, DRIVER).removesuffix('.py').removesuffix('/__init__').replace('/', '.')


def names_in(path: str) -> Iterator[str]:
    """The names that a file imports, of modules and of what they have."""
    with open(os.path.join(TOP, path), encoding='utf-8') as file:
        tree = ast.parse(file.read())
    package = module_of(path).split('.')[:-1]
    for node in ast.walk(tree):
        if isinstance(node, ast.Import):
            yield from (name.name for name in node.names)
        elif isinstance(node, ast.ImportFrom):
            above = package[:len(package) - node.level + 1] if node.level else []
            base = '.'.join([*above, *filter(None, [node.module])])
            yield base
            yield from (f'{base}.{name.name}' for name in node.names)


@functools.cache
def imported_by(path: str) -> frozenset[str]:
    return frozenset(names_in(path))


def users_of(changed: set[str], paths: list[str]) -> list[str]:
    """The files that import one of these modules, or are one."""
    return [path for path in paths if module_of(path) in changed or changed & imported_by(path)]


def tests_of(module: str) -> list[str]:
    """The test files of a module: the one with its name, and the nearest that import it."""
    tests = [f'{folder}/{name}' for folder in TESTS for name in os.listdir(os.path.join(TOP, folder))
             if name.startswith('test_')]
    every = [str(path.relative_to(TOP)) for path in Path(TOP, DRIVER).rglob('*.py')]
    found, reached, before = list[str](), {module}, set[str]()
    while not (found := users_of(reached, tests)) and reached != before:
        before, reached = reached, reached | {*map(module_of, users_of(reached, every))}
    name = f'test_{module.rpartition(".")[2]}.py'
    return found + [path for path in tests if os.path.basename(path) == name]


def seconds(path: str) -> tuple[bool, int]:
    """By what tests are ordered that take longer and longer."""
    return any(name in imported_by(path) for name in TRUNKS), len(imported_by(path))


def main() -> None:
    since = 'HEAD' if 'HEAD' in sys.argv else '--cached'
    paths = subprocess.run(['git', '-C', TOP, 'diff', since, '--name-only', '--diff-filter=AMR'],
                           capture_output=True, text=True, check=True).stdout.split('\n')
    changed = {module_of(path) for path in paths if path.startswith((f'{DRIVER}/', *TESTS)) and path.endswith('.py')}
    for path in sorted({path for module in changed for path in tests_of(module)}, key=seconds):
        print(path)


if __name__ == '__main__':
    if sys.argv[1:] not in ([], ['HEAD']):
        print(__doc__)
    else:
        main()
