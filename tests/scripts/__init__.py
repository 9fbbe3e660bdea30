"""The tests of the scripts."""
import os
import sys
import tempfile
import unittest
from importlib.machinery import SourceFileLoader
from importlib.util import module_from_spec, spec_from_loader
from types import ModuleType

from e1gw_common.programs import TOP

SCRIPTS = os.path.join(TOP, 'scripts')


def loaded(name: str) -> ModuleType:
    """A script as a module."""
    loader = SourceFileLoader(name.removesuffix('.py'), os.path.join(SCRIPTS, name))
    spec = spec_from_loader(loader.name, loader)
    assert spec is not None
    module = sys.modules[loader.name] = module_from_spec(spec)
    loader.exec_module(module)
    return module


class FolderCase(unittest.TestCase):
    """Tests with a folder of their own."""

    def setUp(self) -> None:
        folder = tempfile.TemporaryDirectory()
        self.addCleanup(folder.cleanup)
        self.top = os.path.realpath(folder.name)

    def write(self, path: str, text: str, mode: int = 0o644) -> None:
        path = os.path.join(self.top, path)
        os.makedirs(os.path.dirname(path), exist_ok=True)
        with open(path, 'w', encoding='utf-8') as file:
            file.write(text)
        os.chmod(path, mode)
