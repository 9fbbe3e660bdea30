"""Starts a command, as the programs bin/e1gw-NAME do."""
import importlib
import os
import sys
from types import ModuleType
from typing import NoReturn, Sequence

# The module that has main(), by the command's name without e1gw-.
COMMANDS = {
    'call': 'e1gw_tools.call', 'config': 'e1gw_tools.config', 'ctl': 'e1gw.ctl', 'exchange': 'e1gw_tools.exchange',
    'pcap': 'e1gw_tools.pcap', 'picture': 'e1gw_picture.main', 'records': 'e1gw_tools.records',
    'tie': 'e1gw_tie.main', 'trunk': 'e1gw.holder.main', 'watch': 'e1gw.watcher.main'}
PICTURE = 'e1gw_picture'    # may not be there: it is of the package e1gw-picture


def load(name: str) -> ModuleType:
    """The module of a command."""
    return importlib.import_module(COMMANDS[name])


def complete() -> None:
    """Has the command's parser answer bash, which asks what a word may be, by argcomplete."""
    import argparse
    try:
        import argcomplete
    except ImportError:
        sys.exit('e1gw: completion needs the package python3-argcomplete')
    parse = argparse.ArgumentParser.parse_args

    def answer(parser: argparse.ArgumentParser, words: Sequence[str] | None = None) -> argparse.Namespace:
        argcomplete.autocomplete(parser, always_complete_options=False)     # which ends the process
        return parse(parser, words)
    setattr(argparse.ArgumentParser, 'parse_args', answer)


def start(name: str) -> NoReturn:
    """Runs a command with the words of the command line."""
    if '_ARGCOMPLETE' in os.environ:
        complete()
    try:
        sys.exit(load(name).main())
    except ModuleNotFoundError as fault:
        if fault.name != PICTURE:
            raise
        sys.exit(f'e1gw-{name}: it needs the package e1gw-picture')
