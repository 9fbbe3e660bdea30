"""What was refused, in words, and readers of options that say so."""
from __future__ import annotations

import argparse
from typing import Callable, NoReturn, TypeVar

from .fault_words import named, options_words, words_of_fault
from .lines import Role
from .session import CommandRefusal, Refusal

T = TypeVar('T')

__all__ = ['Parser', 'checked', 'named', 'number', 'options_words', 'words_of_fault', 'words_of_refusal']


def words_of_refusal(refusal: Refusal, circuit: int, role: Role) -> str:
    """The words of a refusal; for `wrong role` also which end gives such a command."""
    if refusal is not CommandRefusal.WRONG_ROLE:
        return refusal.words
    whose = ('the exchange seizes and clears it' if role is Role.INCOMING
             else 'the exchange answers, clears back and blocks it')
    return f'{refusal.words} (circuit {circuit} is {role}; {whose})'


def number(least: float, most: float, kind: Callable[[str], float] = int) -> Callable[[str], float]:
    """A reader of a number for an option; a number outside is refused with its range."""
    def numeric(text: str) -> float:      # (by its name argparse says what it refuses)
        value = kind(text)
        if not least <= value <= most:
            raise argparse.ArgumentTypeError(f'{text} is not {least} to {most}')
        return value
    return numeric


def checked(read: Callable[[str], T], what: str = '') -> Callable[[str], T]:
    """A reader for an option, whose ValueError is what is said of it, or that it is not `what`."""
    def reads(text: str) -> T:
        try:
            return read(text)
        except ValueError as fault:
            raise argparse.ArgumentTypeError(f'{text} is not {what}' if what else str(fault)) from None
    return reads


class Parser(argparse.ArgumentParser):
    """A parser whose errors are one line, with the file of a unit's options."""

    def error(self, message: str) -> NoReturn:
        self.exit(2, f'{self.prog}: error: {message}; see {self.prog} --help{options_words()}\n')
