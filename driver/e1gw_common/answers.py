"""The answer of a control socket to a command: its last line is the command, a word and what there is to say of it."""
from __future__ import annotations

import re
from collections.abc import Sequence
from dataclasses import dataclass
from enum import StrEnum
from typing import NamedTuple

from .faults import words_of_refusal
from .lines import Role
from .session import Refusal


class AnswerWord(StrEnum):
    """What has become of a command."""

    DONE = 'done'
    REFUSED = 'refused'         # nothing is changed
    BUSY = 'busy'               # nothing is changed: another one goes on
    UNKNOWN = 'unknown'         # it may have been done, or may be done yet


LAST = re.compile(f'(.+?): ({"|".join(AnswerWord)})(?:: (.*))?')


class CommandAnswer(NamedTuple):
    """A word; why, if not all was done; what was told before it; and what the program has refused it by."""

    word: AnswerWord
    why: str = ''
    told: tuple[str, ...] = ()
    refusal: Refusal | None = None

    @property
    def is_done(self) -> bool:
        return self.word is AnswerWord.DONE

    @property
    def short(self) -> str:
        """Of which there are few: for counts and events."""
        return self.refusal.words if self.refusal else self.why or self.word

    def lines(self, command: str) -> str:
        """As it is sent."""
        last = f'{self.word}: {self.why}' if self.why else self.word
        return '\n'.join(f'{command}: {line}' for line in (*self.told, last))


@dataclass(frozen=True)
class CommandCount:
    """How often a command had an answer."""

    command: str
    answer: str
    count: int


DONE = CommandAnswer(AnswerWord.DONE)


def refused(why: str) -> CommandAnswer:
    return CommandAnswer(AnswerWord.REFUSED, why)


def refused_by(refusal: Refusal, circuit: int, role: Role) -> CommandAnswer:
    """The program refuses a command of a circuit."""
    return CommandAnswer(AnswerWord.REFUSED, words_of_refusal(refusal, circuit, role), refusal=refusal)


def answer_in(lines: Sequence[str]) -> CommandAnswer | None:
    """The answer that lines end with; None if that is none, as of a question."""
    found = LAST.fullmatch(lines[-1]) if lines else None
    if not found:
        return None
    told = (line.removeprefix(f'{found[1]}: ') for line in lines[:-1])
    return CommandAnswer(AnswerWord(found[2]), found[3] or '', (*told,))
