"""What a holder is asked, at FOLDER/hold: each request has an answer, if it is that there is none."""
from __future__ import annotations

import asyncio

from e1gw_common.answers import AnswerWord, CommandAnswer, answer_in, refused
from e1gw_common.faults import words_of_fault

PATIENCE = 90.0             # seconds for a version to be tried, and for a program of it to carry the trunk


async def ask_within(path: str, words: str, seconds: float) -> str:
    """The answer of the holder to words; nothing if it ends before. TimeoutError if it says none in time, OSError if
    there is no holder."""
    async with asyncio.timeout(seconds):
        reader, writer = await asyncio.open_unix_connection(path)
        try:
            writer.write(f'{words}\n'.encode())
            return (await reader.read()).decode(errors='replace').strip()
        finally:
            writer.close()


async def ask(path: str, words: str, seconds: float | None = None) -> CommandAnswer:
    """The answer of the holder to words, or that there is none."""
    seconds = PATIENCE if seconds is None else seconds
    try:
        lines = (await ask_within(path, words, seconds)).splitlines()
    except TimeoutError:
        return CommandAnswer(AnswerWord.UNKNOWN, f'the holder does not answer within {seconds:g} s')
    except OSError as fault:
        return refused(f'there is no holder: {words_of_fault(fault, path)}')
    if not lines:
        return CommandAnswer(AnswerWord.UNKNOWN, 'the holder has ended before it has answered')
    return answer_in(lines) or refused(lines[-1])
