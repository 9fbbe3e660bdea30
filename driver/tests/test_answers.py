"""Answers of a control socket: a word that programs read, and what people do."""
from __future__ import annotations

import socket
import unittest
from unittest import mock

from e1gw.holder.reloading import Reloads
from e1gw.holder.requests import HolderRequest
from e1gw.watcher.connection import NoAnswer
from e1gw.watcher.watch import TrunkWatch
from e1gw_common.answers import DONE, AnswerWord, CommandAnswer, answer_in, refused
from e1gw_common.session import Command


class AnswerTests(unittest.IsolatedAsyncioTestCase):
    def test_lines(self) -> None:
        """Whatever is said of it, the word is read behind the command."""
        for answer, text in (
                (DONE, 'seize 3: done'), (refused('not idle: done'), 'seize 3: refused: not idle: done'),
                (CommandAnswer(AnswerWord.UNKNOWN, 'no answer', ('a', 'b: done')),
                 'seize 3: a\nseize 3: b: done\nseize 3: unknown: no answer'),
                (CommandAnswer(AnswerWord.BUSY, 'one goes on'), 'seize 3: busy: one goes on')):
            self.assertEqual((answer.lines('seize 3'), answer_in(text.splitlines())), (text, answer))
        for text in '', 'rows', 'done', 'seize 3: not done', 'active, fed':
            self.assertIsNone(answer_in(text.splitlines()), text)

    async def test_what_was_given_may_be_done(self) -> None:
        """What reached no program is not."""
        for is_given, word in (True, AnswerWord.UNKNOWN), (False, AnswerWord.REFUSED):
            its = mock.MagicMock()
            its._program.ask.side_effect = NoAnswer('why', is_given)
            answer = await TrunkWatch.command(its, b'', 3, Command.SEIZE.word)
            self.assertEqual(answer, CommandAnswer(word, 'why'))
            its.count.assert_called_once_with(3, 'seize', 'why')

    def test_a_reload_at_a_time(self) -> None:
        """One that comes meanwhile may be asked for again; behind the end none."""
        for ending, said in ('', b'reload: busy: one is tried already\n'), ('SIGTERM', b'reload: refused: '):
            ours, theirs = socket.socketpair()
            reloads = Reloads(mock.Mock(ending=ending))
            setattr(reloads, '_job', mock.Mock())
            reloads.begin(HolderRequest(ours, 'reload'))
            with theirs:
                self.assertTrue(theirs.recv(100).startswith(said), ending)
