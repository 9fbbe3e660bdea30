"""Shows and steers a trunk that e1gw-trunk(1) holds: status, events, metrics, pages, commands of e1gw-ctl(1), a line
for each call, and recordings.

It may end, be killed or be restarted at any time: no call waits for it, and the next one goes on where it was.

Signals: SIGTERM, SIGINT end.
Statuses: 0 ended as asked, or with the trunk; 1 a failure that may pass; 2 the command line, or another one watches
the trunk.
"""
from __future__ import annotations

import argparse
import asyncio
import logging
import os
import signal
import sys
from contextlib import suppress
from typing import NoReturn

from e1gw_common.faults import Parser, options_words, words_of_fault
from e1gw_common.notifier import Notifier
from e1gw_common.programs import program_of
from e1gw_common.tasks import wait_any, run_periodically, reporting_failures
from e1gw_common.unix_listener import CannotListen
from e1gw_common.writers import hold_descriptors
from ..clearing import on_loss_of
from ..holder_state import STARTED_BY, TrunkPlaces
from ..lock import InUse, is_at, take_lock
from .held import HeldTrunk, state_of, wait_of
from .journal import ServiceJournal
from .memo import WatchNote, blocks_told, note_in
from .note import NoteFiles
from .options import add_options, feeding_of, folder_now, recording_of, watched_of
from .pair import open_pair
from .reader import LogReader, ReadingNote
from .watch import TrunkWatch

NAME = 'e1gw-watch'
LOOK, NOTED = 0.24, 1.0     # seconds between two looks at what the holder says, and between two notes
GRACE = 5.0                 # seconds for what is written at the end

logger = logging.getLogger(__name__)


def parser() -> argparse.ArgumentParser:
    """The options."""
    words = Parser(NAME, description=__doc__, usage=f'{NAME} --config FILE [OPTION..]', add_help=False,
                   formatter_class=argparse.RawDescriptionHelpFormatter)
    add_options(words)
    return words


class WatchLock:
    """The lock of who watches a trunk: another one is refused, and told which process this is."""

    def __init__(self, path: str) -> None:
        self._path, self._file = path, -1

    def take(self) -> bool:
        """Takes it, also in a folder that was made again; whether it is had: there may be no folder. InUse says who has
        it."""
        if self._file >= 0 and is_at(self._file, self._path):
            return True
        try:
            file = take_lock(self._path)
        except OSError:
            return False
        if self._file >= 0:
            os.close(self._file)
        self._file = file
        return True


class Watcher:
    """One trunk that is watched, to its end."""

    def __init__(self, asked: argparse.Namespace, places: TrunkPlaces, lock: WatchLock, ending: asyncio.Event) -> None:
        self._asked, self._places, self._lock, self._ending = asked, places, lock, ending
        self.status = 0
        self._is_over = False                   # the trunk has ended
        self._trunk: HeldTrunk
        self._watch: TrunkWatch
        self._reader: LogReader
        self._notes: NoteFiles

    async def begin(self) -> bool:
        """Begins, where the watcher before has left, once there is a holder; whether there is one."""
        if not (state := await state_of(self._places, self._ending)):
            return False
        self._make_folder()
        asked, note, program = self._asked, self._noted(), program_of(self._asked.program, '--unproved')
        self._trunk = trunk = HeldTrunk(self._places, state, program, asked.config,
                                        lambda event: watch.report_event(event), note.held if note else None)
        wants = recording_of(asked, wait_of(state.words))
        self._reader = reader = LogReader(self._places.log, asked.gap / 1000, wants, self.note, trunk.config_octets)
        trunk.set_reader(reader)
        self._watch = watch = TrunkWatch(watched_of(asked, program), trunk)
        if note:
            self._restore_note(note)
        reader.restore_note(note.read if note else ReadingNote(), note.recording if note else None)
        watch.client.changed = self.note
        if pair := open_pair(asked, trunk, watch.report_event):
            trunk.set_pair(pair)
        return True

    def _make_folder(self) -> None:
        """Its folder in that of the trunk, if that is there: the holder makes that."""
        with suppress(FileExistsError, FileNotFoundError):
            os.mkdir(self._places.watch, 0o700)

    def _noted(self) -> WatchNote | None:
        """What the watcher before this one has noted."""
        self._notes = NoteFiles(self._places.watch)
        return note_in(self._notes.read())

    def _restore_note(self, note: WatchNote) -> None:
        """What was told is not told again."""
        watch = self._watch
        watch.client.restore_told(note.told)
        watch.restore_shown(note.shown)
        if note.calls:
            watch.restore_note(note.calls)
        kept = watch.blocks.kept
        kept.now = blocks_told(kept.now, note.blocks)
        watch.codecs.given = note.codecs

    def note(self) -> None:
        """Notes what the next watcher goes on with."""
        watch, reader = self._watch, self._reader
        with reporting_failures('the note for the next watcher'):
            blocks = {n: each.name for n, each in watch.blocks.kept.now.circuits.items()}
            text = WatchNote(self._trunk.noted(), reader.noted(), watch.client.counts_told(), watch.page_notes(),
                             blocks, watch.codecs.given, reader.recording_note(), watch.client.calls_note()).text()
            try:
                self._notes.write_text(text)
            except FileNotFoundError:           # (the trunk has ended, or its folder is made again)
                self._make_folder()

    def follow_trunk(self) -> None:
        """A few times a second."""
        try:
            self._lock.take()
        except InUse as fault:
            logger.error('process %s watches this trunk', fault)
            self.status = 2
            return self._ending.set()
        if (folder := folder_now(self._asked)) != self._places.folder and os.path.exists(f'{folder}/holder'):
            logger.warning('the folder of the trunk is %s from now on', folder)
            self.status = 1                     # (and the next watcher is there)
            return self._ending.set()
        if is_over(self._places):
            self._is_over = True
            logger.info('ends: the trunk has ended')
            return self._ending.set()
        self._trunk.follow_holder()
        if self._trunk.pair:
            self._trunk.pair.follow_role()

    async def run(self) -> None:
        """Until the end."""
        await self._watch.open()
        with run_periodically(LOOK, self.follow_trunk, 'the look at the holder'), \
                run_periodically(NOTED, self.note, 'the note'):
            works = [asyncio.create_task(work) for work in (self._reader.run(), self._watch.run())]
            await self._ending.wait()
        self._is_over = self._is_over or is_over(self._places)
        if not self._is_over:
            self._watch.on_trunk_restart()
        for each in works:
            each.cancel()
        await asyncio.wait(works, timeout=GRACE)
        await self._reader.finish()
        if not self._is_over:
            self.note()
        self._trunk.close()


def is_over(places: TrunkPlaces) -> bool:
    """Whether a trunk has ended in order: its holder leaves nothing. (One that was killed leaves its lock.)"""
    return not (os.path.exists(places.holder) or os.path.exists(f'{places.folder}.lock'))


async def watch_trunk(asked: argparse.Namespace) -> int:
    """Watches to the end; returns the status."""
    places, ending, holder = TrunkPlaces(folder_now(asked)), asyncio.Event(), int(os.environ.get(STARTED_BY, '0'))
    lock, notifier = WatchLock(places.watch_lock), Notifier()
    for number in (signal.SIGTERM, signal.SIGINT):
        asyncio.get_running_loop().add_signal_handler(number, ending.set)
    asyncio.get_running_loop().add_signal_handler(signal.SIGUSR1, lambda: None)

    def look_at_holder() -> None:
        """That which has started this one may end: the next one starts another."""
        if holder and os.getppid() != holder:
            ending.set()
    with run_periodically(LOOK, lambda: notifier.notify('WATCHDOG=1'), 'the sign of life'), \
            run_periodically(LOOK, look_at_holder, 'the look'):
        if not (holder or lock.take()):
            logger.info('no trunk at %s: e1gw-trunk is waited for', places.folder)
        while not (lock.take() or ending.is_set()):
            await wait_any(LOOK, ending)
        watcher = Watcher(asked, places, lock, ending)
        if await watcher.begin():
            notifier.notify('READY=1')
            await watcher.run()
        return watcher.status


def status_of(words: list[str], loop: asyncio.AbstractEventLoop) -> int:
    """Watches by a command line; what is wrong is said in one line."""
    asked = parser().parse_args(words)
    try:
        recording_of(asked, 0)
        on_loss_of(asked.on_loss)
        folder_now(asked)
        feeding_of(asked)
    except ValueError as fault:
        logger.error('%s; see %s --help%s', fault, NAME, options_words())
        return 2
    try:
        return loop.run_until_complete(watch_trunk(asked))
    except InUse as fault:
        logger.error('process %s watches this trunk', fault)
        return 2
    except CannotListen as fault:
        logger.error('cannot listen: %s', words_of_fault(fault))
        return 2
    except OSError as fault:            # (what is away may come back)
        logger.error('%s', words_of_fault(fault))
        return 1


def main(words: list[str] | None = None) -> NoReturn:
    hold_descriptors()
    journal, loop = ServiceJournal(NAME), asyncio.new_event_loop()
    status = status_of(sys.argv[1:] if words is None else words, loop)
    journal.close()
    os._exit(status)


if __name__ == '__main__':
    main()
