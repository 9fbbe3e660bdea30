"""A trunk that is watched, of which a test says what its program and its log are."""
from __future__ import annotations

from contextlib import AbstractContextManager, nullcontext
from types import SimpleNamespace
from typing import cast

from e1gw_common.answers import DONE, CommandAnswer
from e1gw.watcher.blocks import KeptBlocks
from e1gw.watcher.reader import LogReader
from e1gw.watcher.replay import ReplayVersion
from e1gw.watcher.trunk import TrunkFacts, WatchedPlaces, WatchedTrunk


class PlainTrunk(WatchedTrunk):
    """Such a trunk, whose program has begun with the octet `first`."""

    def __init__(self, reader: LogReader, folder: str, config: str, first: int = 0) -> None:
        self._reader, self._config, self.first = reader, config, first
        self._places = SimpleNamespace(folder=folder, tell_path=f'{folder}/tell', control='')

    @property
    def reader(self) -> LogReader:
        return self._reader

    def places(self) -> WatchedPlaces:
        return cast(WatchedPlaces, self._places)

    def blocks(self) -> KeptBlocks:
        return KeptBlocks('')

    def stands_by(self) -> bool:
        return False

    def config_path(self) -> str:
        return self._config

    def version(self) -> AbstractContextManager[ReplayVersion]:
        return nullcontext(cast(ReplayVersion, SimpleNamespace(name='')))

    def facts(self) -> TrunkFacts:
        return TrunkFacts()

    def outage(self) -> str | None:
        return None

    def place(self) -> int:
        return self._reader.octets

    def session(self) -> str:
        return ''

    def start_octet(self) -> int:
        return self.first

    async def request_end(self) -> CommandAnswer:
        return DONE

    async def reload(self, *how: str) -> CommandAnswer:
        return DONE

    async def change_role(self, word: str) -> CommandAnswer:
        return DONE

    def role(self) -> str | None:
        return None
