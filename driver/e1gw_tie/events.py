"""What a tie reports."""
from __future__ import annotations

from dataclasses import dataclass
from typing import Callable, Mapping

from e1gw_common.report import Report

Tell = Callable[[Report], None]


@dataclass(frozen=True)
class Started(Report):
    name = 'start'
    control: str
    hold: float
    place: str
    connection: str


@dataclass(frozen=True)
class Ended(Report):
    name = 'end'
    status: int


@dataclass(frozen=True)
class Warned(Report):
    name = 'warning'
    about: str
    circuits: tuple[int, ...] | None = None
    answer: str | None = None


@dataclass(frozen=True)
class TrunkFollowed(Report):
    name = 'trunk'
    states: Mapping[str, int]       # how many circuits have which


@dataclass(frozen=True)
class Gone(Report):
    why: str


class TrunkGone(Gone):
    name = 'trunk gone'


class SiteGone(Gone):
    name = 'site gone'


class NoConnection(Gone):
    name = 'no connection'


class Dark(Report):
    """The trunk here carries no calls."""

    name = 'dark'


class Light(Report):
    """It does again."""

    name = 'light'


@dataclass(frozen=True)
class SiteCame(Report):
    name = 'site'
    circuits: int
    left: tuple[int, ...]           # circuits of the map here that the other site does not join


@dataclass(frozen=True)
class LinkChanged(Report):
    name = 'link'
    state: str
    site: bool
    dark: bool
    far_dark: bool


@dataclass(frozen=True)
class CommandAnswered(Report):
    name = 'command'
    circuit: int
    command: str
    answer: str
    ms: float
    why: str | None                 # an outgoing end clears its call


@dataclass(frozen=True)
class CodecGiven(Report):
    name = 'codec'
    circuit: int
    codec: str
    payload: int
    answer: str


@dataclass(frozen=True)
class CallOver(Report):
    """It could not be set up, or is lost."""

    name = 'over'
    circuit: int
    call: str | None
    link: str


@dataclass(frozen=True)
class ReleaseStuck(Report):
    """The exchange does not follow a release."""

    name = 'stuck'
    circuit: int
