"""A session as one page: the gateway's input, its answers, and anomalies. Other packages use what is named here."""
from collections.abc import Iterable

from .beginning import Begun, begin_at
from .facts import Facts
from .progress import Progress
from .reading import SessionReading, facts_of
from .svg import duration
from .why import finding_lines, last_facts

__all__ = ['Begun', 'Facts', 'Progress', 'SessionReading', 'begin_at', 'draw', 'duration', 'facts_of', 'finding_lines',
           'last_facts']


def draw(facts: Facts, title: str, circuits: list[int] | None = None, notes: Iterable[str] = (), sound: str = ''
         ) -> str:
    """The page of facts. (What draws it takes a while to be read, and who asks for words alone does without.)"""
    from . import page
    return page.draw(facts, title, circuits, notes, sound)
