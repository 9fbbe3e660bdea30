"""Codecs that commands have given. Each ends with its call: the circuit has that of its configuration again. One that
was given between two calls is for the next one.

What is done follows from how the lines stand, and of a circuit to which one was given between calls from how often it
had been seized then. That is noted: the next watcher, and the next program, go on from it."""
from __future__ import annotations

from typing import Callable, Iterable, Mapping

from e1gw_common.lines import IN_CALL, Line
from e1gw_common.tasks import Tasks, Work
from .tell_lines import TrunkState


def codecs_over(lines: Iterable[Line], given: Mapping[int, int]) -> list[int]:
    """The circuits whose codec has ended with its call; `given` has seizures by circuits."""
    return [line.circuit for line in lines if line.state not in IN_CALL and line.has_other_codec()
            and given.get(line.circuit) != line.seizures]


class CodecWatch:
    """Sees to these. `give` gives a circuit a codec and a payload type, unless it is busy. `note` has `given` noted for
    the next watcher."""

    def __init__(self, state: TrunkState, give: Callable[[int, str, int], Work[object]],
                 is_busy: Callable[[int], bool], note: Callable[[], None]) -> None:
        self.given = dict[int, int]()           # (see there)
        self._state, self._give, self._is_busy, self._note, self._tasks = state, give, is_busy, note, Tasks()

    def on_given(self, circuit: int) -> None:
        """A command has given one to this circuit."""
        line = self._state.lines[circuit]
        if line.state not in IN_CALL:
            self.given[circuit] = line.seizures
            self._note()

    def restore_codecs(self) -> None:
        """To be called at each change and now and then."""
        if self._state.live:
            for n in codecs_over(self._state.lines.values(), self.given):
                if not self._is_busy(n):
                    self._tasks.begin(self._give(n, *self._state.lines[n].configured))
