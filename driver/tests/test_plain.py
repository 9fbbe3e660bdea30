"""Values as JSON has them, and back."""
from __future__ import annotations

import json
import unittest
from dataclasses import dataclass
from enum import Enum
from typing import Mapping, NamedTuple

from e1gw_common.plain import flat, plain_of, typed


class Colour(Enum):
    RED = 'red'


class Place(NamedTuple):
    name: str
    at: float


@dataclass(frozen=True)
class Counted:
    first: int
    numbers: Mapping[str, int] = flat()


@dataclass(frozen=True)
class Whole:
    part: Counted | None = flat()
    colour: Colour | None = None
    for_: tuple[float, ...] = ()
    places: tuple[Place, ...] = ()
    by: Mapping[int, Colour] | None = None


class PlainTests(unittest.TestCase):
    def test_there_and_back(self) -> None:
        """The keys of a part are among those of the whole; a part that is not there has none."""
        rows: tuple[tuple[Whole, dict[str, object]], ...] = (
                (Whole(None), {'colour': None, 'for': [], 'places': [], 'by': None}),
                (Whole(Counted(1, {'a': 2}), Colour.RED, (1.5,), (Place('b', 3.0),), {4: Colour.RED}),
                 {'first': 1, 'a': 2, 'colour': 'red', 'for': [1.5], 'places': [{'name': 'b', 'at': 3.0}],
                  'by': {4: 'red'}}))
        for value, plain in rows:
            self.assertEqual(plain_of(value), plain)
            self.assertEqual(typed(Whole, json.loads(json.dumps(plain))), value)

    def test_of_another_version(self) -> None:
        """What is not there has its default, and what is not known is left out."""
        self.assertEqual(typed(Whole, {'later': [7]}), Whole(None))
        self.assertEqual(typed(Whole, {'for': [1]}), Whole(None, for_=(1.0,)))
        self.assertEqual(typed(Counted, {'first': 1, 'a': 2, 'b': 'c', 'd': True}), Counted(1, {'a': 2}))

    def test_what_is_of_another_type(self) -> None:
        wrong: tuple[object, ...] = (
            [], 'a', None, {'colour': 'blue'}, {'for': ['a']}, {'for': 1.0}, {'first': 'a'}, {'first': True},
            {'places': [['a']]}, {'places': [{'name': 'a'}]}, {'by': []})
        for plain in wrong:
            self.assertRaises(ValueError, typed, Whole, plain)
