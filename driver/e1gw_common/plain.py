"""Values as JSON has them, and back: a dataclass is an object with its fields. What another process or a file has
becomes a value of a type here."""
from __future__ import annotations

import dataclasses
import functools
import types
from collections.abc import Mapping
from enum import Enum
from typing import Any, NamedTuple, TypeVar, Union, get_args, get_origin, get_type_hints

T = TypeVar('T')
hints_of = functools.cache(get_type_hints)


class PlainField(NamedTuple):
    """A field of a dataclass, and its key. The keys of a flat one are among those of the whole."""

    name: str
    key: str
    kind: Any
    is_flat: bool


def flat(**more: Any) -> Any:
    """A field, as dataclasses.field, whose keys are among those of the whole: a dataclass, one that may not be there
    (by its first key), or a mapping, which has what is of its kind and no other field's."""
    return dataclasses.field(metadata={'is_flat': True}, **more)


@functools.cache
def fields_of(kind: Any) -> tuple[PlainField, ...]:
    return tuple(PlainField(each.name, each.name.rstrip('_'), hints_of(kind)[each.name], 'is_flat' in each.metadata)
                 for each in dataclasses.fields(kind))     # (a key that is a word of Python has _ behind it here)


def plain_of(value: object) -> Any:
    """A value as JSON has it."""
    kind: Any = type(value)
    if kind in (str, int, float, bool, type(None)):
        return value
    if dataclasses.is_dataclass(kind):
        found = dict[str, Any]()
        for each in fields_of(kind):
            its = plain_of(getattr(value, each.name))
            found |= (its or {}) if each.is_flat else {each.key: its}
        return found
    if isinstance(value, tuple) and hasattr(value, '_asdict'):
        return plain_of(value._asdict())
    if isinstance(value, Mapping):
        return {key: plain_of(each) for key, each in value.items()}
    if isinstance(value, (list, tuple)):
        return [*map(plain_of, value)]
    return value.value if isinstance(value, Enum) else value


def typed(kind: type[T], plain: object) -> T:
    """A value of a type, of what JSON has in its place; keys that are not known are left out. ValueError if it has
    another one."""
    try:
        found: T = _typed(kind, plain)
    except (AttributeError, KeyError, TypeError) as fault:
        raise ValueError(f'no {kind.__name__}: {fault}') from None
    return found


def _typed(kind: Any, plain: Any) -> Any:
    if dataclasses.is_dataclass(kind):
        if not isinstance(plain, dict):
            raise TypeError(f'{plain!r} is no {kind.__name__}')
        keys = {each.key for each in fields_of(kind)}
        return kind(**{each.name: _flat(each.kind, plain, keys) if each.is_flat else _typed(each.kind, plain[each.key])
                       for each in fields_of(kind) if each.is_flat or each.key in plain})   # (others have a default)
    origin, of = get_origin(kind), get_args(kind)
    if hasattr(kind, '_fields'):            # (a NamedTuple, which the note of a watcher has as a list)
        values = plain.items() if isinstance(plain, dict) else zip(kind._fields, plain, strict=True)
        return kind(**{name: _typed(hint, value) for name, value in values if (hint := hints_of(kind).get(name))})
    if origin in (Union, types.UnionType):
        return None if plain is None and type(None) in of else _typed(of[0], plain)
    if origin is tuple:
        each = [of[0]] * len(plain) if of[1:] == (...,) else of
        return tuple(_typed(its, value) for its, value in zip(each, plain, strict=True))
    if origin in (dict, Mapping):
        return {int(key) if of[0] is int else _typed(of[0], key): _typed(of[1], its) for key, its in plain.items()}
    if issubclass(kind, Enum):
        return kind(plain)
    if type(plain) is not kind and not (kind is float and type(plain) is int):
        raise TypeError(f'{plain!r} is no {kind.__name__}')
    return plain


def _flat(kind: Any, plain: Any, own: set[str]) -> Any:
    of = get_args(kind)
    if get_origin(kind) is Mapping:
        return {key: value for key, value in plain.items() if key not in own and type(value) is of[1]}
    part = of[0] if of else kind
    return None if of and fields_of(part)[0].key not in plain else _typed(part, plain)
