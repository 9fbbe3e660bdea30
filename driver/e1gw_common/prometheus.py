"""The text of Prometheus, version 0.0.4, of families of samples."""
from __future__ import annotations

from collections.abc import Collection, Iterable, Mapping

Labels = Mapping[str, object]
Samples = Iterable[tuple[Labels, float | int]] | float | int
Family = tuple[str, str, Samples]       # its name, what it is, and its samples, or one that is a number


def text_of(families: Iterable[Family], common: Labels, untyped: Collection[str] = ()) -> str:
    """The text of families, whose kinds their names show, or which are `untyped`; `common` are labels that each sample
    has."""
    return ''.join(_family(*each, common, 'untyped' if each[0] in untyped else '') for each in families)


def _family(name: str, about: str, samples: Samples, common: Labels, kind: str) -> str:
    kind = kind or ('counter' if name.endswith('_total') else 'gauge')
    samples = [({}, samples)] if isinstance(samples, (int, float)) else samples
    text = [f'# HELP {name} {about}\n# TYPE {name} {kind}\n']
    for labels, value in samples:
        inside = ','.join(f'{key}="{_escaped(each)}"' for key, each in {**common, **labels}.items())
        text.append(f'{name}{{{inside}}} {value + 0}\n' if inside else f'{name} {value + 0}\n')     # (0 for False)
    return ''.join(text)


def _escaped(value: object) -> str:
    return str(value).replace('\\', r'\\').replace('"', r'\"').replace('\n', r'\n')
