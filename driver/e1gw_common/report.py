"""What a program tells those who follow it: each report by its name and fields, as a line of JSON."""
from __future__ import annotations

import json
import time
from dataclasses import dataclass, fields
from typing import ClassVar


@dataclass(frozen=True)
class Report:
    """What a program tells those who follow it. A field without a value is not told."""

    name: ClassVar[str]

    def plain(self) -> dict[str, object]:
        """As plain values."""
        its = {each.name.rstrip('_'): getattr(self, each.name) for each in fields(self)}
        return {'event': self.name} | {key: value for key, value in its.items() if value is not None}


def json_line(report: Report, **more: object) -> str:
    """A report as a line, with more that it need not say itself."""
    return json.dumps({'time': round(time.time(), 6), **more, **report.plain()})
