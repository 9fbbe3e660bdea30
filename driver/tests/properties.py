"""Properties that hold whatever happens, by Debian's python3-hypothesis: in one process, by a clock of their own."""
from __future__ import annotations

import importlib
import os
import sys
import tempfile
import unittest
from typing import Any, Callable


def loaded(name: str) -> Any:
    """A module, also if only Debian's Python 3.11 has it; None if there is none."""
    sys.path.append('/usr/lib/python3/dist-packages')
    try:
        return importlib.import_module(name)
    except ImportError:
        return None
    finally:
        sys.path.pop()


# (what it keeps of Unicode)
os.environ.setdefault('HYPOTHESIS_STORAGE_DIRECTORY', f'{tempfile.gettempdir()}/hypothesis-{os.getuid()}')
hypothesis, strategies = loaded('hypothesis'), loaded('hypothesis.strategies')
EXAMPLES = 300


class PropertyCase(unittest.TestCase):
    """Tests whose steps hypothesis chooses, of the strategies `st`: always the same ones, or with another --seed of
    scripts/test others."""

    st: Any = strategies

    @classmethod
    def setUpClass(cls) -> None:
        if hypothesis is None:
            raise unittest.SkipTest('no python3-hypothesis')

    def holds(self, check: Callable[..., None], *given: Any, examples: int = EXAMPLES) -> None:
        """Whether this ends well for whatever it is given. What fails is made small, unless nobody reads it: then fewer
        examples do."""
        seed, phases = os.environ.get('E1GW_SEED', '1'), [hypothesis.Phase.generate, hypothesis.Phase.shrink]
        few = 3 if 'E1GW_MUTANT' in os.environ else 1
        wanted = hypothesis.settings(max_examples=examples // few, deadline=None, database=None,
                                     derandomize=seed == '1', phases=phases[:1 if few > 1 else 2],
                                     suppress_health_check=list(hypothesis.HealthCheck))
        chosen = wanted(hypothesis.given(*given)(check))
        (chosen if seed == '1' else hypothesis.seed(int(seed))(chosen))()
