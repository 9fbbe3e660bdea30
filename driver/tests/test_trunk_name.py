"""Which names a trunk may have: who holds it and who watches it say the same."""
from __future__ import annotations

import os
import unittest

from e1gw.holder.options import options_of
from e1gw.watcher.main import parser
from e1gw.watcher.options import folder_of


class TrunkNameTests(unittest.TestCase):
    # The configuration, what is asked for with --name, and the name; none if it is refused.
    ROWS = (('/c/trunk.toml', '', 'trunk'), ('/c/trunk.toml', 'a b', 'a b'), ('/c/trunk.toml', '...', '...'),
            ('/c/.toml', '', '.toml'), ('/c/', '', 'c'), ('/c/d/..', '', 'c'), ('/c/trunk.toml', '.', None),
            ('/c/trunk.toml', '..', None), ('/c/trunk.toml', 'x/y', None), ('/c/trunk.toml', 'x\n', None),
            ('/c/x\ny.toml', '', None), ('/', '', None))

    def test_of_both(self) -> None:
        for config, asked, name in self.ROWS:
            words = ['--config', config, '--program', '/bin/e1gw', '--folder', '/f', *['--name', asked] * bool(asked)]
            with self.subTest(config=config, asked=asked):
                if name is None:
                    with self.assertRaisesRegex(ValueError, '^--name .* is no name of a file$'):
                        options_of([*words, '--unix', 'a'], {})
                    with self.assertRaisesRegex(ValueError, '^--name .* is no name of a file$'):
                        folder_of(parser().parse_args(words))
                else:
                    found = options_of([*words, '--unix', 'a'], {})
                    self.assertEqual((found.name, found.folder), (name, f'/f/{name}-{os.getuid()}'))
                    self.assertEqual(folder_of(parser().parse_args(words)), found.folder)
