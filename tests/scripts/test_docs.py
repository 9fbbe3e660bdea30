"""What scripts/docs says of a small tree of its own."""
from unittest import mock

import pasted
import tree
from . import FolderCase, loaded

LIB = """//! A small crate.

/// Doubles.
///
/// ```rust
/// let twice = double(2);      // four
/// assert_eq!(rt; twice, 4);
/// ```
pub fn double(n: u8) -> u32 {
}

/// ```text
///  1 outgoing
/// ```
pub fn line() {}
"""
TESTS = """#[test]
fn two_and_two(rt: HostRuntime) {
    let twice = double(
        2,
    );
    assert_eq!(rt; twice, 4);
    assert_eq!(rt; line(), " 1 outgoing idle");
}
"""


class Tree(FolderCase):
    def setUp(self) -> None:
        super().setUp()
        self.docs = loaded('docs')
        patched = mock.patch.object(tree, 'TOP', self.top)
        patched.start()
        self.addCleanup(patched.stop)
        self.write('crates.txt', 'small:\n')
        self.write('crates/small/src/lib.rt', LIB)
        self.write('crates/small/src/tests.rt', TESTS)
        self.write('crates/small/must-fail/double_is_three.edit', '')
        self.write('driver/e1gw/calls.py', '"""A line for each call: as CSV.\n\nMore of it."""\n')

    def test_all_as_it_should_be(self) -> None:
        self.assertEqual([*self.docs.wrong_examples(), *self.docs.wrong_names(), *self.docs.wrong_heads()], [])

    def test_examples_that_stand_in_no_test(self) -> None:
        self.write('crates/small/src/tests.rt', TESTS.replace('4', '5').replace(' 1 ', '1  '))
        self.assertEqual([line.split(': ')[0] for line in self.docs.wrong_examples()],
                         ['crates/small/src/lib.rt:5', 'crates/small/src/lib.rt:12'])

    def test_crate_without_wrong_bodies_or_a_head(self) -> None:
        self.write('crates.txt', 'small:\nbare: small arrayvec\nsmall_tests: small\n')
        self.write('crates/bare/src/lib.rt', '//! No end\n\npub fn f() {}\n')
        self.write('crates/small/must-fail/three.edit', '')
        self.assertEqual([*self.docs.wrong_names(), *self.docs.wrong_heads()], [
            'crates/small: the wrong body three: its name is no sentence of words', 'crates/bare: no wrong body',
            'crates/bare/src/lib.rt: does not begin with a sentence'])

    def test_module_without_a_head(self) -> None:
        self.write('driver/e1gw/tie/__init__.py', '')
        self.assertEqual(tree.modules(), {'e1gw/calls': 'A line for each call: as CSV.', 'e1gw/tie/': ''})
        self.assertEqual(list(self.docs.wrong_heads()), ['driver/e1gw/tie/: does not begin with a sentence'])

    def test_links_out_of_the_package(self) -> None:
        self.write('debian/e1gw.docs', 'docs/OPERATING.md\ndocs/TIE.md\n')
        self.write('docs/OPERATING.md', '[a](TIE.md#b) [c](https://d) [e](pictures/f.svg)')
        self.write('docs/TIE.md', '[a](../README.md) [b](OPERATING.md)')
        self.assertEqual(list(self.docs.wrong_links()),
                         ['docs/TIE.md: links to ../README.md, which the package lacks'])

    def test_blocks_with_what_they_print(self) -> None:
        self.write('docs/A.md', '```sh\ncat a \\\n  b\nls\n```\n\n```\n1 .. 3\n```\n\n'
                              '```text\n$ who 1\nup 4.2 s (2)\n```\n')
        self.write('dist/man/a.1', '.Sh EXAMPLES\n.Bd -literal\na \\e\n  b\n.Ed\n.Dl c\n.Sh SEE ALSO\n.Dl d\n')
        first, second = pasted.blocks_of('docs/A.md')
        self.assertEqual((first.line, first.lines(), first.shown), (1, ['cat a \\\n  b\n', 'ls\n'], [r'1\ .*\ 3']))
        self.assertEqual(second.text, 'who 1\n')
        self.assertRegex('up 17.10 s (3)', second.shown[0])
        self.assertEqual([block.text for block in pasted.blocks_of('dist/man/a.1')], ['a \\\n  b\n', 'c\n'])

    def test_options_that_a_command_does_not_have(self) -> None:
        for name in 'bench/greet', 'bin/e1gw-greet':
            self.write(name, '#!/bin/sh\necho "--loud  $1"\n', 0o755)
        for text, wrong in (('a=b bench/greet --loud | cat --x', []),
                            ('cat\nbench/greet \\\n --aloud=1 # --x', ['--aloud']),
                            ('true; e1gw-greet --low', ['--low'])):
            self.assertEqual([line.split()[-1] for line in pasted.wrong_options('A', text, 'e1gw')], wrong)
