"""Tests scripts/wrong-bodies on a small crate, with the prover, and which function a place is in."""
import io
import os
import shutil
import subprocess
import sys
import unittest
from contextlib import redirect_stdout
from unittest import mock

import pytest

import rattle_source
from . import FolderCase, SCRIPTS, loaded


SOURCE = '''//! Sums of small numbers.
#![tactic(auto)]

ghost use Rattle.std.specs.Prelude.{◌≡◌, ◌+◌, ◌<◌, ◌≤◌};

/// One more.
pub fn one_more(n: u32) -> u32
    requires { n < 1000 }
    ensures { result ≡ n + 1 }
{
    n + 1
}

/// Two more.
pub fn two_more(n: u32) -> u32
    requires { n < 900 }
    ensures { result ≡ n + 2 }
{
    one_more(one_more(n))
}

/// Four more.
#[tactic(none)]
pub fn four_more(n: u32) -> u32
    requires { n < 900 }
    ensures { result ≡ n + 4 }
{
    n + 4
}
'''
# Without it four_more has no proof, nor has a copy of it.
PROOF = '''use Rattle.std.proofs.Common.{arith}
use Rattle.small.proofs.four_more.Goals as goal

pub overflow_add-result : goal.overflow_add-result
overflow_add-result c = omega (arith, c.requires)

pub returns : goal.returns
returns c = omega arith
'''
TWO = 'old: one_more(one_more(n))\nnew: '
# The wrong bodies, each with what is said of it.
EDITS = {
    'adds_nothing': ('old:     n + 1\nnew:     n', 'refused: '),
    'adds_one': (f'{TWO}one_more(n)', 'refused: '),
    'adds_five': ('old:     n + 4\nnew:     n + 5', 'refused: returns of four_more'),
    'right_body': (f'{TWO}one_more(n) + 1', 'NOT REFUSED: two_more: proved'),
    'right_body_in_a_copy': ('old:     n + 4\nnew:     (n + 4)', 'NOT REFUSED: four_more: proved'),
    'six_in_a_copy': ('old:     n + 4\nnew:     n + 6', 'refused: returns of four_more'),
    'not_there': ('old: one_less(n)\nnew: n', 'BAD EDIT: its old: text is in src/lib.rt 0 times'),
    'name_that_is_gone': (f'{TWO}one_less(one_more(n))', 'cannot be read: '),
    'refused_in_its_caller': ('old: ensures { result ≡ n + 1 }\nnew: ensures { result ≤ n + 1 }',
                              'NOT REFUSED: one_more: proved'),
    'without_a_function': ('old: //! Sums of small numbers.\nnew: //! Sums.', 'BAD EDIT: it edits what is in no'),
}


@pytest.mark.timeout(900)       # (seconds: it calls the prover)
class WrongBodiesTests(FolderCase):
    def setUp(self) -> None:
        super().setUp()
        os.mkdir(f'{self.top}/scripts')
        for name in ('wrong-bodies', 'libraries.py', 'kit.py', 'rattle_source.py'):
            shutil.copy(f'{SCRIPTS}/{name}', f'{self.top}/scripts/{name}')
        texts = {'crates.txt': 'small:\n', 'crates/small/src/lib.rt': SOURCE,
                 'crates/small/proofs/four_more/Answers.antt': PROOF}
        texts |= {f'crates/small/wrong-bodies/{name}.edit': f'file: src/lib.rt\n{text}\n'
                  for name, (text, _) in EDITS.items()}
        for path, text in texts.items():
            self.write(path, text)

    def test_each_kind(self) -> None:
        ran = subprocess.run([f'{self.top}/scripts/wrong-bodies'], stdout=subprocess.PIPE, text=True)
        told, last = words_of_edits(ran.stdout)
        self.assertEqual(sorted(told), sorted(EDITS))
        for name, (_, said) in EDITS.items():
            self.assertTrue(told[name].startswith(said), f'{name}: {told[name]}')
        self.assertEqual((ran.returncode, last), (1, '4 passed, 6 failed'))

    def test_parts(self) -> None:
        """Each edit is in one part, and one that is none in all of them. (No prover is asked.)"""
        its = loaded('wrong-bodies')
        asked = mock.Mock(**{'return_value.check': lambda crate, texts, functions, kept: ''.join(
            f'fn {crate}::{name}: proved\n' for name in functions) + 'logic=proved\n'})
        told = list[dict[str, str]]()
        for part in list[str](), ['--part', '0/2'], ['--part', '1/2']:
            with mock.patch.multiple(its, TOP=self.top, Toolchain=asked), \
                    mock.patch.multiple(its.libraries, graph=lambda: {'small': []}, below=lambda *_: []), \
                    mock.patch.object(sys, 'argv', ['wrong-bodies', *part]), redirect_stdout(io.StringIO()) as said:
                self.assertEqual(its.main(), 1)
            told.append(words_of_edits(said.getvalue())[0])
        whole, *halves = told
        unread = {name for name, text in whole.items() if text.startswith('BAD EDIT')}
        self.assertEqual((len(whole), len(unread), halves[0] | halves[1]), (len(EDITS), 2, whole))
        self.assertEqual(halves[0].keys() & halves[1].keys(), unread)
        self.assertTrue(all(half.keys() - unread for half in halves))


def words_of_edits(printed: str) -> tuple[dict[str, str], str]:
    """What is said of each edit, and the last line."""
    *lines, last = printed.splitlines()
    return dict(line.removeprefix('small/').split(': ', 1) for line in lines), last


class FunctionTests(unittest.TestCase):
    def test_methods_of_a_type_of_another_file(self) -> None:
        method = ("    fn put(&self, room: [u8; 4]) -> char\n        ensures value { result ≡ f { x = 1 } }\n"
                  "    {\n        '}'\n    }\n}\n")
        heads = {"impl<'a, T: Fn() -> u8> Line<T>": 'lines::Line::put',
                 'impl<T> Sink for Line<T>': 'saving::LineSink::put',
                 'impl<T: Read> Sink for T': 'saving::AnySink::put'}
        for head, path in heads.items():
            sources = {'src/lines.rt': 'pub struct Line<T> { x: T }', 'src/saving.rt': f'{head} {{\n{method}'}
            types, text = rattle_source.types_of(sources), sources['src/saving.rt']
            its = rattle_source.function_at('src/saving.rt', text, text.index("'}'"), types)
            self.assertEqual(its and (its.path, text[its.body:its.body + 2]), (path, '{\n'))
            self.assertIsNone(rattle_source.function_at('src/saving.rt', text, 3, types))
