"""What scripts/surface reads of a page and of the code, and what it says where they differ."""
import unittest

from . import loaded

surface = loaded('surface')
PAGE = '''.It lamp.lit, .dim
seconds; age
.It Fl -red , Fl -blue Ar n
.It "lamp gone"
.It none
e1gw_up e1gw_down_total
.It end, lamp
e1gw_lit
'''
PAGE = PAGE.replace('Fl -', '--')


class Surface(unittest.TestCase):
    def test_what_a_page_lists(self) -> None:
        self.assertLessEqual({'lit', 'dim', 'lamp gone'}, surface.items(PAGE))
        self.assertEqual(surface.options_on(PAGE), {'--red', '--blue'})
        self.assertEqual(surface.metrics_on(PAGE), {'e1gw_up', 'e1gw_down_total', 'e1gw_lit end lamp'})

    def test_what_there_is(self) -> None:
        told = '# HELP e1gw_up\ne1gw_up{trunk="a"} 1\ne1gw_lit{trunk="a",end="this",lamp="1"} 0\n'
        self.assertEqual(surface.metrics(told), {'e1gw_up', 'e1gw_lit end lamp'})
        self.assertEqual(surface.keys({'a': [{'b': 1}], 'c': {'d': None}}), {'a', 'b', 'c', 'd'})

    def test_both_ways(self) -> None:
        self.assertEqual([*surface.Listed('a', {'lit', 'dim'}, {'lit', 'dim'}, PAGE, {'age'}).wrong()], [])
        self.assertEqual([*surface.Listed('a', {'lit', 'dim'}, {'lit', 'off', 'lamp gone'}, PAGE, {'why'}).wrong()],
                         ['a does not name lamp gone', 'a does not name off', 'a does not name why',
                          'a names dim, which is not there'])
