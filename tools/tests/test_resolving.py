"""Paths through symbolic links, as they were when a call was made."""

import os
import unittest

from crashfs_tools.recorder.main import read_link_target
from crashfs_tools.recorder.resolving import Resolver, removed_path

INSIDE = {
    '/l': 's',
    '/s/up': '..',
    '/s/both': '../l/./t//',
    '/out': '/etc/x',
    '/back': '/home/d/s',
    '/loop': 'loop',
    '/one': 'two',
    '/two': 'one',
    '/mid/l': '../../elsewhere',
}
OUTSIDE = {'/home': 'home2', '/alias': '/home2/me/d', '/home2/elsewhere': 'me/d/s'}


class Resolves(unittest.TestCase):
    def setUp(self):
        self.resolver = Resolver('/home2/me/d', INSIDE.get, OUTSIDE.get)

    def below(self, path: str, follows: bool = False):
        return self.resolver.path_below(self.resolver.resolve(path, follow_last_link=follows))

    def test_links_in_the_middle_are_followed(self):
        for path, wanted in (
            ('/home2/me/d', '/'),
            ('/home2/me/d/', '/'),
            ('/home2/me/d/a', '/a'),
            ('/home2/me/dd/a', None),
            ('/home2/me/d/../d/./a//b', '/a/b'),
            ('/home2/me/d/l/a', '/s/a'),
            ('/home2/me/d/s/both/a', '/s/t/a'),
            ('/home2/me/d/s/up/a', '/a'),
            ('/home2/me/d/l/../a', '/a'),
            ('/home2/me/d/l/up/../../d/l/a', None),
            ('/alias/l/a', '/s/a'),
            ('/home/me/d/l/a', '/s/a'),
            ('/home2/me/d/out/a', None),
        ):
            self.assertEqual(self.below(path), wanted, path)

    def test_a_link_at_the_end_is_followed_if_the_call_does(self):
        for path, left, followed in (
            ('/home2/me/d/l', '/l', '/s'),
            ('/home2/me/d/l/', '/s', '/s'),
            ('/home2/me/d/out', '/out', None),
            ('/home2/me/d/s/up', '/s/up', '/'),
            ('/alias', None, '/'),
            ('/home2/me/d/none', '/none', '/none'),
        ):
            self.assertEqual((self.below(path), self.below(path, True)), (left, followed), path)

    def test_a_link_may_lead_out_and_back(self):
        self.assertEqual(
            self.resolver.resolve('/home2/me/d/back/a', follow_last_link=False), '/home2/d/s/a'
        )
        self.assertEqual(self.below('/home2/me/d/mid/l/a'), None)
        self.assertEqual(
            self.resolver.resolve('/home2/elsewhere/a', follow_last_link=False), '/home2/me/d/s/a'
        )

    def test_links_that_lead_nowhere_end(self):
        for path in ('/home2/me/d/loop/a', '/home2/me/d/one/a', '/home2/me/d/two/'):
            self.assertIsNone(self.resolver.resolve(path, follow_last_link=False))
        self.assertEqual(self.below('/home2/me/d/loop'), '/loop')
        self.assertIsNone(self.below('/home2/me/d/loop', True))

    def test_a_directory_that_is_the_root(self):
        resolver = Resolver('/', {'/l': '/s'}.get, {}.get)
        for path, wanted in (('/', '/'), ('/a', '/a'), ('/l/a', '/s/a'), ('/..', '/')):
            self.assertEqual(
                resolver.path_below(resolver.resolve(path, follow_last_link=False)), wanted
            )

    def test_a_removed_directory_has_nothing_in_it_and_is_left_to_where_it_was(self):
        for top in ('/', '/home2/me/d'):
            resolver = Resolver(top, {'/s': '/etc'}.get, read_link_target)
            for directory in ('/home2/me/d/s', '/home2/me/d', '/home2/me'):
                removed = removed_path(directory)
                for path, wanted in (
                    ('', removed),
                    ('/.', removed),
                    ('/a', f'{removed}/a'),
                    ('/..', os.path.dirname(directory)),
                    ('/../a', os.path.dirname(directory) + '/a'),
                ):
                    resolved = resolver.resolve(removed + path, follow_last_link=True)
                    self.assertEqual(resolved, wanted)
                self.assertIsNone(resolver.path_below(removed))
                self.assertIsNone(resolver.path_below(removed + '/a'))


if __name__ == '__main__':
    unittest.main()
