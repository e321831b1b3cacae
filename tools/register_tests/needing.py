"""need, and conclude with the budget that it tells; left out where target/staticlib has no library."""
import shutil
import unittest
from unittest import mock

import book_format as f
import reference
from register_lib import library

from .budget import CHAIN
from .common import EXAMPLES, HEAD, FileCase, register


def linked(count):
    """Individuals in a row, linked by one role."""
    return HEAD + '\n'.join(f'ObjectPropertyAssertion(:p :i{n} :i{n + 1})' for n in range(count - 1)) + '\n)'


@unittest.skipUnless(library.ARCHIVE.exists() and shutil.which(library.CC),
                     f'the figure of the library, which takes {library.CC} and `{library.BUILD}`')
class Needing(FileCase):
    def needed(self, text):
        """Exit status and lines, with the file's name left out."""
        status, out, err = self.run_on(text, 'need')
        self.assertEqual(err, '')
        first, *others = out.splitlines()
        return status, [first.split(': ', 1)[1], *(line.rsplit(' ', 1)[0] if 'tools/register' in line else line for line in others)]

    def test_small(self):
        """A register for which the program's budget is enough."""
        text = HEAD + 'SubClassOf(:A :B) ClassAssertion(:A :a) ObjectPropertyAssertion(:p :a :b))'
        self.assertEqual(self.needed(text), (0, [
            'at most 8 types and edges together', 'A budget of 8 is never spent; it asks for a type list of 16 entries and an edge list of 24.',
            "The program's budget of 4,000 is enough: tools/register conclude"]))

    def test_limits(self):
        """At the program's budget, above it, at the largest budget and above that."""
        rows = [(63, 3969, "The program's budget of 4,000 is enough: tools/register conclude"),
                (64, 4096, 'By the proved library: tools/register conclude --budget 4096'),
                (400, 160000, 'By the proved library: tools/register conclude --budget 160000')]
        for count, figure, last in rows:
            self.assertEqual(self.needed(linked(count)), (0, [
                f'at most {figure:,} types and edges together',
                f'A budget of {figure:,} is never spent; it asks for a type list of {2 * figure:,} entries and an edge list of {3 * figure:,}.', last]))
        many = linked(512)[:-1] + ' '.join(f'ObjectPropertyAssertion(:r{n} :i0 :i1)' for n in range(3)) + ')'
        self.assertEqual(self.needed(many), (0, [
            'at most 1,048,576 types and edges together',
            'The largest budget, 1,000,000, may be spent: tools/register conclude --budget 1000000']))

    def test_empty(self):
        self.assertEqual(self.needed(HEAD + 'Declaration(Class(:A)))')[1][0], 'at most 0 types and edges together')

    def test_examples(self):
        for path in EXAMPLES:
            packed = self.packed(path)
            status, out, err = register('need', path)
            self.assertEqual((status, err), (0, ''))
            self.assertTrue(out.startswith(f'{path}: at most {reference.figure(packed):,} type'), out)

    def packed(self, path):
        """The bytes of a register's book."""
        from register_lib.command import packed
        return packed(str(path), False).data()

    def test_conclude(self):
        """79,800 edges, more than the program keeps: the figure is the budget. With a program named, that runs."""
        status, out, err = self.run_on(CHAIN, 'conclude')
        self.assertEqual((status, err), (0, ''))
        self.assertTrue(out.startswith('# finished: 0 types, 79,800 edges, 0 same pairs\n'), out[:60])

    def test_program(self):
        """The figure is no budget where it is the program's or less, or above the largest; nor where there is no library."""
        from register_lib.command import needed_budget
        rows = [(4000, None), (4001, 4001), (1000000, 1000000), (1000001, None)]
        for figure, wanted in rows:
            with mock.patch.object(library, 'figure', return_value=(library.FIGURE, figure)):
                self.assertEqual(needed_budget(b''), wanted)
        with mock.patch.object(library, 'figure', side_effect=library.NotBuilt('not built')):
            self.assertEqual(needed_budget(b''), None)


class Missing(FileCase):
    def test_no_library(self):
        """Without the library need says what builds it."""
        with mock.patch.object(library, 'figure', side_effect=library.NotBuilt('the library is not built')):
            status, out, err = self.run_on(HEAD + ')', 'need')
        self.assertEqual((status, out, err), (2, '', 'the library is not built\n'))
