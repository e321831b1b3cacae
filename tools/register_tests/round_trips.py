"""A book that is shown and packed comes back."""
import pathlib
import random
import re
import tempfile
import unittest

import book_format as f
import reference
from bars_table import bars

from .common import EXAMPLES, HEAD, WORKED, packed, register, shown, some_book


def meaning(data):
    """Counts and statements of a book with every concept written out, so that concept numbers do not matter; and sources."""
    book, trees = f.read(data), []
    for kind, v in book.concepts:
        at = {f.NOT: range(1), f.AND: range(len(v)), f.OR: range(len(v))}.get(kind, range(1, 2) if kind >= f.SOME else ())
        trees.append((kind, *(trees[x] if n in at else x for n, x in enumerate(v))))
    places = {f.SUB_CLASS: (0, 1), f.EQUIVALENT: (0, 1), f.DISJOINT: (0, 1), f.DOMAIN: (1,), f.RANGE: (1,), f.CLASS_ASSERTION: (0,)}
    return book.counts[:3], [(kind, *(trees[x] if n in places.get(kind, ()) else x for n, x in enumerate(v)))
                             for kind, _, v in book.statements], book.marks


class RoundTrips(unittest.TestCase):
    def test_worked_book(self):
        self.assertEqual(packed(shown(WORKED.data)), WORKED.data)

    def test_books(self):
        """A shown book packs into one with the same statements and conclusions; that one comes back byte for byte."""
        rng = random.Random(2)
        for data in [*(some_book(rng) for _ in range(200)), *(bar.data for bar in bars() if not re.match('refused ([4-9]|10|16)$', bar.end))]:
            again = packed(shown(data))
            self.assertEqual(meaning(again), meaning(data))
            self.assertEqual(reference.end(again, 200, 400, 600, 40), reference.end(data, 200, 400, 600, 40))
            self.assertEqual(packed(shown(again)), again)

    def test_names(self):
        with tempfile.TemporaryDirectory() as folder:
            text = (HEAD + 'ClassAssertion(:A _:x) SameIndividual(:é <http://example.org/r#a/b> <urn:n>)\n'
                    'ObjectPropertyAssertion(ObjectInverseOf(:p) _:x :é) SubClassOf(owl:Thing ObjectOneOf(_:y))\n)')
            one, two = f'{folder}/one', f'{folder}/two'
            pathlib.Path(one + '.ofn').write_text(text, encoding='utf-8')
            self.assertEqual(register('pack', one + '.ofn')[::2], (0, ''))
            self.assertEqual(pathlib.Path(one + '.names').read_text(encoding='utf-8'),
                             'Prefix(:=<http://example.org/r#>)\nclass 0 :A\nrole 0 :p\nindividual 0 :é\n'
                             'individual 1 <http://example.org/r#a/b>\nindividual 2 <urn:n>\nindividual 3 _:x\nindividual 4 _:y\n')
            self.again(one, two)

    def again(self, one, two):
        """Packed, shown with its names and packed again: the same book and the same names."""
        status, text, err = register('show', one + '.book', '--names', one + '.names')
        self.assertEqual((status, err), (0, ''))
        pathlib.Path(two + '.ofn').write_text(text, encoding='utf-8')
        self.assertEqual(register('pack', '--strict', two + '.ofn')[::2], (0, ''))
        for end in ('.book', '.names'):
            self.assertEqual(pathlib.Path(one + end).read_bytes(), pathlib.Path(two + end).read_bytes())

    def test_examples(self):
        for path in EXAMPLES:
            with self.subTest(path.name), tempfile.TemporaryDirectory() as folder:
                self.assertEqual(register('pack', '--strict', path, '--out', f'{folder}/one')[::2], (0, ''))
                self.again(f'{folder}/one', f'{folder}/two')

    def test_depth(self):
        """Nesting is bounded by the number of concepts alone."""
        deep = f.write((1, 0, 0), [(f.ATOMIC, 0)] + [(f.NOT, n) for n in range(4095)], [(f.DISJOINT, 4095, 0)])
        # concepts are numbered by first use: the deepest part first, then its wholes
        self.assertEqual(packed(shown(deep)), deep)

    def test_shared_parts(self):
        """A small book whose expressions have 2 to the power of 60 parts is not written out."""
        doubled = f.write((1, 0, 1), [(f.ATOMIC, 0)] + [(f.AND, n, n) for n in range(60)], [(f.CLASS_ASSERTION, 60, 0)])
        with tempfile.NamedTemporaryFile(suffix='.book') as file:
            file.write(doubled)
            file.flush()
            status, out, err = register('show', file.name)
        self.assertEqual((status, out), (1, ''))
        self.assertIn('more than 1,000,000 parts', err)
