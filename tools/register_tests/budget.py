"""conclude --budget and the library behind it; left out where target/staticlib has no library."""
import os
import pathlib
import shutil
import tempfile
import unittest
from unittest import mock

import book_format as f
from bars_table import bars
from register_lib import library

from .common import EXAMPLES, HEAD, FileCase, register

ARCHIVE = library.ARCHIVE
CHAIN = HEAD + 'TransitiveObjectProperty(:p)\n' + '\n'.join(f'ObjectPropertyAssertion(:p :i{n} :i{n + 1})' for n in range(399)) + '\n)'


@unittest.skipUnless(ARCHIVE.exists() and shutil.which(library.CC),
                     f'runs of the library, which take {library.CC} and `{library.BUILD}`')
class Library(FileCase):
    def setUp(self):
        library.opened.cache_clear()

    def test_chain(self):
        """400 individuals under a transitive role: 79,800 edges, with a budget of as many and no less."""
        for budget in (100000, 79800, 1000000):
            status, out, err = self.run_on(CHAIN, 'conclude', '--budget', budget)
            self.assertEqual((status, err), (0, ''))
            self.assertTrue(out.startswith('# finished: 0 types, 79,800 edges, 0 same pairs\n'), out[:60])
            listed = {line.strip() for line in out.splitlines() if 'Assertion' in line}
            self.assertEqual(listed, {f'ObjectPropertyAssertion(:p :i{n} :i{m})' for m in range(400) for n in range(m)})
        self.assertEqual(self.run_on(CHAIN, 'conclude', '--budget', 79799), (
            4, 'spent: the conclusions have more types and edges than the budget of 79,799.\n'
            'With a larger one, by the proved library: tools/register conclude --budget 160000 FILE\n', ''))

    def test_examples(self):
        """The library's conclusions are the program's."""
        for path in EXAMPLES:
            self.assertEqual(register('conclude', '--budget', 4000, path)[1], path.with_suffix('.expected').read_text(encoding='utf-8'))

    def test_pairs(self):
        """2,016 same pairs, more than the program lists, and as many as 512 individuals can have."""
        for fillers, pairs in ((64, '2,016'), (511, '130,305')):
            axioms = 'FunctionalObjectProperty(:p)' + '\n'.join(f'ObjectPropertyAssertion(:p :s :i{n})' for n in range(fillers))
            status, out, err = self.run_on(HEAD + axioms + ')', 'conclude', '--budget', fillers)
            self.assertEqual((status, err, out.split('\n')[0]), (0, '', f'# finished: 0 types, {fillers} edges, {pairs} same pairs'))

    def test_long(self):
        """A book of more bytes than the program reads."""
        wide = 'SubClassOf(:A ObjectIntersectionOf(' + ':B ' * 250 + 'ObjectMaxCardinality({} :r)))'
        text = HEAD + 'ClassAssertion(:A :a)' + '\n'.join(wide.format(n) for n in range(200)) + ')'
        self.assertIn('bytes, and a book for the program has at most 65,536', self.run_on(text, 'conclude')[2])
        self.assertTrue(self.run_on(text, 'conclude', '--budget', 2)[1].startswith('# finished: 2 types'))

    def test_ends(self):
        """Each worked example with its budget and lists: end, counts, and every entry at exit."""
        for bar in bars():
            run = library.saturate(bar.data, bar.budget, bar.type_room, bar.edge_room, bar.pair_room)
            word, *numbers = bar.end.split()
            numbers = [int(n) for n in numbers]
            end = library.REFUSED + numbers[0] if word == 'refused' else {'finished': library.FINISHED, 'clash': library.CLASH, 'spent': library.SPENT}[word]
            counts = [] if word == 'refused' else numbers
            self.assertEqual(run[:4], (end, *counts, *[0] * (3 - len(counts))), bar.label)
            for entries, rows in zip(run[4:], (bar.types, bar.edges, bar.pairs)):
                filled = [n for row in rows for n in row]
                self.assertEqual(entries[:], filled + [0] * (len(entries) - len(filled)), bar.label)

    def test_named_part(self):
        self.assertEqual([library.named_part(0, 5, 7, named) for named in (library.EDGES, library.PAIRS, 2)], [15, 14, 0])
        self.assertEqual(library.named_part(library.CLASH, 5, 7, library.EDGES), 0)

    def test_deep_stack(self):
        """The largest tables there are, on a book that fills them."""
        data = f.write((256, 64, 512), [(f.ATOMIC, 0)], [(f.ROLE_ASSERTION, 126, n, 511 - n) for n in range(512)] + [(f.CLASS_ASSERTION, 0, 511)])
        run = library.saturate(data, 1000, 2000, 3000, 0)
        self.assertEqual(run[:4], (library.FINISHED, 1, 512, 0))

    def test_linking(self):
        """The shared object is linked where it is missing or older than the library, and a linker that fails is told."""
        with tempfile.TemporaryDirectory() as folder, mock.patch.object(library, 'ARCHIVE', pathlib.Path(folder, library.ARCHIVE.name)) as archive:
            shutil.copy(ARCHIVE, archive)
            first = library.linked()
            made = first.stat().st_mtime_ns
            self.assertEqual(library.linked().stat().st_mtime_ns, made)
            os.utime(archive, ns=(made + 1, made + 1))
            self.assertNotEqual(library.linked().stat().st_mtime_ns, made)
            self.assertEqual({path.name for path in archive.parent.iterdir()}, {archive.name, first.name})
            first.unlink()
            for cc in ('no-such-compiler', 'false'):
                with mock.patch.object(library, 'CC', cc), self.assertRaisesRegex(library.NotBuilt, f'^{cc}, which links the library'):
                    library.linked()
