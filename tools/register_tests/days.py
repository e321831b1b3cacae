"""Days: annotations that say when a statement is in force, as dates, and conclude --day, by the library where it is built and else
by a stand-in that is the reference."""
import pathlib
import shutil
import tempfile
import unittest

import book_format as f
from register_lib import days, library
from register_lib.packer import Packer

from .common import HEAD, PROGRAM, ROOT, FileCase, register
from .readers import WithStandIn

FROM, TO = 'Annotation(<http://schema.org/validFrom> "%s") ', 'Annotation(<http://schema.org/validThrough> "%s") '
BY = 'Annotation(rdfs:isDefinedBy :%s) '
EXAMPLE = ROOT / 'examples' / 'service.ofn'
DATES = ('2026-03-01', '2026-04-30', '2026-05-01')  # of the example


class Dates(unittest.TestCase):
    def test_numbers(self):
        for text, number in (('2000-01-01', 0), ('2000-01-02', 1), ('2000-02-29', 59), ('2000-03-01', 60), ('2001-01-01', 366), ('2026-11-15', 9815),
                             ('2100-02-28', 36583), ('2100-03-01', 36584), ('2179-06-05', 65534), ('2179-06-06', 65535)):
            self.assertEqual((days.number(text), days.written(number)), (number, text))

    def test_wrong(self):
        for text, words in (('1999-12-31', '1999-12-31 is none of the days of a book, 2000-01-01 to 2179-06-06'), ('2179-06-07', 'is none of the days of a book'),
                            ('2026-02-29', '2026-02-29 is no day of the calendar'), ('2026-13-01', 'is no day of the calendar'),
                            ('2026-3-1', '2026-3-1 is no date such as 2026-11-15'), ('15.11.2026', 'is no date'), ('', 'is no date'), ('20261115', 'is no date'),
                            ('2026-11-15T00:00:00', 'is no date'), ('2026-W46-7', 'is no date'), ('+2026-11-15', 'is no date'), ('9815', 'is no date')):
            with self.assertRaisesRegex(ValueError, words):
                days.number(text)


class Packing(FileCase):
    def marks(self, text):
        packer = Packer(HEAD + text + ')')
        packer.pack(strict=True)
        self.assertEqual(packer.over(), [])
        return [tuple(marks) for marks in f.read(packer.data()).marks]

    def test_days(self):
        """Each alone and both, typed or not, by either front of schema.org; the first day of all and the last are those of no annotation."""
        for words, period in ((FROM % '2026-01-12', (9508, 65535)), (TO % '2026-04-30', (0, 9616)), (FROM % '2026-01-12' + TO % '2026-04-30', (9508, 9616)),
                              (TO % '2026-04-30' + FROM % '2026-01-12', (9508, 9616)), (FROM % '2026-01-12' + TO % '2026-01-12', (9508, 9508)),
                              (FROM % '2000-01-01', (0, 65535)), (TO % '2179-06-06', (0, 65535)), (FROM % '2179-06-06', (65535, 65535)), (TO % '2000-01-01', (0, 0)),
                              ('Annotation(<https://schema.org/validFrom> "2026-01-12"^^xsd:date) ', (9508, 65535)), (FROM % '2026-01-12' * 2, (9508, 65535)),
                              ('Annotation(Annotation(rdfs:comment "x") <http://schema.org/validFrom> "2026-01-12") ', (9508, 65535)),
                              ('Annotation(rdfs:comment "2026-01-12") Annotation(<http://schema.org/validity> "2026-01-12") ', (0, 65535))):
            self.assertEqual(self.marks(f'SubClassOf({words}:A :B)'), [(0, *period)], words)

    def test_with_sources(self):
        """An axiom with several sources is stated by each in its period, and so each pair of a list."""
        words = BY % 'w' + FROM % '2026-01-12' + BY % 'v'
        self.assertEqual(self.marks(f'SameIndividual({words}:a :b :c) SubClassOf(:A :B)'), [(1, 9508, 65535), (2, 9508, 65535)] * 2 + [(0, 0, 65535)])

    def test_faults(self):
        """Each fault is told with its line and column."""
        rows = [(FROM % '2026-02-30', '2026-02-30 is no day of the calendar'), (TO % '2179-06-07', '2179-06-07 is none of the days of a book, 2000-01-01 to 2179-06-06'),
                (FROM % 'May', 'May is no date such as 2026-11-15'), ('Annotation(<http://schema.org/validFrom> :May) ', 'expected a date such as "2026-11-15"'),
                ('Annotation(<http://schema.org/validThrough> 2026) ', 'expected a date such as "2026-11-15"'),
                (FROM % '2026-05-01' + TO % '2026-04-30', 'the last day, 2026-04-30, is before the first, 2026-05-01'),
                (FROM % '2026-05-01' + FROM % '2026-05-02', 'a statement has one first day; for two periods the axiom stands twice'),
                (TO % '2026-05-01' + TO % '2026-05-02', 'a statement has one last day')]
        for words, said in rows:
            status, err = self.packed(HEAD + f'SubClassOf({words}:A :B)\n)')
            self.assertEqual(status, 1, words)
            self.assertTrue(err.startswith('file.ofn: line 3, column '), err)
            self.assertIn(said, err)

    def test_left_out_axioms(self):
        """Of an axiom that a book cannot hold the days are not read."""
        self.assertEqual(self.left_out(f'ReflexiveObjectProperty({FROM % "May"}:p)'), ['1 ReflexiveObjectProperty, first at line 3, column 1'])

    def test_files(self):
        """Packed, shown and packed again: the same book and names."""
        with tempfile.TemporaryDirectory() as folder:
            one, two = f'{folder}/one', f'{folder}/two'

            def pack(stem, text):
                pathlib.Path(stem + '.ofn').write_text(text, encoding='utf-8')
                self.assertEqual(register('pack', '--strict', stem + '.ofn')[::2], (0, ''))
                return pathlib.Path(stem + '.book').read_bytes(), pathlib.Path(stem + '.names').read_text(encoding='utf-8')
            first = pack(one, HEAD + f'ClassAssertion({BY % "w"}{FROM % "2026-01-12"}{TO % "2026-04-30"}:A :a) ClassAssertion({TO % "2026-04-30"}:A :a))')
            status, text, err = register('show', one + '.book', '--names', one + '.names')
            self.assertEqual((status, err), (0, ''))
            self.assertIn('# 1 class, 0 roles, 1 individual, 1 concept, 2 statements, 1 source, 2 periods\n', text)
            self.assertIn('Prefix(schema:=<http://schema.org/>)\n', text)
            self.assertIn('    ClassAssertion(Annotation(rdfs:isDefinedBy :w) Annotation(schema:validFrom "2026-01-12"^^xsd:date) '
                          'Annotation(schema:validThrough "2026-04-30"^^xsd:date) :A :a)\n'
                          '    ClassAssertion(Annotation(schema:validThrough "2026-04-30"^^xsd:date) :A :a)\n', text)
            self.assertEqual(pack(two, text), first)


class Concluding(WithStandIn):
    """The example, and the ends of a run as of a day."""

    def test_examples(self):
        for date in DATES:
            printed = EXAMPLE.with_name(f'service.{date}.expected').read_text(encoding='utf-8')
            self.assertEqual(register('conclude', EXAMPLE, '--day', date), (0, printed, ''))

    def test_ends(self):
        clash = f'DisjointClasses({TO % "2026-04-30"}:A :A) ClassAssertion(:A :a) ClassAssertion({FROM % "2026-05-01"}:B :a)'

        def concluded(date, *args):
            return self.run_on(HEAD + clash + ')', 'conclude', '--day', date, *args)
        self.assertEqual(concluded('2026-04-30'), (3, 'clash: no world fits this register on 2026-04-30; its smallest sets have 1 type and 0 edges.\n', ''))
        status, out, err = concluded('2026-05-01')
        self.assertEqual((status, err), (0, ''))
        self.assertTrue(out.startswith('# finished: 2 types, 0 edges, 0 same pairs\n# on 2026-05-01\n'), out)
        self.assertEqual(concluded('2026-05-01', '--budget', '1'), (
            4, 'spent: the conclusions have more types and edges than the budget of 1.\n'
            'With a larger one, by the proved library: tools/register conclude --budget 2 --day 2026-05-01 FILE\n', ''))

    def test_readers(self):
        """A reader and a day: the readable ones among the statements in force."""
        text = f'ClassAssertion({BY % "w"}{FROM % "2026-05-01"}:A :a) ClassAssertion({BY % "w"}:B :a) ClassAssertion({BY % "v"}:C :a) ClassAssertion({TO % "2026-04-30"}:D :a)'
        for name, date, classes in (('w', '2026-04-30', 'BD'), ('w', '2026-05-01', 'AB'), ('v', '2026-04-30', 'CD'), ('v', '2026-05-01', 'C')):
            status, out, err = self.concluded('w: :w\nv: :v\n', name, '--day', date, text=text)
            self.assertEqual((status, err), (0, ''))
            self.assertIn(f'# for {name}, who may read the shared book, :{name}\n# on {date}\n', out)
            self.assertEqual([line.split(':')[-2][0] for line in out.splitlines() if 'ClassAssertion' in line], list(classes))
        clash = f'DisjointClasses({BY % "w"}{FROM % "2026-05-01"}:A :A) ClassAssertion(:A :a) ClassAssertion({BY % "v"}:B :a)'
        self.assertEqual(self.concluded('w: :w\nv: :v\n', 'w', '--day', '2026-05-01', text=clash),
                         (3, 'clash: no world fits what w may read of this register on 2026-05-01; its smallest sets have 1 type and 0 edges.\n', ''))

    def test_usage(self):
        for args, said in ((('--day', 'May'), 'May is no date such as 2026-11-15'), (('--day', '2199-01-01'), '2199-01-01 is none of the days of a book'),
                           (('--day', '2026-05-01', '--program', PROGRAM), '--day takes the library: the program names no day'),
                           (('--day', '2026-05-01', '--readers', 'x'), '--readers says who may read what')):
            status, out, err = self.run_on(HEAD + 'SubClassOf(:A :B))', 'conclude', *args)
            self.assertEqual((status, out), (2, ''), args)
            self.assertIn(said, err)

    def test_no_day(self):
        """Without a day all statements count, and a line says that there are periods."""
        text = f'ClassAssertion({TO % "2026-04-30"}:A :a) ClassAssertion({FROM % "2026-05-01"}:B :a)'
        status, out, err = self.run_on(HEAD + text + ')', 'conclude', '--program', str(PROGRAM))
        self.assertEqual((status, err), (0, ''))
        self.assertTrue(out.startswith('# finished: 2 types, 0 edges, 0 same pairs\n# of all days, with 2 periods; '), out)


def built():
    """Whether the library is there, and can run as of a day."""
    try:
        return bool(shutil.which(library.CC)) and bool(library.loaded('zamoluvel_saturate_for_on'))
    except library.NotBuilt:
        return False


@unittest.skipUnless(built(), f'runs of the library as of a day, which take {library.CC} and `{library.BUILD}`')
class ByLibrary(FileCase):
    def test_examples(self):
        for date in DATES:
            printed = EXAMPLE.with_name(f'service.{date}.expected').read_text(encoding='utf-8')
            self.assertEqual(register('conclude', EXAMPLE, '--day', date), (0, printed, ''))
            self.assertEqual(register('conclude', EXAMPLE, '--day', date, '--budget', 100), (0, printed, ''))
