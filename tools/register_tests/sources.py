"""Whose statement it was: annotations that name workshops, and the numbers of these."""
import pathlib
import tempfile

import book_format as f
from register_lib.packer import Packer

from .common import HEAD, PROGRAM, FileCase, register

BY = 'Annotation(rdfs:isDefinedBy :%s) '


class Sources(FileCase):
    def book(self, text, known=()):
        packer = Packer(HEAD + text + ')', known)
        packer.pack(strict=True)
        self.assertEqual(packer.over(), [])
        return f.read(packer.data()), packer.names()

    def sources(self, text, known=()):
        return [marks.source for marks in self.book(text, known)[0].marks]

    def test_numbers(self):
        """By first mention from 1 on; an axiom without one is the shared book's; one with several is stated by each."""
        text = f'SubClassOf({BY % "w"}:A :B) SubClassOf(:A :B) ClassAssertion({BY % "v"}:A :a) ClassAssertion({BY % "w"}:B :a)'
        self.assertEqual(self.sources(text), [1, 0, 2, 1])
        self.assertEqual(self.sources(f'SubClassOf({BY % "w"}{BY % "v"}{BY % "w"}:A :B)'), [1, 2])
        self.assertEqual(self.sources(f'SameIndividual({BY % "w"}{BY % "v"}:a :b :c)'), [1, 2, 1, 2])
        book, names = self.book(text)
        self.assertEqual({n: names.source(n) for n in (1, 2, 3)}, {1: ':w', 2: ':v', 3: '<urn:example:book#s3>'})
        self.assertEqual([kind for kind, _, _ in book.statements], [f.SUB_CLASS, f.SUB_CLASS, f.CLASS_ASSERTION, f.CLASS_ASSERTION])

    def test_every_statement(self):
        """An annotation makes no other statement of an axiom of any kind."""
        for axiom in ('SubClassOf(:A :B)', 'EquivalentClasses(:A :B)', 'DisjointClasses(:A :B)', 'InverseObjectProperties(:p :q)',
                      'SubObjectPropertyOf(ObjectPropertyChain(:p :q) :p)', 'TransitiveObjectProperty(:p)', 'SymmetricObjectProperty(:p)',
                      'FunctionalObjectProperty(:p)', 'InverseFunctionalObjectProperty(:p)', 'ObjectPropertyDomain(:p :A)',
                      'ObjectPropertyRange(:p :A)', 'SameIndividual(:a :b)', 'ClassAssertion(:A :a)', 'ObjectPropertyAssertion(:p :a :b)'):
            plain, by = self.book(axiom)[0], self.book(axiom.replace('(', '(' + BY % 'w', 1))[0]
            self.assertEqual((by.statements, by.marks), (plain.statements, [f.Marks(1)]), axiom)

    def test_other_annotations(self):
        """Annotations with another property are passed over, and those within the annotation."""
        for words in ('Annotation(rdfs:seeAlso :w) ', 'Annotation(:isDefinedBy :w) ', 'Annotation(rdfs:comment "by :w") '):
            self.assertEqual(self.sources(f'SubClassOf({words}:A :B)'), [0])
        nested = f'Annotation({BY % "v"}rdfs:isDefinedBy :w) '
        book, names = self.book(f'SubClassOf({nested}:A :B)')
        self.assertEqual(([marks.source for marks in book.marks], names.source(1)), ([1], ':w'))

    def test_no_name(self):
        """A source that is no name would be lost: the axiom is left out."""
        for value in ('"a workshop"', '_:x', '"w"@en'):
            self.assertEqual(self.left_out(f'SubClassOf(Annotation(rdfs:isDefinedBy {value}) :A :B)'),
                             ['1 SubClassOf with an rdfs:isDefinedBy that is no name, first at line 3, column 1'])

    def test_left_out_axioms(self):
        """An axiom that a book cannot hold gives its source no number."""
        packer = Packer(HEAD + f'ReflexiveObjectProperty({BY % "v"}:p) SubClassOf({BY % "w"}:A DataHasValue(:d "x")) SubClassOf({BY % "u"}:A :B))')
        packer.pack()
        self.assertEqual({n: name.partition('#')[2] for n, name in packer.numbered_sources().items()}, {1: 'u'})

    def test_known(self):
        """A known source keeps its number, used or not; others take the lowest that are free."""
        known = {2: 'http://example.org/r#v', 5: 'http://example.org/r#gone'}
        self.assertEqual(self.sources(''.join(f'SubClassOf({BY % w}:A :B)' for w in 'wvxyz'), known), [1, 2, 3, 4, 6])
        self.assertEqual(self.sources(f'SubClassOf({BY % "w"}:A :B) SubClassOf(Annotation(rdfs:isDefinedBy <urn:example:book#s1>) :A :B)'), [2, 1])
        book, names = self.book(f'SubClassOf({BY % "v"}:A :B) SubClassOf(Annotation(rdfs:isDefinedBy <urn:example:book#s2>) :A :B)', known)
        self.assertEqual(([marks.source for marks in book.marks], names.source(2)), ([2, 2], ':v'))

    def test_most(self):
        """1,023 sources are held; one more is a fault at its first mention."""
        axioms = '\n'.join(f'ClassAssertion({BY % f"w{n}"}:A :a)' for n in range(1, 1024))
        self.assertEqual(self.sources(axioms), list(range(1, 1024)))
        status, err = self.packed(HEAD + axioms + f'\nClassAssertion({BY % "last"}:A :a)\n)')
        self.assertEqual(status, 1)
        self.assertIn('line 1026, column 44: 1,024 sources, and a book has at most 1,023; :last is the first too many', err)

    def test_files(self):
        """Packed, shown and packed again: the same book and names; a source keeps its number while others come and go."""
        with tempfile.TemporaryDirectory() as folder:
            one, two = f'{folder}/one', f'{folder}/two'

            def pack(stem, text):
                pathlib.Path(stem + '.ofn').write_text(text, encoding='utf-8')
                self.assertEqual(register('pack', '--strict', stem + '.ofn')[::2], (0, ''))
                return pathlib.Path(stem + '.book').read_bytes(), pathlib.Path(stem + '.names').read_text(encoding='utf-8')
            first = pack(one, HEAD + f'ClassAssertion({BY % "w"}:A :a) ClassAssertion({BY % "v"}:A :a) ClassAssertion(:A :a))')
            self.assertEqual([marks.source for marks in f.read(first[0]).marks], [1, 2, 0])
            self.assertEqual(first[1], 'Prefix(:=<http://example.org/r#>)\nclass 0 :A\nindividual 0 :a\nsource 1 :w\nsource 2 :v\n')
            status, text, err = register('show', one + '.book', '--names', one + '.names')
            self.assertEqual((status, err), (0, ''))
            self.assertIn('# 1 class, 0 roles, 1 individual, 1 concept, 3 statements, 2 sources\n', text)
            self.assertIn('Prefix(rdfs:=<http://www.w3.org/2000/01/rdf-schema#>)\n', text)
            self.assertIn('    ClassAssertion(Annotation(rdfs:isDefinedBy :w) :A :a)\n    ClassAssertion(Annotation(rdfs:isDefinedBy :v) :A :a)\n'
                          '    ClassAssertion(:A :a)\n', text)
            self.assertEqual(pack(two, text), first)
            # :w is gone, :u is new; then :w is back
            for axioms, sources in (('uv', [3, 2]), ('wuv', [1, 3, 2])):
                book, names = pack(one, HEAD + ''.join(f'ClassAssertion({BY % x}:A :a)' for x in axioms) + ')')
                self.assertEqual([marks.source for marks in f.read(book).marks], sources)
                self.assertIn('source 1 :w\nsource 2 :v\nsource 3 :u\n', names)

    def test_names_files(self):
        """Lines that name no source."""
        head = 'Prefix(:=<http://example.org/r#>)\n'
        for line, said in (('source 0 :w', 'source 0 is named, and sources are 1 to 1,023'),
                           ('source 1024 :w', 'source 1024 is named, and sources are 1 to 1,023'),
                           ('source 1 :w\nsource 1 :v', 'source 1 is named twice'),
                           ('source 1 :w\nsource 2 :w', 'source 2 has the name of another source'),
                           ('source 2 <urn:example:book#s3>', 'source 2 has the name of another source'),
                           ('source 1 x:w', 'x:w is no name for this kind')):
            with tempfile.TemporaryDirectory() as folder:
                stem = f'{folder}/file'
                pathlib.Path(stem + '.names').write_text(head + line, encoding='utf-8')
                pathlib.Path(stem + '.ofn').write_text(HEAD + 'SubClassOf(:A :B))', encoding='utf-8')
                pathlib.Path(stem + '.book').write_bytes(f.write((0, 0, 0), [], []))
                for command in (('pack', stem + '.ofn'), ('show', stem + '.book', '--names', stem + '.names')):
                    status, _, err = register(*command)
                    self.assertEqual(status, 1)
                    self.assertIn(said, err)

    def test_conclude(self):
        """Conclusions are drawn from all statements; a told one has the workshops that say it."""
        text = (f'TransitiveObjectProperty({BY % "w"}:p) ObjectPropertyAssertion({BY % "w"}:p :a :b) ObjectPropertyAssertion({BY % "v"}:p :b :c)\n'
                f'ObjectPropertyAssertion({BY % "v"}{BY % "u"}:p :a :b) ClassAssertion({BY % "v"}:A :a) ClassAssertion(:A :a)')
        status, out, err = self.run_on(HEAD + text + ')', 'conclude', '--program', str(PROGRAM))
        self.assertEqual((status, err), (0, ''))
        self.assertEqual(out.partition('Ontology(\n')[2], (
            '    # told: 1 type, 2 edges, 0 same pairs\n'
            '    ClassAssertion(:A :a)\n'
            '    ObjectPropertyAssertion(Annotation(rdfs:isDefinedBy :w) Annotation(rdfs:isDefinedBy :v) Annotation(rdfs:isDefinedBy :u) :p :a :b)\n'
            '    ObjectPropertyAssertion(Annotation(rdfs:isDefinedBy :v) :p :b :c)\n'
            '    # derived: 0 types, 1 edge, 0 same pairs\n'
            '    ObjectPropertyAssertion(:p :a :c)\n)\n'))
