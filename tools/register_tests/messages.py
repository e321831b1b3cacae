"""What is said of a file that is at fault, above a limit, or not held whole."""
import pathlib
import tempfile

import book_format as f
from register_lib import library

from .common import EXAMPLES, HEAD, WORKED, FileCase, register


class Messages(FileCase):
    def test_syntax(self):
        rows = [
            ('SubClasOf(:A :B)', 3, 1, 'SubClasOf is no axiom; did you mean SubClassOf?'),
            ('SubClassOf(:A ObjectUnion(:B :C))', 3, 15, 'ObjectUnion is no class expression; did you mean ObjectUnionOf?'),
            ('\n  SubClassOf(:A, :B)', 4, 16, "unexpected sign ','"),
            ('SubClassOf(A :B)', 3, 12, 'expected ( behind A, or, if it is a name of your own, :A'),
            ('SubClassOf(:A ex:B)', 3, 15, 'the prefix ex: is not declared'),
            ('SubClassOf(:A :)', 3, 15, 'expected a name, found the prefix : alone'),
            ('SubClassOf(:A)', 3, 1, 'SubClassOf takes a class expression, then a class expression; here it has 1 argument'),
            ('DisjointClasses(:A)', 3, 1, 'DisjointClasses takes two or more class expressions; here it has 1 argument'),
            ('SubClassOf(:A ObjectMinCardinality(:r))', 3, 15, 'takes a number, then a role, then a class expression (may be absent)'),
            ('SubClassOf(:A ObjectMinCardinality(:r :B))', 3, 36, 'expected a number'),
            ('SubClassOf(:A "B")', 3, 15, 'expected a class expression'),
            ('ClassAssertion(:A ObjectOneOf(:a))', 3, 19, 'expected the name of an individual'),
            ('TransitiveObjectProperty(ObjectUnionOf(:r))', 3, 26, 'expected the name of a role or ObjectInverseOf(..)'),
            ('TransitiveObjectProperty(ObjectInverseOf(ObjectInverseOf(:r)))', 3, 42, 'expected the name of a role'),
            ('SubClassOf(:A :B\nSubClassOf(:B :C)', 4, 1, 'SubClassOf( begins inside SubClassOf( of line 3, column 1, which is not closed'),
            ('SubClassOf(:A :B))', 4, 1, 'expected nothing behind the ) of Ontology(, found )'),
            ('AnnotationAssertion(rdfs:label :a "x)', 3, 35, 'a string begins here that is not closed'),
            ('SubClassOf(:A <http://x y>)', 3, 15, 'an IRI begins here that is not closed'),
            ('Declaration(Klass(:A))', 3, 13, 'Klass is no kind of declaration; did you mean Class?'),
            ('Declaration(:A)', 3, 1, 'Declaration takes one of Class(..)'),
            ('Declaration(NamedIndividual(_:x))', 3, 29, '_:x is anonymous and cannot be declared'),
            ('SubClassOf(:A :B) :A', 3, 19, 'expected an axiom'),
            ('SubClassOf((:A) :B)', 3, 12, 'expected a name, a word or ), found ('),
            ('HasKey(:A (:p) (:d)\nSubClassOf(:A :B)', 4, 1, 'SubClassOf( begins inside HasKey( of line 3, column 1, which is not closed'),
            ('SubClassOf(:A :B.)', 3, 15, ':B. ends in a dot, which a short name cannot; write its IRI in full, in < >'),
            ('ClassAssertion(:A _:x.)', 3, 19, '_:x. ends in a dot, which a short name cannot'),
            ('ClassAssertion(:A _:x:y)', 3, 22, "a short name cannot have the sign ':' here"),
            ('SubClassOf(:A :B/C)', 3, 17, "a short name cannot have the sign '/' here; write its IRI in full, in < >"),
            ('AnnotationAssertion(rdfs:label :a "x"@en_GB)', 3, 38, 'the language tag @en_.. has _ where - belongs, as in @en-GB'),
            ('SubPropertyChainOf(ObjectPropertyChain(:p :q) :p)', 3, 1,
             'SubPropertyChainOf is no axiom; a chain is written SubObjectPropertyOf(ObjectPropertyChain(..) ..)'),
            ('ObjectPropertyChain(:p :q)', 3, 1, 'ObjectPropertyChain is no axiom; a chain is written SubObjectPropertyOf('),
        ]
        for text, line, column, words in rows:
            with self.subTest(text):
                status, err = self.packed(HEAD + text + '\n)')
                self.assertEqual(status, 1)
                self.assertTrue(err.startswith(f'file.ofn: line {line}, column {column}: '), err)
                self.assertIn(words, err)

    def test_documents(self):
        rows = [
            ('', 'line 1, column 1: expected Prefix( or Ontology(, found the end of the file'),
            (HEAD, 'line 2, column 1: Ontology( is not closed'),
            ('Prefix(a:=<x>)\nPrefix(a:=<y>)\nOntology()', 'line 2, column 8: the prefix a: is declared twice'),
            ('Prefix(a=<x>)', 'line 1, column 8: expected a prefix such as ex:, found a'),
            ('Prefix(a:=b:c)', 'line 1, column 11: expected an IRI'),
            (b'Ontology(\n  # \xff\n)', 'line 2, column 5: not UTF-8 text'),
            ('\ufeffPrefix(:=<x>) Ontology(\r\nX(:a))', 'line 2, column 1: X is no axiom'),
        ]
        for text, words in rows:
            with self.subTest(text):
                status, err = self.packed(text)
                self.assertEqual(status, 1)
                self.assertIn('file.ofn: ' + words, err)

    def test_the_place_is_shown(self):
        self.assertEqual(self.packed(HEAD + '\tSubClassOf(:A\t:B :C)\n)')[1].split('\n')[1:3], ['     SubClassOf(:A :B :C)', '     ^'])

    def test_limits(self):
        many = lambda form, n: HEAD + '\n'.join(form.format(i) for i in range(n)) + '\n)'
        rows = [
            ('Declaration(Class(:C{}))', 256, '257 classes, and a book has at most 256; :C256 is the first too many', 19),
            ('TransitiveObjectProperty(:r{})', 64, '65 roles, and a book has at most 64; :r64 is the first too many', 26),
            ('ClassAssertion(:A :i{})', 512, '513 individuals, and a book has at most 512; :i512 is the first too many', 19),
            ('ObjectPropertyAssertion(:r :a :b)', 4096, '4,097 statements, and a book has at most 4,096; this is the first too many', 1),
            ('SubClassOf(owl:Thing ObjectMinCardinality({} :r))', 4095, '4,097 concepts, and a book has at most 4,096', None),
        ]
        for form, limit, words, column in rows:
            with self.subTest(words):
                if column:
                    self.assertEqual(self.packed(many(form, limit))[0], 0)
                status, err = self.packed(many(form, limit + 1))
                self.assertEqual(status, 1)
                self.assertIn(words, err)
                if column:
                    self.assertTrue(err.startswith(f'file.ofn: line {limit + 3}, column {column}: '), err)
        wide = 'SubClassOf(:A ObjectIntersectionOf(' + ':B ' * 250 + 'ObjectMaxCardinality({} :r)))'
        self.assertEqual(self.packed(many(wide, 125))[0], 0)
        self.assertRegex(self.packed(many(wide, 126))[1], '^file.ofn: 65,[0-9]* bytes, and a book for the program has at most 65,536; conclude --budget N takes longer ones\n$')
        self.assertIn('4,950 statements, and a book has at most 4,096', self.packed(HEAD + f'DisjointClasses({" ".join(f":C{i}" for i in range(100))}))')[1])
        both = self.packed(HEAD + 'SameIndividual(' + ' '.join(f':i{i}' for i in range(5000)) + '))')[1]
        self.assertIn('5,000 individuals', both)
        self.assertIn('4,999 statements', both)

    def test_depth(self):
        status, err = self.packed(HEAD + 'ClassAssertion(' + 'ObjectComplementOf(' * 20000 + ':A' + ')' * 20000 + ' :a))')
        self.assertEqual(status, 1)
        self.assertIn('20,001 concepts, and a book has at most 4,096', err)

    def test_left_out(self):
        text = '''AsymmetricObjectProperty(:r)
  SubClassOf(:A DataHasValue(:hz "440"^^xsd:int))
  SubClassOf(:A ObjectIntersectionOf(:B DataHasValue(:hz "441"^^xsd:int)))
  SubObjectPropertyOf(ObjectPropertyChain(:r :r :r :r) :r)
  EquivalentObjectProperties(:r :s)
  SubClassOf(:A ObjectMinCardinality(4294967296 :r))
  SubObjectPropertyOf(:r owl:topObjectProperty)
  SubClassOf(:A ObjectUnionOf(''' + ':B ' * 256 + '''))
  Declaration(Class(<http://org.semanticweb.owlapi/error#Error1>)) SubClassOf(:A <http://org.semanticweb.owlapi/error#Error1>)
  Declaration(ObjectProperty(<_:genid7>)) SubObjectPropertyOf(:r <_:genid7>)
  SubClassOf(:A :B)'''
        self.assertEqual(self.left_out(text), [
            '1 AsymmetricObjectProperty, first at line 3, column 1',
            '2 SubClassOf with DataHasValue, first at line 4, column 3',
            '1 SubObjectPropertyOf with a chain of 4 roles, first at line 6, column 3',
            '1 EquivalentObjectProperties (SubObjectPropertyOf in both directions says the same), first at line 7, column 3',
            '1 SubClassOf with a bound above 4,294,967,295, first at line 8, column 3',
            '1 SubObjectPropertyOf with owl:topObjectProperty, first at line 9, column 3',
            '1 SubClassOf with ObjectUnionOf of more than 255 parts, first at line 10, column 3',
            '1 SubClassOf with what an OWL editor could not read, first at line 11, column 68',
            '1 SubObjectPropertyOf with what an OWL editor could not read, first at line 12, column 43'])
        status, err = self.packed(HEAD + text.replace('AsymmetricObjectProperty(:r)', '') + ')', '--strict')
        self.assertEqual(status, 1)
        self.assertTrue(err.startswith('file.ofn: line 4, column 3: a book cannot hold this: SubClassOf with DataHasValue\n'), err)

    def test_show(self):
        with tempfile.TemporaryDirectory() as folder:
            book, list_ = pathlib.Path(folder, 'b.book'), pathlib.Path(folder, 'b.names')
            book.write_bytes(WORKED.data)
            rows = [('class 1 :A', 'line 1, column 1: class 1 is named, and the book has 1'), ('\nplate', 'line 2, column 1: expected a line such as'),
                    ('class 0 :A', 'line 1, column 1: :A is no name'), ('class 0 _:A', '_:A is no name'), ('role 0 <a>\nrole 0 <b>', 'role 0 is named twice'),
                    ('role 0 <a>\nrole 1 <a>', 'line 2, column 1: role 0 and role 1 have one name'), ('class 0 owl:Thing', 'owl:Thing has a fixed meaning')]
            for text, words in rows:
                list_.write_text(text, encoding='utf-8')
                status, out, err = register('show', book, '--names', list_)
                self.assertEqual((status, out), (1, ''))
                self.assertIn(words, err)
            list_.write_text('Prefix(x:=<urn:x#>)\nclass 0 x:Spruce', encoding='utf-8')
            self.assertIn('ClassAssertion(x:Spruce book:i1)', register('show', book, '--names', list_)[1])
            book.write_bytes(WORKED.data[:-1])
            self.assertEqual(register('show', book), (1, '', f'{book}: refused 4 at byte {len(WORKED.data) - 2}: the book ends before a record is complete\n'))
            book.write_bytes(f.write((0, 0, 0), [(f.TOP,)], []))
            self.assertIn('not shown, since no statement leads there: 1 concept', register('show', book)[1])

    def test_help(self):
        """Each command's --help, and what it owes a reader."""
        rows = [('pack', 'Turtle, RDF/XML, OWL/XML or Manchester syntax'), ('pack', 'apt install\ndefault-jdk-headless libowlapi-java'),
                ('show', 'of one part or none'), ('show', 'not legal OWL'), ('show', 'OWL editors refuse it'),
                ('conclude', f'`{library.BUILD}` builds it')]
        for name, words in rows:
            status, out, err = register(name, '--help')
            self.assertEqual((status, err), (0, ''))
            self.assertIn(words, out)

    def test_files(self):
        for args in (['pack', 'no/such.ofn'], ['show', 'no/such.book'], ['pack', EXAMPLES[0], '--out', 'no/such'], ['conclude'], ['unpack', 'x']):
            self.assertEqual(register(*args)[0], 2)
