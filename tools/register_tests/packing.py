"""What goes into the book: each word's record, pairs of lists, numbers of names; and each axiom of OWL 2 once."""
import unittest

import book_format as f
from register_lib import words
from register_lib.packer import Packer

from .common import HEAD, FileCase, packed


class Packing(unittest.TestCase):
    def book(self, axioms):
        return f.read(packed(HEAD + axioms + ')'))

    def test_every_kind(self):
        """Each word against the record that it stands for; packing and showing share a table, so round trips do not tell."""
        book = self.book('''
            SubClassOf(:A owl:Nothing) EquivalentClasses(:A owl:Thing) DisjointClasses(:A :B) InverseObjectProperties(:p ObjectInverseOf(:q))
            SubObjectPropertyOf(:p :q) SubObjectPropertyOf(ObjectPropertyChain(:p :q) ObjectInverseOf(:q))
            SubObjectPropertyOf(ObjectPropertyChain(:q ObjectInverseOf(:p) :p) :q)
            TransitiveObjectProperty(:p) SymmetricObjectProperty(:q) FunctionalObjectProperty(ObjectInverseOf(:p))
            InverseFunctionalObjectProperty(:q) ObjectPropertyDomain(:p ObjectComplementOf(:A)) ObjectPropertyRange(:q ObjectOneOf(:b))
            SameIndividual(:b :a) ClassAssertion(ObjectIntersectionOf(:B :A) :a) ObjectPropertyAssertion(ObjectInverseOf(:q) :b :a)
            SubClassOf(ObjectUnionOf(:A :B :A) ObjectHasSelf(:q)) SubClassOf(ObjectSomeValuesFrom(:p :B) ObjectAllValuesFrom(:q :A))
            SubClassOf(ObjectMinCardinality(3 :p :A) ObjectMaxCardinality(4294967295 ObjectInverseOf(:q) :B))
            SubClassOf(ObjectIntersectionOf() ObjectUnionOf(:B))
            DifferentIndividuals(:a :b) NegativeObjectPropertyAssertion(ObjectInverseOf(:q) :b :a)''')
        self.assertEqual(book.counts, [2, 2, 2, 15, 22])
        self.assertEqual(book.concepts, [
            (f.ATOMIC, [0]), (f.BOT, []), (f.TOP, []), (f.ATOMIC, [1]), (f.NOT, [0]), (f.NOMINAL, [0]), (f.AND, [3, 0]), (f.OR, [0, 3, 0]),
            (f.SELF, [2]), (f.SOME, [0, 3]), (f.ALL, [2, 0]), (f.MIN, [0, 0, 3]), (f.MAX, [3, 3, 4294967295]), (f.AND, []), (f.OR, [3])])
        self.assertEqual([(kind, v) for kind, _, v in book.statements], [
            (f.SUB_CLASS, [0, 1]), (f.EQUIVALENT, [0, 2]), (f.DISJOINT, [0, 3]), (f.INVERSE, [0, 3]), (f.SUB_ROLE, [0, 2]),
            (f.SUB_ROLE, [0, 2, 3]), (f.SUB_ROLE, [2, 1, 0, 2]), (f.TRANSITIVE, [0]), (f.SYMMETRIC, [2]), (f.FUNCTIONAL, [1]),
            (f.INVERSE_FUNCTIONAL, [2]), (f.DOMAIN, [0, 4]), (f.RANGE, [2, 5]), (f.SAME, [0, 1]), (f.CLASS_ASSERTION, [6, 1]),
            (f.ROLE_ASSERTION, [3, 0, 1]), (f.SUB_CLASS, [7, 8]), (f.SUB_CLASS, [9, 10]), (f.SUB_CLASS, [11, 12]), (f.SUB_CLASS, [13, 14]),
            (f.DIFFERENT, [1, 0]), (f.DENIAL, [3, 0, 1])])

    def test_pairs(self):
        same = self.book('SameIndividual(:a :b :c :d)').statements
        self.assertEqual([v for _, _, v in same], [[0, 1], [1, 2], [2, 3]])
        for word in ('EquivalentClasses', 'DisjointClasses'):
            self.assertEqual([v for _, _, v in self.book(f'{word}(:A :B :C)').statements], [[0, 1], [0, 2], [1, 2]])
        self.assertEqual([v for _, _, v in self.book('DifferentIndividuals(:a :b :c)').statements], [[0, 1], [0, 2], [1, 2]])

    def test_repeated(self):
        """A repeated member of a list counts once, an equal expression too; one that is alone is paired with itself."""
        rows = [('DisjointClasses(:A :A :B)', [[0, 1]]), ('DisjointClasses(:A :B :A :C :B)', [[0, 1], [0, 2], [1, 2]]),
                ('EquivalentClasses(:A :B :B)', [[0, 1]]), ('SameIndividual(:a :a :b :a :c)', [[0, 1], [1, 2]]),
                ('DisjointClasses(ObjectUnionOf(:A :B) :C ObjectUnionOf(:A :B))', [[2, 3]]),
                ('DisjointClasses(:A :A)', [[0, 0]]), ('EquivalentClasses(:A :A :A)', [[0, 0]]), ('SameIndividual(:a :a)', [[0, 0]]),
                ('DifferentIndividuals(:a :b :a)', [[0, 1]]), ('DifferentIndividuals(:a :a)', [[0, 0]])]
        for axiom, pairs in rows:
            self.assertEqual([v for _, _, v in self.book(axiom).statements], pairs, axiom)
        # parts of a class expression stay as they are written: they conclude the same
        self.assertIn((f.AND, [0, 0]), self.book('SubClassOf(:A ObjectIntersectionOf(:A :A))').concepts)

    def test_expressions(self):
        """Shortcuts are the concepts that mean the same, and equal expressions share a number."""
        pairs = [('ObjectHasValue(:r :a)', 'ObjectSomeValuesFrom(:r ObjectOneOf(:a))'),
                 ('ObjectOneOf(:a :b)', 'ObjectUnionOf(ObjectOneOf(:a) ObjectOneOf(:b))'),
                 ('ObjectMinCardinality(2 :r)', 'ObjectMinCardinality(2 :r owl:Thing)'),
                 ('ObjectExactCardinality(1 :r :A)', 'ObjectIntersectionOf(ObjectMinCardinality(1 :r :A) ObjectMaxCardinality(1 :r :A))'),
                 (':A', '<http://example.org/r#A>')]
        for one, other in pairs:
            (left, right), = [v for _, _, v in self.book(f'SubClassOf({one} {other})').statements]
            self.assertEqual(left, right, one)

    def test_numbers_by_first_mention(self):
        """Also of names that are only declared, and not of what is left out."""
        packer = Packer(HEAD + 'DisjointUnion(:X :Y :Z) SubClassOf(:Q DataHasValue(:d "1"^^xsd:int)) Declaration(Class(:A))\n'
                        'SubClassOf(ObjectSomeValuesFrom(:r ObjectHasSelf(ObjectInverseOf(:s))) :B) # :C\n)')
        packer.pack()
        self.assertEqual([[name[-1] for name in list_] for list_ in packer.names().lists], [['A', 'B'], ['r', 's'], []])

    def test_passed_over(self):
        """Annotations, also in axioms, and declarations of what a book has no numbers for."""
        text = ('Annotation(rdfs:label "a \\"register\\" ) # no comment"@en) AnnotationAssertion(rdfs:label :a "x"^^xsd:string)\n'
                'SubClassOf(Annotation(Annotation(:by "m") rdfs:comment "c") :A :B) Declaration(DataProperty(:d)) Declaration(Class(owl:Thing))\n'
                'Declaration(ObjectProperty(owl:sameAs))\n')
        self.assertEqual(packed(HEAD + text + ')'), packed(HEAD + 'SubClassOf(:A :B))'))


HELD, PASSED_OVER = 'held', 'passed over'
# each axiom of the grammar of OWL 2's functional-style syntax, with the forms that its arguments may have
AXIOMS = [
    ('Declaration(Class(:A))', PASSED_OVER), ('Declaration(Datatype(:D))', PASSED_OVER), ('Declaration(ObjectProperty(:p))', PASSED_OVER),
    ('Declaration(DataProperty(:d))', PASSED_OVER), ('Declaration(AnnotationProperty(:n))', PASSED_OVER),
    ('Declaration(NamedIndividual(:a))', PASSED_OVER),
    ('SubClassOf(:A :B)', HELD), ('EquivalentClasses(:A :B)', HELD), ('DisjointClasses(:A :B)', HELD),
    ('DisjointUnion(:A :B :C)', 'DisjointUnion (EquivalentClasses with ObjectUnionOf, and DisjointClasses, say the same)'),
    ('SubObjectPropertyOf(:p :q)', HELD), ('SubObjectPropertyOf(ObjectPropertyChain(:p ObjectInverseOf(:q)) :p)', HELD),
    ('EquivalentObjectProperties(:p :q)', 'EquivalentObjectProperties (SubObjectPropertyOf in both directions says the same)'),
    ('DisjointObjectProperties(:p ObjectInverseOf(:q))', 'DisjointObjectProperties'), ('InverseObjectProperties(:p :q)', HELD),
    ('ObjectPropertyDomain(:p :A)', HELD), ('ObjectPropertyRange(:p :A)', HELD), ('FunctionalObjectProperty(:p)', HELD),
    ('InverseFunctionalObjectProperty(:p)', HELD), ('ReflexiveObjectProperty(:p)', 'ReflexiveObjectProperty'),
    ('IrreflexiveObjectProperty(:p)', 'IrreflexiveObjectProperty'), ('SymmetricObjectProperty(:p)', HELD),
    ('AsymmetricObjectProperty(:p)', 'AsymmetricObjectProperty'), ('TransitiveObjectProperty(ObjectInverseOf(:p))', HELD),
    ('SubDataPropertyOf(:d :e)', 'SubDataPropertyOf'), ('EquivalentDataProperties(:d :e)', 'EquivalentDataProperties'),
    ('DisjointDataProperties(:d :e)', 'DisjointDataProperties'), ('DataPropertyDomain(:d :A)', 'DataPropertyDomain'),
    ('DataPropertyRange(:d xsd:int)', 'DataPropertyRange'),
    ('DataPropertyRange(:d DataUnionOf(xsd:int DataIntersectionOf(xsd:int DataComplementOf(DataOneOf("1"^^xsd:int "x" "y"@en)))))',
     'DataPropertyRange'),
    ('FunctionalDataProperty(:d)', 'FunctionalDataProperty'),
    ('DatatypeDefinition(:D DatatypeRestriction(xsd:int xsd:minInclusive "20"^^xsd:int xsd:maxInclusive "20000"^^<urn:t>))', 'DatatypeDefinition'),
    ('HasKey(:A () (:d))', 'HasKey'), ('HasKey(ObjectIntersectionOf(:A :B) (:p ObjectInverseOf(:q)) (:d :e))', 'HasKey'),
    ('HasKey(:A (:p) ())', 'HasKey'), ('HasKey(:A()())', 'HasKey'),
    ('SameIndividual(:a _:x)', HELD), ('DifferentIndividuals(:a _:x)', HELD), ('ClassAssertion(:A _:x)', HELD),
    ('ObjectPropertyAssertion(ObjectInverseOf(:p) _:x :a)', HELD),
    ('NegativeObjectPropertyAssertion(:p :a :b)', HELD), ('NegativeObjectPropertyAssertion(ObjectInverseOf(:p) _:x :a)', HELD),
    ('DataPropertyAssertion(:d :a "440"^^xsd:int)', 'DataPropertyAssertion'),
    ('NegativeDataPropertyAssertion(:d _:x "a \\"b\\" \\\\"@en-GB)', 'NegativeDataPropertyAssertion'),
    ('AnnotationAssertion(:n :a "x")', PASSED_OVER), ('AnnotationAssertion(:n _:x <urn:x>)', PASSED_OVER),
    ('AnnotationAssertion(:n :a _:x)', PASSED_OVER), ('SubAnnotationPropertyOf(:n :m)', PASSED_OVER),
    ('AnnotationPropertyDomain(:n :A)', PASSED_OVER), ('AnnotationPropertyRange(:n xsd:string)', PASSED_OVER),
    ('SubClassOf(:A DataSomeValuesFrom(:d :e xsd:int))', 'SubClassOf with DataSomeValuesFrom'),
    ('SubClassOf(:A DataAllValuesFrom(:d xsd:int))', 'SubClassOf with DataAllValuesFrom'),
    ('ClassAssertion(ObjectComplementOf(DataHasValue(:d "x")) :a)', 'ClassAssertion with DataHasValue'),
    ('EquivalentClasses(:A DataMinCardinality(1 :d))', 'EquivalentClasses with DataMinCardinality'),
    ('ObjectPropertyRange(:p DataMaxCardinality(1 :d xsd:int))', 'ObjectPropertyRange with DataMaxCardinality'),
    ('SubClassOf(DataExactCardinality(1 :d) :A)', 'SubClassOf with DataExactCardinality'),
    # a rule as the OWL API writes it
    ('DLSafeRule(Body(ClassAtom(:A Variable(<urn:swrl:var#x>)) ObjectPropertyAtom(:p Variable(<urn:swrl:var#x>) :a) '
     'DataPropertyAtom(:d Variable(<urn:swrl:var#x>) "1"^^xsd:int) DataRangeAtom(xsd:int Variable(<urn:swrl:var#y>)) '
     'BuiltInAtom(<http://www.w3.org/2003/11/swrlb#greaterThan> Variable(<urn:swrl:var#y>) "18"^^xsd:int) '
     'SameIndividualAtom(Variable(<urn:swrl:var#x>) :a) DifferentIndividualsAtom(Variable(<urn:swrl:var#x>) :b))'
     'Head(ClassAtom(:B Variable(<urn:swrl:var#x>))))', 'DLSafeRule'),
]


class EveryAxiom(FileCase):
    """Each axiom is held, passed over where it says nothing of worlds, or left out and counted."""

    def test_axioms(self):
        annotated = 'Annotation(Annotation(:m "n") rdfs:comment "c"@en) Annotation(:n _:x) '
        for axiom, outcome in AXIOMS:
            for text in (axiom, axiom.replace('(', '(' + annotated, 1)):
                with self.subTest(text):
                    told = self.left_out(text)
                    self.assertEqual(told, [] if outcome in (HELD, PASSED_OVER) else [f'1 {outcome}, first at line 3, column 1'])
                    packer = Packer(HEAD + text + ')')
                    packer.pack()
                    self.assertEqual(len(packer.statements), outcome == HELD)

    def test_together(self):
        """All in one document, with its IRIs, an import and annotations of its own: the counts add up, and nothing else is told."""
        told = self.left_out('<urn:o> <urn:o:1> Import(<urn:other>) Annotation(rdfs:label "a register") ' + '\n'.join(axiom for axiom, _ in AXIOMS))
        left_out = [outcome for _, outcome in AXIOMS if outcome not in (HELD, PASSED_OVER)]
        self.assertEqual([line.split(', first')[0] for line in told],
                         ['1 Import', *(f'{left_out.count(kind)} {kind}' for kind in dict.fromkeys(left_out))])

    def test_table(self):
        """The table has every word that the tool knows for an axiom."""
        self.assertEqual({axiom.partition('(')[0] for axiom, _ in AXIOMS} | {'Import'}, words.AXIOMS)
