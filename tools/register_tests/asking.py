"""is: whether an individual is shown to be of an expression, by the library where it is built and else by a stand-in that is the
reference."""
import pathlib
import tempfile
from unittest import mock

import reference
from register_lib import library

from .common import HEAD, FileCase

BY = 'Annotation(rdfs:isDefinedBy :%s) '
REGISTER = f'''SubClassOf(:A :B) ClassAssertion(:A :a) ObjectPropertyAssertion(:p :a :b) ObjectPropertyAssertion({BY % 'w'}:p :b :c)
SameIndividual(:b :d) ClassAssertion(:C :c) Declaration(NamedIndividual(:e)) ObjectPropertyDomain(:q :A)'''
PLAIN = 'It is false in some world that fits: the register is plain.'
NOT_PLAIN = 'That does not say that it is false: the register is not plain, as it has such a '
NEVER = 'That does not say that it is false: %s is never shown, although it may hold.'


def stand_in(book, budget, type_room, edge_room, pair_room, individual, concept, reader=None, day=None):
    """The answer that the library gives, by the reference."""
    word, *numbers = reference.judge(book, budget, type_room, edge_room, pair_room, individual, concept, reader=reader, day=day)[0].split()
    end = library.REFUSED + int(numbers[0]) if word == 'refused' else {'shown': library.SHOWN, 'not-shown': library.NOT_SHOWN, 'clash': library.CLASH, 'spent': library.SPENT}[word]
    return library.Run(end, 0, 0, 0, [], [], [])


class Asking(FileCase):
    def setUp(self):
        for name, function in (('judge', stand_in), ('figure', lambda book: (library.FIGURE, reference.figure(book)))):
            patch = mock.patch.object(library, name, function)
            patch.start()
            self.addCleanup(patch.stop)

    def asked(self, individual, expression, *options, text=REGISTER):
        """(exit status, the lines that are printed), of a question that is no fault."""
        status, out, err = self.run_on(HEAD + text + ')', 'is', individual, expression, *options)
        self.assertEqual(err, '')
        first, *rest = out.splitlines()
        return status, first.split(':')[0], *rest

    def test_shown(self):
        """Every kind of expression that can be shown; ones that the register has not among them."""
        for individual, expression in (
                (':a', ':A'), (':a', ':B'), (':e', 'owl:Thing'), (':b', 'ObjectOneOf(:d)'), (':e', 'ObjectOneOf(:e)'), (':a', 'ObjectHasValue(:p :d)'),
                (':a', 'ObjectSomeValuesFrom(:p owl:Thing)'), (':b', 'ObjectSomeValuesFrom(ObjectInverseOf(:p) :B)'), (':d', 'ObjectSomeValuesFrom(:p :C)'),
                (':a', 'ObjectIntersectionOf(:A ObjectSomeValuesFrom(:p ObjectSomeValuesFrom(:p :C)))'), (':c', 'ObjectUnionOf(:A :C)'),
                (':a', 'ObjectUnionOf(ObjectComplementOf(:A) :A)'), ('<http://example.org/r#a>', '<http://example.org/r#A>')):
            self.assertEqual(self.asked(individual, expression), (0, 'shown'), expression)

    def test_not_shown(self):
        """Of a plain register, and what is never shown."""
        for individual, expression in ((':b', ':A'), (':a', 'ObjectOneOf(:e)'), (':a', 'ObjectHasSelf(:p)'), (':c', 'ObjectSomeValuesFrom(:p owl:Thing)'), (':e', 'ObjectUnionOf(:A :B :C)')):
            self.assertEqual(self.asked(individual, expression), (6, 'not shown', PLAIN), expression)
        for expression, word in (('ObjectComplementOf(:C)', 'ObjectComplementOf'), ('owl:Nothing', 'owl:Nothing'), ('ObjectAllValuesFrom(:p :C)', 'ObjectAllValuesFrom'),
                                 ('ObjectIntersectionOf(:A ObjectMinCardinality(1 :p))', 'ObjectMinCardinality'), ('ObjectSomeValuesFrom(:p ObjectMaxCardinality(0 :p))', 'ObjectMaxCardinality')):
            self.assertEqual(self.asked(':a', expression), (6, 'not shown', NEVER % word), expression)

    def test_not_plain(self):
        """Each kind of statement that no plain book has, and the nearest that one has."""
        for statement, plain in (
                ('FunctionalObjectProperty(:p)', True), ('InverseFunctionalObjectProperty(:p)', True), ('SubClassOf(ObjectUnionOf(:A :B) :C)', False),
                ('SubClassOf(:C ObjectSomeValuesFrom(:p :A))', False), ('SubClassOf(:C ObjectIntersectionOf(:A ObjectIntersectionOf(:B ObjectHasValue(:p :a))))', True),
                ('EquivalentClasses(:A owl:Thing)', False), ('EquivalentClasses(:C :B)', True), ('DisjointClasses(:C owl:Thing)', False),
                ('ObjectPropertyDomain(:q ObjectHasValue(:p :a))', False), ('ObjectPropertyRange(ObjectInverseOf(:q) ObjectIntersectionOf(:A :B))', True),
                ('ClassAssertion(ObjectComplementOf(:A) :e)', False), ('ClassAssertion(ObjectIntersectionOf(owl:Thing ObjectHasValue(:q :e)) :e)', True),
                ('TransitiveObjectProperty(:p)', True), ('SubObjectPropertyOf(ObjectPropertyChain(:p ObjectInverseOf(:q)) :p)', True)):
            answer = self.asked(':b', ':C', text=REGISTER + statement)
            word = statement.split('(')[0]
            self.assertEqual(answer, (6, 'not shown', PLAIN if plain else NOT_PLAIN + word + '.'), statement)

    def test_ends(self):
        """Clash, spent, and what is at fault."""
        self.assertEqual(self.asked(':a', ':A', text=REGISTER + 'DisjointClasses(:A :B)'), (3, 'clash'))
        self.assertEqual(self.asked(':a', ':A', '--budget', '2'), (4, 'spent'))
        for individual, expression, words in (
                (':x', ':A', ':x: :x is no individual of the register'), ('ObjectOneOf(:a)', ':A', 'ObjectOneOf(:a): expected the name of an individual'),
                (':a', ':X', ':X: :X is no class of the register'), (':a', 'ObjectSomeValuesFrom(:r :A)', 'ObjectSomeValuesFrom(:r :A): :r is no role of the register'),
                (':a', 'ObjectOneOf(:x)', 'ObjectOneOf(:x): :x is no individual of the register'), (':a', ':A :B', ':A :B: expected nothing more, found :B'),
                (':a', 'DataHasValue(:p "x")', 'DataHasValue(:p "x"): a book cannot hold this: DataHasValue'), (':a', 'ObjectSome(:p)', 'ObjectSome(:p): ObjectSome is no class expression; did you mean')):
            status, out, err = self.run_on(HEAD + REGISTER + ')', 'is', individual, expression)
            self.assertEqual((status, out, err[:len(words)]), (1, '', words))

    def test_reader(self):
        """What one may read, and another not."""
        with tempfile.TemporaryDirectory() as folder:
            path = pathlib.Path(folder, 'who.readers')
            path.write_text('one: :w\ntwo:\n', encoding='utf-8')
            for name, answer in (('one', (0, 'shown')), ('two', (6, 'not shown', PLAIN))):
                self.assertEqual(self.asked(':d', 'ObjectSomeValuesFrom(:p :C)', '--reader', name, '--readers', path), answer)
        self.assertEqual(self.run_on(HEAD + REGISTER + ')', 'is', ':a', ':A', '--readers', 'x')[0], 2)

    def test_day(self):
        """What is in force on one day, and not on the next; with a reader, of what he may read."""
        text = REGISTER + 'ClassAssertion(Annotation(<http://schema.org/validThrough> "2026-04-30") :C :e)'
        for options, answer in (((), (0, 'shown')), (('--day', '2026-04-30'), (0, 'shown')), (('--day', '2026-05-01'), (6, 'not shown', PLAIN))):
            self.assertEqual(self.asked(':e', ':C', *options, text=text), answer)
        with tempfile.TemporaryDirectory() as folder:
            path = pathlib.Path(folder, 'who.readers')
            path.write_text('one: :w\ntwo:\n', encoding='utf-8')
            for day, name, answer in (('2026-05-01', 'one', (0, 'shown')), ('2026-05-01', 'two', (6, 'not shown', PLAIN))):
                self.assertEqual(self.asked(':d', 'ObjectSomeValuesFrom(:p :C)', '--day', day, '--reader', name, '--readers', path, text=text), answer)
