"""conclude --reader: the file that says who may read which workshop, and what a reader concludes, by the library where it is
built and else by a stand-in that is the reference."""
import ctypes
import pathlib
import shutil
import tempfile
import unittest
from unittest import mock

import reference
from register_lib import library, readers
from register_lib.packer import Packer

from .common import HEAD, PROGRAM, ROOT, FileCase, register

BY = 'Annotation(rdfs:isDefinedBy :%s) '
EXAMPLE = ROOT / 'examples' / 'sessions.ofn'
READERS = {'north': 0, 'partner': 0, 'south': 0, 'visitor': 0, 'auditor': 3}  # of the example, and the status of each
REGISTER = f'''TransitiveObjectProperty({BY % 'w'}:p) ObjectPropertyAssertion({BY % 'w'}:p :a :b) ObjectPropertyAssertion({BY % 'v'}:p :b :c)
ObjectPropertyAssertion(:p :c :d) ObjectPropertyAssertion({BY % 'u'}:p :a :c) ClassAssertion({BY % 'v'}{BY % 'w'}:A :a)'''


def stand_in(book, budget, type_room, edge_room, pair_room, reader=None, table=None, day=None):
    """The run that the library makes, by the reference."""
    named = None if reader is None else (reader, table)
    line, *rows = reference.end(book, budget, type_room, edge_room, pair_room, reader=named, day=day)
    word, *numbers = line.split()
    numbers = [int(n) for n in numbers]
    end = library.REFUSED + numbers[0] if word == 'refused' else {'finished': library.FINISHED, 'clash': library.CLASH, 'spent': library.SPENT}[word]
    counts = (numbers + [0, 0, 0])[:3] if word in ('finished', 'clash') else [0, 0, 0]
    lists = []
    for listed, room in zip(rows, (type_room, edge_room, pair_room)):
        entries = [n for row in listed for n in row]
        lists.append((ctypes.c_uint32 * room)(*entries))
    return library.Run(end, *counts, *lists)


def named_part(end, edge_count, pair_count, named):
    return 0 if end != library.FINISHED else 3 * edge_count if named == library.EDGES else 2 * pair_count


class WithStandIn(FileCase):
    """Tests in which the reference stands for the library."""

    def setUp(self):
        for name, function in (('saturate_for', stand_in), ('saturate_for_on', stand_in), ('saturate_on', lambda *args: stand_in(*args[:-1], day=args[-1])),
                               ('named_part', named_part), ('figure', lambda book: (library.FIGURE, reference.figure(book)))):
            patch = mock.patch.object(library, name, function)
            patch.start()
            self.addCleanup(patch.stop)

    def concluded(self, lines, name, *args, text=REGISTER):
        """(exit status, standard output, standard error) of a run for a reader by a file of these lines."""
        with tempfile.TemporaryDirectory() as folder:
            path = pathlib.Path(folder, 'who.readers')
            path.write_text(lines, encoding='utf-8')
            status, out, err = self.run_on(HEAD + text + ')', 'conclude', '--reader', name, '--readers', path, *args)
            return status, out, err.replace(str(path), 'who.readers')


class Files(WithStandIn):
    def read(self, lines, text=REGISTER):
        packer = Packer(HEAD + text + ')')
        packer.pack(strict=True)
        return readers.read(lines, packer.names())

    def test_table(self):
        """Readers by their lines, from 0; a workshop's word has a bit for each who may read it, and word 0 none."""
        found = self.read('one: :w :v\n\n# nobody\n  two :\nthree: <http://example.org/r#u> :w # and not :v\n')
        self.assertEqual([(r.name, r.number, r.sources) for r in found.values()], [('one', 0, [1, 2]), ('two', 1, []), ('three', 2, [3, 1])])
        self.assertEqual(found['two'].table, [0, 0b101, 0b001, 0b100] + [0] * 1020)
        self.assertEqual({len(r.table) for r in found.values()}, {1024})

    def test_names(self):
        """A reader's name may have any sign but space, colon and #; a # within a name in < > is none of a comment."""
        found = self.read("O'Neill-3: :w\nmaître:\t:v\n<x>: <http://example.org/r#w>\n")
        self.assertEqual(list(found), ["O'Neill-3", 'maître', '<x>'])

    def test_most(self):
        """32 readers, the last of them with the highest bit, and one more."""
        lines = ''.join(f'r{n}: :w\n' for n in range(32))
        self.assertEqual(self.read(lines)['r31'].table[1], 2 ** 32 - 1)
        self.assertEqual(self.concluded(lines + '# and\nr32: :w\n', 'r0'), (1, '', (
            'who.readers: line 34, column 1: r32 is one reader too many; there are at most 32\n    r32: :w\n    ^\n')))

    def test_faults(self):
        """Each fault is told with its line and column."""
        rows = [('one\n', 1, 1, 'expected a reader, a colon and workshops, such as "inspector: :north south:workshop"'),
                ('one: :w\n:w :v\n', 2, 1, 'expected a reader'), ('south:workshop\n', 1, 1, 'expected a reader'),
                ('one: :w\n\n  one: :v\n', 3, 3, 'one has a line already'),
                ('one: :w\ntwo: :v :ww\n', 2, 9, ':ww is no workshop of the register; did you mean :w?'),
                ('one: :w :x1234\n', 1, 9, ':x1234 is no workshop of the register'),
                ('one: :w x:w\n', 1, 9, 'x:w is no name for this kind, or its prefix is not declared above'),
                ('one: w\n', 1, 6, 'w is no name for this kind'), ('one: :w, :v\n', 1, 6, ':w, is no name for this kind'),
                ('one: :w :v :w\n', 1, 12, ':w stands twice in this line'),
                ('one: _:x\n', 1, 6, '_:x is no name for this kind'), ('one: <http://example.org/r#w\n', 1, 6, 'is no name for this kind')]
        for lines, line, column, words in rows:
            status, out, err = self.concluded(lines, 'one')
            self.assertEqual((status, out), (1, ''), lines)
            self.assertTrue(err.startswith(f'who.readers: line {line}, column {column}: '), err)
            self.assertIn(words, err)

    def test_no_such_reader(self):
        for lines, name, words in (('one: :w\ntwo:\n', 'three', 'three is no reader of this file; it has one, two'), ('', 'one', 'it has none'),
                                   ('inspector:\n', 'inspecter', 'did you mean inspector?')):
            status, out, err = self.concluded(lines, name)
            self.assertEqual((status, out), (1, ''))
            self.assertEqual(err, f'who.readers: {name} is no reader of this file; {words.rpartition("; ")[2]}\n')

    def test_usage(self):
        """A file without a reader, a reader with a program, no file, and one that is no text."""
        self.assertEqual(register('conclude', EXAMPLE, '--readers', 'who.readers'), (2, '', '--readers says who may read what, for the one that --reader names\n'))
        self.assertEqual(register('conclude', EXAMPLE, '--reader', 'north', '--program', PROGRAM), (2, '', '--reader takes the library: the program names no reader\n'))
        status, out, err = self.run_on(HEAD + REGISTER + ')', 'conclude', '--reader', 'one')
        self.assertEqual((status, out), (2, ''))
        self.assertIn('file.readers: cannot be read: No such file', err)
        with tempfile.TemporaryDirectory() as folder:
            path = pathlib.Path(folder, 'who.readers')
            path.write_bytes(b'one: \xff\n')
            self.assertEqual(register('conclude', EXAMPLE, '--reader', 'one', '--readers', path), (1, '', f'{path}: line 1, column 6: not UTF-8 text\n'))

    def test_no_library(self):
        with mock.patch.object(library, 'figure', side_effect=library.NotBuilt('the library is not built')):
            self.assertEqual(register('conclude', EXAMPLE, '--reader', 'north'), (2, '', 'the library is not built\n'))


class Readers(WithStandIn):
    def test_examples(self):
        """Each reader's conclusions. For the auditor, who may read all, they are those of the register itself."""
        for name, status in READERS.items():
            printed = EXAMPLE.with_name(f'sessions.{name}.expected').read_text(encoding='utf-8')
            self.assertEqual(register('conclude', EXAMPLE, '--reader', name), (status, printed, ''))
        self.assertEqual(set(READERS), set(readers.read(EXAMPLE.with_suffix('.readers').read_text(encoding='utf-8'), self.names_of(EXAMPLE))))

    def names_of(self, path):
        packer = Packer(path.read_text(encoding='utf-8'))
        packer.pack()
        return packer.names()

    def test_told(self):
        """Whose statement a told fact was is said of the workshops alone that the reader may read; what only others tell is
        derived, where it still follows."""
        lines = 'w: :w\nwv: :w :v\nnone:\n'
        self.assertEqual(self.concluded(lines, 'w')[1].partition('Ontology(\n')[2], (
            '    # told: 1 type, 2 edges, 0 same pairs\n    ClassAssertion(Annotation(rdfs:isDefinedBy :w) :A :a)\n'
            '    ObjectPropertyAssertion(Annotation(rdfs:isDefinedBy :w) :p :a :b)\n    ObjectPropertyAssertion(:p :c :d)\n'
            '    # derived: 0 types, 0 edges, 0 same pairs\n)\n'))
        status, out, err = self.concluded(lines, 'wv')
        self.assertEqual((status, err), (0, ''))
        self.assertTrue(out.startswith('# finished: 1 type, 6 edges, 0 same pairs\n# for wv, who may read the shared book, :w, :v\nPrefix('), out)
        told, derived = out.split('# derived')
        self.assertIn('ClassAssertion(Annotation(rdfs:isDefinedBy :w) Annotation(rdfs:isDefinedBy :v) :A :a)', told)
        self.assertNotIn(':u', out)
        self.assertIn('ObjectPropertyAssertion(:p :a :c)', derived)
        out = self.concluded(lines, 'none')[1]
        self.assertEqual([line.strip() for line in out.splitlines() if 'Assertion' in line], ['ObjectPropertyAssertion(:p :c :d)'])
        self.assertNotIn('rdfs', out)

    def test_no_trace(self):
        """What a reader is told does not change with statements that he may not read, though they clash, or would fill the budget."""
        lines = 'w: :w\n'
        hidden = [f'DisjointClasses({BY % "v"}:A :A)', '\n'.join(f'ObjectPropertyAssertion({BY % "v"}:p :i{n} :i{n + 1})' for n in range(40)),
                  f'SameIndividual({BY % "v"}:a :b :c :d)', f'FunctionalObjectProperty({BY % "v"}:p)']
        # the individuals of all are declared in each, as they count in the header
        declared = ' '.join(f'Declaration(NamedIndividual(:i{n}))' for n in range(41))
        wanted = self.concluded(lines, 'w', text=REGISTER + declared)
        for axioms in hidden:
            self.assertEqual(self.concluded(lines, 'w', text=REGISTER + declared + axioms), wanted)
            self.assertEqual(self.concluded(lines, 'w', '--budget', '2', text=REGISTER + declared + axioms)[0], 4)

    def test_order(self):
        """Facts, workshops and the two of a pair stand by their names, wherever a hidden axiom mentions them first."""
        text = (f'ObjectPropertyAssertion({BY % "w"}{BY % "v"}:p :s :a) ObjectPropertyAssertion(:p :s :b) FunctionalObjectProperty(:p)\n'
                'ClassAssertion(:A :a) ClassAssertion(:B :a)')
        hidden = f'ObjectPropertyAssertion({BY % "u"}:q :b :a) ClassAssertion({BY % "v"}{BY % "u"}:B :b) ClassAssertion({BY % "u"}:A :b)\n'
        lines, declared = 'r: :w :v\nu: :u\n', 'Declaration(ObjectProperty(:q))'
        first, last = (self.concluded(lines, 'r', text=order) for order in (hidden + text + declared, text + declared + hidden))
        self.assertEqual(first, last)
        self.assertEqual([line.strip() for line in first[1].splitlines() if 'Assertion' in line or 'Same' in line], [
            'ClassAssertion(:A :a)', 'ClassAssertion(:B :a)', 'ClassAssertion(Annotation(rdfs:isDefinedBy :v) :B :b)',
            'ObjectPropertyAssertion(Annotation(rdfs:isDefinedBy :w) Annotation(rdfs:isDefinedBy :v) :p :s :a)', 'ObjectPropertyAssertion(:p :s :b)',
            'ClassAssertion(:A :b)', 'SameIndividual(:a :b)'])

    def test_ends(self):
        clash = f'DisjointClasses({BY % "w"}:A :A) ClassAssertion(:A :a) ClassAssertion({BY % "v"}:B :a)'
        lines = 'w: :w\nv: :v\n'
        self.assertEqual(self.concluded(lines, 'w', text=clash), (3, 'clash: no world fits what w may read of this register; its smallest sets have 1 type and 0 edges.\n', ''))
        self.assertEqual(self.concluded(lines, 'v', text=clash)[0], 0)
        self.assertEqual(self.concluded(lines, 'v', '--budget', '1', text=clash), (
            4, 'spent: the conclusions have more types and edges than the budget of 1.\n'
            'With a larger one, by the proved library: tools/register conclude --budget 2 --reader v FILE\n', ''))


def built():
    """Whether the library is there, and can run for a reader."""
    try:
        return bool(shutil.which(library.CC)) and bool(library.loaded('zamoluvel_saturate_for'))
    except library.NotBuilt:
        return False


@unittest.skipUnless(built(), f'runs of the library for a reader, which take {library.CC} and `{library.BUILD}`')
class ByLibrary(FileCase):
    def test_examples(self):
        for name, status in READERS.items():
            printed = EXAMPLE.with_name(f'sessions.{name}.expected').read_text(encoding='utf-8')
            self.assertEqual(register('conclude', EXAMPLE, '--reader', name), (status, printed, ''))
            self.assertEqual(register('conclude', EXAMPLE, '--reader', name, '--budget', 100), (status, printed, ''))
