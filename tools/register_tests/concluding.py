"""What registers conclude, by the program or by its stand-in, and how the ends and faulty programs are told."""
import pathlib
import random
import subprocess
import tempfile
import unittest
from unittest import mock

import book_format as f
from register_lib import command, conclusions, library

from .common import EXAMPLES, HEAD, PROGRAM, ROOT, STAND_IN, WORKED, FileCase, packed, register, some_book

STATUS = {'clash': conclusions.CLASH, 'mistaken': conclusions.CLASH, 'sessions': conclusions.CLASH}  # of an example; finished where it is not listed
WORKED_OUTPUT = '''finished 3 12 3
t 1 0
t 2 0
t 4 0
e 0 0 1
e 0 0 2
e 0 0 4
e 1 3 1
e 1 3 2
e 1 3 4
e 2 5 1
e 2 5 2
e 2 5 4
e 3 1 6
e 3 2 6
e 3 4 6
s 1 2
s 1 4
s 2 4
'''


class Conclusions(FileCase):
    def concluded(self, axioms, program=PROGRAM):
        return self.run_on(HEAD + axioms + '\n)', 'conclude', '--program', program)

    def test_examples(self):
        self.assertGreaterEqual(len(EXAMPLES), 5)
        for path in EXAMPLES:
            with self.subTest(path.name):
                status, out, err = register('conclude', '--strict', path, '--program', PROGRAM)
                self.assertEqual((status, err), (STATUS.get(path.stem, 0), ''))
                self.assertEqual(out, path.with_suffix('.expected').read_text(encoding='utf-8'))
                if status == 0:
                    packed(out)  # conclusions are a document again

    def test_told_and_derived(self):
        """Told: assertions at any depth of And, in the named direction, and same pairs that the file says."""
        out = self.concluded('''ClassAssertion(ObjectIntersectionOf(:A ObjectIntersectionOf(:B ObjectHasValue(ObjectInverseOf(:r) :b))) :a)
            SubClassOf(:A :C) FunctionalObjectProperty(:p) ObjectPropertyAssertion(:p :a :x)
            SameIndividual(:y :x) ObjectPropertyAssertion(:p :a :y) ObjectPropertyAssertion(:p :a :z)''')[1]
        told, derived = ({line.strip() for line in part.split('\n')} for part in out.split('# derived'))
        self.assertTrue({'ClassAssertion(:A :a)', 'ClassAssertion(:B :a)', 'ObjectPropertyAssertion(:r :b :a)', 'SameIndividual(:x :y)'} <= told, out)
        self.assertTrue({'ClassAssertion(:C :a)', 'SameIndividual(:x :z)', 'SameIndividual(:y :z)'} <= derived, out)

    def test_other_ends(self):
        spent = '\n'.join(f'ObjectPropertyAssertion(:p :i{n // 64} :i{n % 64})' for n in range(4001))
        self.assertEqual(self.concluded(spent), (4, "spent: the conclusions have more types and edges than the program's budget "
                         '(4,000 for saturate).\nWith a larger one, by the proved library: tools/register conclude --budget 4096 FILE\n', ''))
        pairs = 'FunctionalObjectProperty(:p)' + '\n'.join(f'ObjectPropertyAssertion(:p :s :i{n})' for n in range(64))
        self.assertEqual(self.concluded(pairs), (5, "refused 11: more same pairs than the program's list holds (2,000 for saturate).\n"
                         'With room for all pairs, by the proved library: tools/register conclude --budget 4000 FILE\n', ''))
        self.assertEqual(self.concluded('DisjointClasses(:A :A) ClassAssertion(:A :a)'),
                         (3, 'clash: no world fits this register; its smallest sets have 1 type and 0 edges.\nWhy: tools/register why FILE\n', ''))
        book = f.read(WORKED.data)
        self.assertEqual(conclusions.write(conclusions.Run('long', [], []), book, 65537, None),
                         (5, 'long: the book has 65,537 bytes, more than the program reads (65,536 for saturate).\n'))
        self.assertEqual(conclusions.write(conclusions.read('refused 9\n', book.counts), book, 9, None),
                         (5, 'refused 9: a number out of range.\n'))
        self.assertIn('There is no larger budget.', conclusions.write(conclusions.Run('spent', [], []), f.Book([1, 64, 512], [], []), 9, None, 1000000)[1])

    def test_repeated(self):
        """A member that is repeated counts once; where it is alone, it is paired with itself."""
        for axioms, status in [('DisjointClasses(:A :A :B)', 0), ('DisjointClasses(:A :B :A)', 0), ('DisjointClasses(:A :A)', 3), ('DisjointClasses(:A :A :A)', 3)]:
            self.assertEqual(self.concluded(axioms + ' ClassAssertion(:A :a)')[0], status, axioms)

    def test_programs(self):
        """A program that is missing, fails, or prints something else."""
        with tempfile.TemporaryDirectory() as folder:
            program = pathlib.Path(folder, 'program')
            self.assertEqual(self.concluded('', program)[0], 2)
            rows = [('echo hello', 'printed none of its ends'), ('printf spent', 'printed none of its ends'), ('kill -9 $$', 'ended by signal 9'),
                    ("printf 'finished 1 0 0\\nt 0 0\\n'", 'listed what the book does not have'), ("printf 'finished 0 0 0\\nx 0 0\\n'", 'listed what'),
                    ("printf 'finished 1 0 0\\n'", 'listed other facts than it counted'), ("printf 'finished 0 0 0\\nt 0\\n'", 'listed what')]
            for script, words in rows:
                program.write_text(f'#!/bin/sh\n{script}\n')
                program.chmod(0o755)
                status, out, err = self.concluded('', program)
                self.assertEqual((status, out), (2, ''))
                self.assertIn(words, err)
            with mock.patch.object(command, 'PROGRAM', pathlib.Path(folder, 'none')):
                self.assertIn('is not built; `tools/build saturate` builds it', register('conclude', EXAMPLES[0])[2])

    def test_budgets(self):
        """Budgets that are none, and a library that is not built."""
        for budget in ('-1', '1000001', 'x', '٤', '1e3', ''):
            self.assertEqual(register('conclude', '--budget', budget, EXAMPLES[0])[0], 2, budget)
        self.assertIn('not allowed with', register('conclude', '--budget', '5', '--program', PROGRAM, EXAMPLES[0])[2])
        with mock.patch.object(library, 'ARCHIVE', pathlib.Path('none', library.ARCHIVE.name)):
            library.opened.cache_clear()
            status, out, err = register('conclude', '--budget', '5', EXAMPLES[0])
            self.assertEqual((status, out), (2, ''))
            self.assertRegex(err, r'^the library target/staticlib/lib\w+\.a is not built; `tools/build \w+` builds it, ')


class Programs(unittest.TestCase):
    def printed(self, program, data):
        return subprocess.run([program], input=data, stdout=subprocess.PIPE, check=True).stdout.decode()

    def test_ends(self):
        for program in {PROGRAM, STAND_IN}:
            rows = [(WORKED.data, WORKED_OUTPUT), (b'', 'refused 4\n'), (b'\x00', 'finished 0 0 0\n'), (bytes(65536), 'refused 10\n'), (bytes(65537), 'long\n')]
            for data, output in rows:
                self.assertEqual(self.printed(program, data), output)

    @unittest.skipIf(PROGRAM == STAND_IN, 'target/bin/saturate is not built')
    def test_program_and_stand_in(self):
        rng = random.Random(3)
        for data in [some_book(rng) for _ in range(20)] + [packed(path.read_text(encoding='utf-8')) for path in EXAMPLES]:
            self.assertEqual(self.printed(PROGRAM, data), self.printed(STAND_IN, data))

    def test_command(self):
        done = subprocess.run([ROOT / 'tools' / 'register', '--help'], stdout=subprocess.PIPE, check=True)
        self.assertIn(b'Exit status:', done.stdout)
