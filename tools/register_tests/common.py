"""What the tests share: the command, documents as books and back, and books of any shape."""
import contextlib
import io
import pathlib
import re
import tempfile
import unittest

import book_format as f
from bars_table import bars
from register_lib import command, names
from register_lib.packer import Packer
from register_lib.text import Writer

ROOT = pathlib.Path(__file__).resolve().parent.parent.parent
STAND_IN = ROOT / 'tools' / 'saturate-reference'
PROGRAM = command.PROGRAM if command.PROGRAM.exists() else STAND_IN
EXAMPLES = sorted((ROOT / 'examples').glob('*.ofn'))
HEAD = 'Prefix(:=<http://example.org/r#>)\nOntology(\n'
WORKED = next(bar for bar in bars() if bar.label.startswith('the worked book'))


def register(*args):
    """(exit status, standard output, standard error) of the command."""
    out, err = io.StringIO(), io.StringIO()
    with contextlib.redirect_stdout(out), contextlib.redirect_stderr(err):
        try:
            status = command.main([str(arg) for arg in args])
        except SystemExit as stop:
            status = stop.code
    return status, out.getvalue(), err.getvalue()


def packed(text):
    """The bytes of a document that is held whole, within every limit."""
    packer = Packer(text)
    packer.pack(strict=True)
    assert not packer.over()
    return packer.data()


def shown(data):
    book = f.read(data)
    return Writer(book, names.unnamed(book.counts)).show()


def some_book(rng):
    """A book of any shape: repeated and unused concepts, empty lists, unused numbers."""
    counts = [rng.randint(0, 4), rng.randint(0, 3), rng.randint(0, 5)]
    limits = dict(zip('CRIN', (0, 2 * counts[1], counts[2], 2 ** 32)), A=counts[0])

    def record(forms):
        kind, form = rng.choice([(k, form) for k, form in forms if all(limits[x] for x in form)])
        return (kind, *(rng.choice((0, 1, limits[x] - 1)) % limits[x] if x == 'N' else rng.randrange(limits[x]) for x in form))
    concepts, statements = [], []
    for k in range(rng.randint(0, 14)):
        limits['C'], parts = k, 'C' * rng.randint(0, 3 if k else 0)
        concepts.append(record([(f.TOP, ''), (f.BOT, ''), (f.ATOMIC, 'A'), (f.NOMINAL, 'I'), (f.SELF, 'R'), (f.NOT, 'C'), (f.AND, parts),
                                (f.OR, parts), (f.SOME, 'RC'), (f.ALL, 'RC'), (f.MIN, 'RCN'), (f.MAX, 'RCN'), (f.ATOMIC, 'A')]))
    limits['C'] = len(concepts)
    forms = [(f.SUB_CLASS, 'CC'), (f.EQUIVALENT, 'CC'), (f.DISJOINT, 'CC'), (f.INVERSE, 'RR'), (f.SUB_ROLE, 'RR'), (f.SUB_ROLE, 'RRR'),
             (f.SUB_ROLE, 'RRRR'), (f.TRANSITIVE, 'R'), (f.SYMMETRIC, 'R'), (f.FUNCTIONAL, 'R'), (f.INVERSE_FUNCTIONAL, 'R'),
             (f.DOMAIN, 'RC'), (f.RANGE, 'RC'), (f.SAME, 'II'), (f.CLASS_ASSERTION, 'CI'), (f.ROLE_ASSERTION, 'RII'), (f.ROLE_ASSERTION, 'RII'),
             (f.DIFFERENT, 'II'), (f.DENIAL, 'RII')]
    if limits['C'] or counts[1] or counts[2]:
        statements = [record(forms) for _ in range(rng.randint(0, 16))]
    sources = rng.choice([[0], [0, 1, 2], [0, 7, 512, 1023]])
    periods = rng.choice([[()], [(), (1, 9700), (9563,), (0, 0), (65535, 65535)]])
    return f.write(counts, concepts, statements, [f.Marks(rng.choice(sources), *rng.choice(periods)) for _ in statements])


class FileCase(unittest.TestCase):
    """Tests of the command on a file that is written for it."""

    def run_on(self, text, *args, name='file.ofn'):
        """(exit status, standard output, standard error) of the command on this text, with its file called by its name."""
        with tempfile.TemporaryDirectory() as folder:
            path = pathlib.Path(folder, name)
            path.write_bytes(text if isinstance(text, bytes) else text.encode())
            status, out, err = register(args[0], path, *args[1:])
            if args[0] == 'pack':
                self.assertEqual(path.with_suffix('.book').exists(), status == 0)
            return status, out, err.replace(str(path), name)

    def packed(self, text, *options):
        """(exit status, standard error) of packing."""
        return self.run_on(text, 'pack', *options)[::2]

    def left_out(self, axioms):
        """What standard error says of these axioms, which are packed, without the words that each line begins with."""
        status, err = self.packed(HEAD + axioms + '\n)')
        self.assertEqual(status, 0, err)
        return [re.sub('^file.ofn: left out, since a book cannot hold it: ', '', line) for line in err.splitlines()]
