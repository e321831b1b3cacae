"""clean, and the library behind it; left out where target/staticlib has no library."""
import pathlib
import shutil
import tempfile
import unittest

import book_format as f
from bars_table import Register
from register_lib import library

from .common import register


def told(*statements):
    """A book of one class, one role and two individuals."""
    book = Register(1, 1, 2)
    book.classes(1)
    for statement in statements:
        book.tell(*statement)
    return book.data()


@unittest.skipUnless(library.ARCHIVE.exists() and shutil.which(library.CC),
                     f'the writer of the library, which takes {library.CC} and `{library.BUILD}`')
class Cleaning(unittest.TestCase):
    def cleaned(self, data, *options):
        """(exit status, the written bytes or None, standard output, standard error), with the folder's name left out."""
        with tempfile.TemporaryDirectory() as folder:
            path = pathlib.Path(folder, 'file.book')
            path.write_bytes(data)
            status, out, err = register('clean', path, *(option.replace('DIR', folder) for option in options))
            written = pathlib.Path(folder, 'other' if options else 'file.clean.book')
            self.assertEqual(path.read_bytes(), data)
            return status, written.read_bytes() if written.exists() else None, out.replace(folder + '/', ''), err.replace(folder + '/', '')

    def test_repeats(self):
        """Repeats are dropped, the first of each is kept, and a pair the other way round is none."""
        same, turned, edge = (f.SAME, 0, 1), (f.SAME, 1, 0), (f.ROLE_ASSERTION, 0, 0, 1)
        wanted = told(same, edge, turned)
        self.assertEqual(self.cleaned(told(same, edge, same, turned, edge)), (
            0, wanted, f'file.clean.book: 2 statements dropped of 5, {len(wanted)} bytes\n', ''))
        self.assertEqual(self.cleaned(wanted, '-o', 'DIR/other'), (
            0, wanted, f'other: 0 statements dropped of 3, {len(wanted)} bytes\n', ''))

    def test_refused(self):
        """A refused book is told by its number, and nothing is written."""
        self.assertEqual(self.cleaned(b''), (1, None, '', 'file.book: refused 4: the book ends before a record is complete\n'))
        self.assertEqual(self.cleaned(told() + b'x')[0::3], (1, 'file.book: refused 10: bytes behind the last statement\n'))
