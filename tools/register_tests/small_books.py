"""small, and the library behind it; left out where target/staticlib has no library."""
import pathlib
import shutil
import tempfile
import unittest

import book_format as f
from register_lib import library

from .common import register


@unittest.skipUnless(library.ARCHIVE.exists() and shutil.which(library.CC),
                     f'the small books of the library, which take {library.CC} and `{library.BUILD}`')
class Small(unittest.TestCase):
    def test_one(self):
        """A book of one statement, shown; past the last there is none."""
        status, out, err = register('small', 1)
        self.assertEqual((status, err), (0, ''))
        self.assertIn('# position 1: 1f010001000200010001000201000001300000000000\n', out)
        self.assertIn('SubClassOf(book:C0 book:C0)', out)
        self.assertEqual(register('small', 5403), (1, '', 'there is no small book at position 5,403\n'))
        self.assertEqual(register('small', 2 ** 63)[0], 1)
        self.assertEqual(register('small', 'x')[0], 2)

    def test_all(self):
        """Every one as a file, which is accepted."""
        with tempfile.TemporaryDirectory() as folder:
            self.assertEqual(register('small', '--all', folder), (0, f'{folder}: 5,403 books\n', ''))
            files = sorted(pathlib.Path(folder).iterdir())
            self.assertEqual([path.name for path in files], [f'{n:04}.book' for n in range(5403)])
            for path in files:
                self.assertEqual(f.read(path.read_bytes()).counts[:4], [1, 1, 2, 1])
