#!/usr/bin/env python3
"""Runs the book in a file and prints its end and its lists, as the program does.

    callers/caller.py FILE.book    exit status 2 for a wrong usage, or a file that cannot be read

The shared library is target/callers/libzamoluvel.so; callers/run links it.
"""
import ctypes
import pathlib
import sys

LIBRARY = pathlib.Path(__file__).resolve().parent.parent / 'target' / 'callers' / 'libzamoluvel.so'
BUDGET, MOST_BYTES = 4000, 65536
FINISHED, CLASH, SPENT, REFUSED = 0, 1, 2, 100
EDGES, PAIRS = 0, 1


def load(path):
    """The library, with the types of include/saturation.h."""
    library = ctypes.CDLL(str(path))
    size, number, numbers = ctypes.c_size_t, ctypes.c_uint32, ctypes.POINTER(ctypes.c_uint32)
    library.zamoluvel_saturate.argtypes = [ctypes.c_char_p, size, ctypes.c_uint64, *[numbers, size] * 3, *[numbers] * 3]
    library.zamoluvel_saturate.restype = number
    library.zamoluvel_named_part.argtypes = [number] * 4
    library.zamoluvel_named_part.restype = size
    return library


def saturate(library, book, budget, types, edges, pairs):
    """(end, type count, edge count, pair count) of a run on bytes and three arrays of c_uint32."""
    lists = [word for entries in (types, edges, pairs) for word in (entries, len(entries))]
    counts = [ctypes.c_uint32() for _ in range(3)]
    end = library.zamoluvel_saturate(book, len(book), budget, *lists, *map(ctypes.byref, counts))
    return end, *(count.value for count in counts)


def lines(library, book):
    """The lines that the program prints for a book."""
    if len(book) > MOST_BYTES:
        return ['long']
    types, edges, pairs = ((ctypes.c_uint32 * room)() for room in (2 * BUDGET, 3 * BUDGET, 4000))
    end, t, e, p = saturate(library, book, BUDGET, types, edges, pairs)
    if end != FINISHED:
        return [{CLASH: f'clash {t} {e}', SPENT: 'spent'}.get(end, f'refused {end - REFUSED}')]
    edge_part, pair_part = (library.zamoluvel_named_part(end, e, p, named) for named in (EDGES, PAIRS))
    parts = [('t', 2, types[:2 * t]), ('e', 3, edges[:edge_part]), ('s', 2, pairs[:pair_part])]
    rows = [(letter, *part[n:n + width]) for letter, width, part in parts for n in range(0, len(part), width)]
    return [f'finished {t} {e} {p}', *(' '.join(map(str, row)) for row in rows)]


def main(args):
    """Prints the lines of the book that is named, and returns the exit status."""
    if len(args) != 1:
        print('usage: caller.py FILE.book', file=sys.stderr)
        return 2
    try:
        with open(args[0], 'rb') as file:
            book = file.read(MOST_BYTES + 1)
        printed = lines(load(LIBRARY), book)
    except OSError as error:
        print(f'caller.py: {error}', file=sys.stderr)
        return 2
    print(*printed, sep='\n')
    return 0


if __name__ == '__main__':
    sys.exit(main(sys.argv[1:]))
