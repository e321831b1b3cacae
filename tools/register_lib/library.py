"""The proved library: a function for each one of include/saturation.h, called by ctypes. The shared object is linked from
the static library, by cc, where it is missing or older."""
import ctypes
import functools
import os
import pathlib
import subprocess
import threading
from collections import namedtuple
from concurrent.futures import ThreadPoolExecutor

NAME = 'zamoluvel'  # of the crate that it is built from
BUILD = f'tools/build {NAME}'
ARCHIVE = pathlib.Path(__file__).resolve().parent.parent.parent / 'target' / 'staticlib' / f'lib{NAME}.a'
CC = os.environ.get('CC') or 'cc'
STACK = 16 << 20  # bytes for a call; the header asks for less

MOST_BUDGET = 1000000
FINISHED, CLASH, SPENT, REFUSED = 0, 1, 2, 100
SHOWN, NOT_SHOWN = 3, 4
ALONE = 5
WRITTEN = 0
FIGURE = 0
JUDGED = 0
MOST_SMALL = 37  # bytes of a small book
EDGES, PAIRS = 0, 1

# the end as a number, the three counts, and the three lists at exit, as arrays of c_uint32
Run = namedtuple('Run', 'end type_count edge_count pair_count types edges pairs')
# the present run, and the same of the copy: what it has beyond the present run, or ALONE as its end
Effect = namedtuple('Effect', 'present copy')


class NotBuilt(Exception):
    """Why the library cannot be called, and what builds it."""


def saturate(book, budget, type_room, edge_room, pair_room, fill=0):
    """A run on the bytes of a book, with lists of so many entries, each `fill` at first."""
    return run('zamoluvel_saturate', book, budget, (type_room, edge_room, pair_room), fill)


def saturate_for(book, budget, type_room, edge_room, pair_room, reader, table, fill=0):
    """A run for a reader, by number, with the words of his table."""
    words = (ctypes.c_uint32 * len(table))(*table)
    return run('zamoluvel_saturate_for', book, budget, (type_room, edge_room, pair_room), fill, reader, words, len(words))


def saturate_on(book, budget, type_room, edge_room, pair_room, day, fill=0):
    """A run as of a day, by number."""
    return run('zamoluvel_saturate_on', book, budget, (type_room, edge_room, pair_room), fill, day)


def saturate_for_on(book, budget, type_room, edge_room, pair_room, reader, table, day, fill=0):
    """A run for a reader as of a day."""
    words = (ctypes.c_uint32 * len(table))(*table)
    return run('zamoluvel_saturate_for_on', book, budget, (type_room, edge_room, pair_room), fill, reader, words, len(words), day)


def judge(book, budget, type_room, edge_room, pair_room, individual, concept, reader=None, day=None, fill=0):
    """Whether the concept is shown for the individual, for a reader, (number, words of his table), and as of a day where they are given."""
    lists, lent = lent_lists((type_room, edge_room, pair_room), fill)
    counts = (ctypes.c_uint32 * 3)(*[fill] * 3)
    function, named = 'zamoluvel_is', []
    if reader is not None:
        number, table = reader
        function, named = function + '_for', [number, (ctypes.c_uint32 * len(table))(*table), len(table)]
    if day is not None:
        function, named = function + '_on', [*named, day]
    end = called(function, book, len(book), budget, *lent, *named, individual, concept, counts, len(counts))
    return Run(end, *counts, *lists)


def what_if(book, line, budget, rooms, more_rooms, fill=0):
    """What the bytes of a record would do to a book: rooms for types, edges and pairs of the present run, and for what is new."""
    lists, lent = lent_lists((*rooms, *more_rooms), fill)
    counts = (ctypes.c_uint32 * 7)(*[fill] * 7)
    end = called('zamoluvel_what_if', book, len(book), line, len(line), budget, *lent, counts, len(counts))
    return Effect(Run(end, *counts[:3], *lists[:3]), Run(*counts[3:], *lists[3:]))


def lent_lists(rooms, fill):
    """Lists of so many entries, and each with its length as they are handed over."""
    lists = [(ctypes.c_uint32 * room)(*[fill] * room) if fill else (ctypes.c_uint32 * room)() for room in rooms]
    return lists, [word for entries in lists for word in (entries, len(entries))]


def run(function, book, budget, rooms, fill, *named):
    lists, lent = lent_lists(rooms, fill)
    counts = (ctypes.c_uint32 * 3)()
    places = [ctypes.cast(ctypes.byref(counts, 4 * n), ctypes.POINTER(ctypes.c_uint32)) for n in range(3)]
    # a run as of a day writes the three counts to one array
    end = called(function, book, len(book), budget, *lent, *named, *places[:1 if function.endswith('_on') else 3])
    return Run(end, *counts, *lists)


def named_part(end, edge_count, pair_count, named):
    """How many entries of the named list, EDGES or PAIRS, the facts of a run fill."""
    return called('zamoluvel_named_part', end, edge_count, pair_count, named)


def write(book, out):
    """The writer on the bytes of a book, with a buffer of ctypes as the lent bytes: (code, length of the written book)."""
    length = ctypes.c_size_t()
    code = called('zamoluvel_write', book, len(book), out, len(out), ctypes.byref(length))
    return code, length.value


def figure(book):
    """What the bytes of a book will need: (code, figure)."""
    needed = ctypes.c_uint32()
    code = called('zamoluvel_figure', book, len(book), ctypes.byref(needed))
    return code, needed.value


def saturate_rows(book, budget, type_room, edge_room, row_room, fill=0):
    """A run on the bytes of a book that lends a row list in place of the pair list."""
    return run('zamoluvel_saturate_rows', book, budget, (type_room, edge_room, row_room), fill)


def check_rows(book, rows):
    """The checker on the bytes of a book and a list of numbers: ('standing', how many rows) or ('refused', number)."""
    standing = ctypes.c_size_t()
    code = called('zamoluvel_check_rows', book, len(book), (ctypes.c_uint32 * len(rows))(*rows), len(rows), ctypes.byref(standing))
    return ('standing', standing.value) if code == JUDGED else ('refused', code - REFUSED)


def small_book(position):
    """The bytes of the small book at a position, or None past the last."""
    out = ctypes.create_string_buffer(MOST_SMALL)
    length = called('zamoluvel_small_book', position, out, len(out))
    return out.raw[:length] if length else None


def called(function, *args):
    """What a function of the library returns, on a thread with stack enough."""
    with ThreadPoolExecutor(1) as pool:
        function = getattr(loaded(function), function)
        before = threading.stack_size(STACK)
        answer = pool.submit(function, *args)
        threading.stack_size(before)
        return answer.result()


def loaded(function=None):
    """The shared object, with the types of the header. One that was built before it had the function is not good enough."""
    library = opened()
    if function and not hasattr(library, function):
        raise NotBuilt(f'the library has no {function}; `{BUILD}` builds it anew')
    return library


@functools.lru_cache(maxsize=None)
def opened():
    try:
        library = ctypes.CDLL(str(linked()))
    except OSError as error:
        raise NotBuilt(f'the library cannot be loaded: {error}') from None
    size, number, numbers = ctypes.c_size_t, ctypes.c_uint32, ctypes.POINTER(ctypes.c_uint32)
    types = {
        'zamoluvel_figure': (number, ctypes.c_char_p, size, numbers),
        'zamoluvel_saturate': (number, ctypes.c_char_p, size, ctypes.c_uint64, *[numbers, size] * 3, *[numbers] * 3),
        'zamoluvel_saturate_for': (number, ctypes.c_char_p, size, ctypes.c_uint64, *[numbers, size] * 3, number, numbers, size, *[numbers] * 3),
        'zamoluvel_saturate_on': (number, ctypes.c_char_p, size, ctypes.c_uint64, *[numbers, size] * 3, ctypes.c_uint16, numbers),
        'zamoluvel_saturate_for_on': (number, ctypes.c_char_p, size, ctypes.c_uint64, *[numbers, size] * 3, number, numbers, size, ctypes.c_uint16, numbers),
        'zamoluvel_is': (number, ctypes.c_char_p, size, ctypes.c_uint64, *[numbers, size] * 3, number, number, numbers, size),
        'zamoluvel_is_for': (number, ctypes.c_char_p, size, ctypes.c_uint64, *[numbers, size] * 3, number, numbers, size, number, number, numbers, size),
        'zamoluvel_is_on': (number, ctypes.c_char_p, size, ctypes.c_uint64, *[numbers, size] * 3, ctypes.c_uint16, number, number, numbers, size),
        'zamoluvel_is_for_on': (number, ctypes.c_char_p, size, ctypes.c_uint64, *[numbers, size] * 3, number, numbers, size, ctypes.c_uint16, number, number, numbers, size),
        'zamoluvel_what_if': (number, ctypes.c_char_p, size, ctypes.c_char_p, size, number, *[numbers, size] * 7),
        'zamoluvel_named_part': (size, *[number] * 4),
        'zamoluvel_small_book': (size, ctypes.c_uint64, ctypes.c_char_p, size),
        'zamoluvel_saturate_rows': (number, ctypes.c_char_p, size, ctypes.c_uint64, *[numbers, size] * 3, *[numbers] * 3),
        'zamoluvel_check_rows': (number, ctypes.c_char_p, size, numbers, size, ctypes.POINTER(size)),
        'zamoluvel_write': (number, ctypes.c_char_p, size, ctypes.c_char_p, size, ctypes.POINTER(size)),
    }
    for name, (result, *args) in types.items():
        if hasattr(library, name):
            function = getattr(library, name)
            function.restype, function.argtypes = result, args
    return library


def linked():
    """The path of the shared object, linked anew where the static library is newer."""
    shared = ARCHIVE.with_suffix('.so')
    if not ARCHIVE.exists():
        raise NotBuilt(f'the library target/staticlib/{ARCHIVE.name} is not built; `{BUILD}` builds it, which proves '
                       'its crates and takes some minutes the first time')
    if not shared.exists() or shared.stat().st_mtime <= ARCHIVE.stat().st_mtime:
        # under a name of its own first, so that a run at the same time never loads a part of it
        fresh = shared.with_suffix(f'.{os.getpid()}.so')
        try:
            subprocess.run([CC, '-shared', '-Wl,-z,defs,-z,text', '-Wl,--whole-archive', ARCHIVE, '-Wl,--no-whole-archive',
                            '-o', fresh], check=True)
            os.replace(fresh, shared)
        except (OSError, subprocess.CalledProcessError) as error:
            raise NotBuilt(f'{CC}, which links the library, cannot be run or fails: {error}') from None
    return shared
