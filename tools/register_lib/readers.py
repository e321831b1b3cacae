"""Who may read which workshop: a file with a line for each reader, such as `inspector: :north south:workshop`, which has the
reader's name and the workshops whose statements he may read, by their names in the register. `#` starts a comment, behind a
space or at the start of a line. Readers are numbered from 0 in the order of their lines. What the shared book says is read by
all."""
import difflib
import re
from collections import namedtuple

import book_format as f

from .names import full
from .tokens import Fault

MOST = 32
WORDS = f.MARKS['source'][1]  # of a table: one for each source, that of the shared book among them

# a table has bit r of word s set where reader r may read source s
Reader = namedtuple('Reader', 'name number sources table')


def read(text, names):
    """The readers of a file by name, for a register whose names are given."""
    found, table, at = {}, [0] * WORDS, 0
    for line in text.split('\n'):
        entry = re.fullmatch(r'[ \t]*([^\s:#]+)[ \t]*:((?:[ \t].*)?)', line)
        if entry:
            add(found, table, entry, at, names)
        elif line.strip() and not line.lstrip().startswith('#'):
            raise Fault('expected a reader, a colon and workshops, such as "inspector: :north south:workshop"', at)
        at += len(line) + 1
    return {name: Reader(name, number, sources, table) for number, (name, sources) in enumerate(found.items())}


def add(found, table, entry, at, names):
    """Takes the line of one reader, whose number is how many came before him."""
    name, number, sources = entry[1], len(found), []
    if name in found:
        raise Fault(f'{name} has a line already', at + entry.start(1))
    if number == MOST:
        raise Fault(f'{name} is one reader too many; there are at most {MOST}', at + entry.start(1))
    for word in re.finditer(r'\S+', re.sub(r'(?<!\S)#.*', '', entry[2])):
        where = at + entry.start(2) + word.start()
        source = source_of(word[0], where, names)
        if source in sources:
            raise Fault(f'{word[0]} stands twice in this line', where)
        sources.append(source)
        table[source] |= 1 << number
    found[name] = sources


def source_of(written, at, names):
    """The number of the workshop that a name in the file stands for."""
    iri = full(written, names.prefixes, 'source', at)
    for number, known in names.sources.items():
        if known == iri:
            return number
    near = difflib.get_close_matches(written, [names.source(n) for n in names.sources], 1)
    raise Fault(f'{written} is no workshop of the register' + (f'; did you mean {near[0]}?' if near else ''), at)


def chosen(readers, name):
    """The reader of a name."""
    if name in readers:
        return readers[name]
    near = difflib.get_close_matches(name, sorted(readers), 1)
    hint = f'; did you mean {near[0]}?' if near else f'; it has {", ".join(readers)}' if readers else '; it has none'
    raise Fault(f'{name} is no reader of this file{hint}')


def part(book, reader):
    """The book with only the statements that a reader may read."""
    return book.part(lambda marks: marks.source in (0, *reader.sources))
