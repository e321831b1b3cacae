"""The names of a book's classes, roles, individuals and sources by number, the prefixes that shorten them, and the file
that keeps both: lines such as `Prefix(:=<http://example.org/register#>)`, `class 0 :Plate` and `source 1 :workshop`."""
import re

import book_format as f

from . import words
from .syntax import OWL, STANDARD_PREFIXES, unescaped
from .tokens import PREFIX, SHORT, TOKEN, Fault

KINDS = ('class', 'role', 'individual')  # in the order of the header's counts
OWN = ('book:', 'urn:example:book#')  # names where none are given: book:C0, book:R0, book:i0, book:s1
MOST_SOURCES = f.MARKS['source'][1] - 1
TOP, BOTTOM = OWL + 'Thing', OWL + 'Nothing'
PREFIX_LINE = rf'Prefix\(({PREFIX})=<([^\s<>]*)>\)'
WRITTEN_PREFIXES = {**STANDARD_PREFIXES, 'schema:': words.SCHEMA[0]}  # beside those of a register
BUILT_IN_ROLES = (OWL + 'topObjectProperty', OWL + 'bottomObjectProperty')


class Names:
    """`sources` has the names of those numbers that have one."""

    def __init__(self, prefixes, classes, roles, individuals, sources=()):
        self.prefixes = {**prefixes, **{p: iri for p, iri in WRITTEN_PREFIXES.items() if p not in prefixes}}
        self.lists, self.sources = (classes, roles, individuals), dict(sources)
        self.by_length = sorted(self.prefixes.items(), key=lambda item: -len(item[1]))
        self.used, self.known = set(), {}

    def short(self, iri):
        """A name as it is written: with the prefix that leaves the least, in full, or anonymous."""
        if iri not in self.known:
            self.known[iri] = iri if iri.startswith('_:') else f'<{iri}>'
            for prefix, front in self.by_length:
                if iri.startswith(front) and re.fullmatch(SHORT, iri[len(front):]):
                    self.known[iri] = prefix + iri[len(front):]
                    self.used.add(prefix)
                    break
        return self.known[iri]

    def of(self, kind, number):
        return self.short(self.lists[kind][number])

    def role(self, field):
        """A role field as it is written."""
        name = self.of(f.ROLES, field // 2)
        return f'ObjectInverseOf({name})' if field % 2 else name

    def source(self, number):
        return self.short(self.sources.get(number, f'{OWN[1]}s{number}'))

    def prefix_lines(self):
        """The prefixes that written names have used so far."""
        return [f'Prefix({p}=<{iri}>)' for p, iri in self.prefixes.items() if p in self.used]


def write(names):
    """The text of a names file."""
    lines = [f'{KINDS[k]} {n} {names.of(k, n)}' for k in range(3) for n in range(len(names.lists[k]))]
    lines += [f'source {n} {names.source(n)}' for n in sorted(names.sources)]
    return '\n'.join(names.prefix_lines() + lines) + '\n'


def unnamed(counts):
    """Names for a book of which none are known."""
    return Names(dict([OWN]), *([f'{OWN[1]}{letter}{n}' for n in range(count)] for letter, count in zip('CRi', counts)))


def own_source(iri):
    """The number of a source that is named by its number alone, or None."""
    number = re.fullmatch(re.escape(OWN[1]) + 's([1-9][0-9]{0,3})', iri)
    return int(number[1]) if number and int(number[1]) <= MOST_SOURCES else None


def add_source(sources, number, iri, at):
    """Notes the name of a source, unless it cannot be one."""
    if not 1 <= number <= MOST_SOURCES:
        raise Fault(f'source {number} is named, and sources are 1 to {MOST_SOURCES:,}', at)
    if number in sources:
        raise Fault(f'source {number} is named twice', at)
    if iri in sources.values() or own_source(iri) not in (None, number):
        raise Fault(f'source {number} has the name of another source', at)
    sources[number] = iri


def read_sources(text):
    """The names of the sources in a file, whatever else it has."""
    prefixes, sources, at = {}, {}, 0
    for line in text.split('\n'):
        prefix, entry = re.fullmatch(PREFIX_LINE, line), re.fullmatch('source ([0-9]{1,9}) ([^ \t]+)', line)
        if prefix:
            prefixes[prefix[1]] = prefix[2]
        elif entry:
            add_source(sources, int(entry[1]), full(entry[2], {**STANDARD_PREFIXES, **prefixes}, 'source', at), at)
        at += len(line) + 1
    return sources


def read(text, counts):
    """The names in a file, for a book with these counts; a number without a line has the name of `unnamed`."""
    prefixes, names, given, at = {}, unnamed(counts), {}, 0
    for line in text.split('\n'):
        prefix = re.fullmatch(PREFIX_LINE, line)
        entry = re.fullmatch('(class|role|individual|source) ([0-9]{1,9}) ([^ \t]+)', line)
        if prefix:
            prefixes[prefix[1]] = prefix[2]
        elif entry and entry[1] == 'source':
            add_source(names.sources, int(entry[2]), full(entry[3], {**STANDARD_PREFIXES, **prefixes}, 'source', at), at)
        elif entry:
            kind, number = KINDS.index(entry[1]), int(entry[2])
            if number >= counts[kind]:
                raise Fault(f'{entry[1]} {number} is named, and the book has {counts[kind]} of these', at)
            if (kind, number) in given:
                raise Fault(f'{entry[1]} {number} is named twice', at)
            given[kind, number] = at
            names.lists[kind][number] = full(entry[3], {**STANDARD_PREFIXES, **prefixes}, KINDS[kind], at)
        elif line and not line.startswith('#'):
            raise Fault('expected a line such as "class 0 :Plate", "role 0 :measures", "individual 0 :bar", "source 1 :workshop" or Prefix(..)', at)
        at += len(line) + 1
    for kind, list_ in enumerate(names.lists):
        first = {}
        for number, iri in enumerate(list_):
            if first.setdefault(iri, number) != number:
                raise Fault(f'{KINDS[kind]} {first[iri]} and {KINDS[kind]} {number} have one name', given.get((kind, number)))
    return Names({**prefixes, OWN[0]: prefixes.get(*OWN)}, *names.lists, names.sources)


def full(written, prefixes, kind, at):
    """The IRI of a written name, or the anonymous individual itself."""
    token = TOKEN.fullmatch(written)
    form = token.lastgroup if token else ''
    front, _, local = written.partition(':')
    if form == 'full':
        iri = written[1:-1]
    elif form == 'anonymous' and kind == 'individual':
        iri = written
    elif form == 'short' and local and front + ':' in prefixes:
        iri = prefixes[front + ':'] + unescaped(local)
    else:
        raise Fault(f'{written} is no name for this kind, or its prefix is not declared above', at)
    if iri in (TOP, BOTTOM, *BUILT_IN_ROLES):
        raise Fault(f'{written} has a fixed meaning and cannot name a number', at)
    return iri
