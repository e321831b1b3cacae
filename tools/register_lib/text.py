"""From a book to functional-style syntax: the numbers' declarations in order, then one axiom a statement."""
import book_format as f

from . import days, words
from .names import BOTTOM, TOP
from .tokens import Fault

MOST_NODES = 1000000  # of all expressions, written out
ENTITIES = ('Class', 'ObjectProperty', 'NamedIndividual')


def counted(n, one, many=None):
    """A number with its noun: 1 class, 4,096 classes."""
    return f'{n:,} {one if n == 1 else many or one + "s"}'


def summary(book):
    """The counts of a book's header in words, and how many sources and periods its statements have."""
    nouns, sources = ('role', 'individual', 'concept', 'statement'), {marks.source for marks in book.marks} - {0}
    counts = [counted(book.counts[0], 'class', 'classes'), *map(counted, book.counts[1:], nouns)]
    more = [counted(len(found), what) for found, what in ((sources, 'source'), (periods(book), 'period')) if found]
    return ', '.join(counts + more)


def periods(book):
    """The different periods of a book's statements, that of all days apart."""
    return {marks[1:] for marks in book.marks} - {f.UNMARKED[1:]}


def sourced(names, sources):
    """The annotations that name sources, with a space behind each."""
    return ''.join(f'Annotation({names.short(words.SOURCE)} {names.source(n)}) ' for n in sources)


def dated(names, marks):
    """The annotations that say a statement's days, as far as it has them, with a space behind each."""
    said = [(words.FIRST_DAY, marks.first, f.UNMARKED.first), (words.LAST_DAY, marks.last, f.UNMARKED.last)]
    return ''.join(f'Annotation({names.short(iris[0])} "{days.written(day)}"^^{names.short(words.DATE)}) ' for iris, day, absent in said if day != absent)


def document(names, head, body):
    """The text of a document from the lines of its body, in which the names are written already."""
    head = [f'# {line}' for line in head]
    return '\n'.join([*head, *names.prefix_lines(), 'Ontology(', *(f'    {line}' for line in body), ')', ''])


class Writer:
    """A book's records as text."""

    def __init__(self, book, names):
        self.book, self.names = book, names

    def show(self):
        """The whole book as a document."""
        counts = self.book.counts
        head, unshown = [summary(self.book)], counts[f.CONCEPTS] - self.nodes()
        if unshown:
            head.append(f'not shown, since no statement leads there: {counted(unshown, "concept")}')
        body = [f'Declaration({ENTITIES[kind]}({self.names.of(kind, n)}))'
                for kind in range(3) for n in range(counts[kind]) if not self.names.lists[kind][n].startswith('_:')]
        body += [self.statement(*statement, marks) for statement, marks in zip(self.book.statements, self.book.marks)]
        return document(self.names, head, body)

    def nodes(self):
        """How many concepts are led to from statements; a fault where they are too large to write out. Parts are shared
        in a book and repeated in the syntax, so a small book may have a text beyond all bounds."""
        sizes, used, total = [], set(), 0
        for kind, v in self.book.concepts:
            sizes.append(1 + sum(sizes[c] for c in parts(kind, v)))
        for kind, _, v in self.book.statements:
            for c in concepts_of(kind, v):
                total += sizes[c]
                used.add(c)
        if total > MOST_NODES:
            raise Fault(f'the class expressions have more than {MOST_NODES:,} parts when written out, too many to show')
        for c in reversed(range(len(sizes))):
            if c in used:
                used.update(parts(*self.book.concepts[c]))
        return len(used)

    def statement(self, kind, map_, v, marks):
        n, whose = self.names, [marks.source] if marks.source else []
        if kind == f.SUB_ROLE:
            *path, sup = map(n.role, v)
            args = [path[0] if len(path) == 1 else f'ObjectPropertyChain({" ".join(path)})', sup]
        else:
            form = words.STATEMENTS[words.STATEMENT_WORDS[kind]][1]
            written = {'C': self.concept, 'R': n.role, 'I': lambda i: n.of(f.INDIVIDUALS, i)}
            args = [written[letter](field) for letter, field in zip(form[0] * 2 if form[-1] == '2' else form, v)]
        return f'{words.STATEMENT_WORDS[kind]}({sourced(n, whose)}{dated(n, marks)}{" ".join(args)})'

    def concept(self, c):
        """A concept as text. What waits is kept in a list, so depth is free."""
        out, waiting = [], [c]
        while waiting:
            piece = waiting.pop()
            if isinstance(piece, str):
                out.append(piece)
            else:
                waiting += reversed(self.pieces(*self.book.concepts[piece]))
        return ''.join(out)

    def pieces(self, kind, v):
        """A concept as strings and the numbers of its parts."""
        n = self.names
        if kind in (f.TOP, f.BOT):
            return [n.short(TOP if kind == f.TOP else BOTTOM)]
        if kind == f.ATOMIC:
            return [n.of(f.CLASSES, v[0])]
        if kind == f.NOMINAL:
            return [f'ObjectOneOf({n.of(f.INDIVIDUALS, v[0])})']
        if kind == f.SOME and self.book.concepts[v[1]][0] == f.NOMINAL:
            return [f'ObjectHasValue({n.role(v[0])} {n.of(f.INDIVIDUALS, self.book.concepts[v[1]][1][0])})']
        args = list(parts(kind, v))
        if kind in (f.SELF, f.SOME, f.ALL, f.MIN, f.MAX):
            args.insert(0, n.role(v[0]))
        if kind in (f.MIN, f.MAX):
            args.insert(0, str(v[2]))
        spaced = [x for arg in args for x in (' ', arg)][1:]
        return [words.CONCEPT_WORDS[kind] + '(', *spaced, ')']


def parts(kind, v):
    """The concept fields of a concept."""
    if kind in (f.AND, f.OR, f.NOT):
        return v
    return v[1:2] if kind in (f.SOME, f.ALL, f.MIN, f.MAX) else []


def concepts_of(kind, v):
    """The concept fields of a statement."""
    if kind in (f.SUB_CLASS, f.EQUIVALENT, f.DISJOINT):
        return v
    return {f.DOMAIN: v[1:], f.RANGE: v[1:], f.CLASS_ASSERTION: v[:1]}.get(kind, [])
