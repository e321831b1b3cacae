"""Whether an individual is shown to be of a class expression (request No. 14), and what an answer says of this register."""
import book_format as f

from .names import KINDS
from .packer import LeftOut
from .syntax import Name, Parser
from .tokens import Fault
from .text import parts
from .words import AXIOMS, CONCEPT_WORDS, STATEMENT_WORDS

SHOWABLE = (f.TOP, f.ATOMIC, f.NOMINAL, f.SELF, f.AND, f.OR, f.SOME)  # the kinds that can be shown


def tree(text, prefixes):
    """What stands in a text of its own: a word with its arguments, or a name."""
    parser = Parser(text, AXIOMS)
    parser.prefixes = prefixes
    found = parser.tree() if parser.token.kind == 'word' else parser.leaf()
    if parser.token.kind != 'end':
        raise Fault(f'expected nothing more, found {parser.token.text}', parser.token.at)
    return found


def individual(packer, text):
    """The number of the individual of this name."""
    name = tree(text, packer.prefixes)
    if not isinstance(name, Name):
        raise Fault('expected the name of an individual', 0)
    listed = packer.names().lists[f.INDIVIDUALS]
    if name.iri not in listed:
        raise Fault(f'{text} is no individual of the register', 0)
    return listed.index(name.iri)


def concept(packer, text):
    """The number of this class expression, which is put behind the book's concepts where it is none of them."""
    before = [len(table) for table in packer.tables[:3]]
    try:
        number = packer.concept(tree(text, packer.prefixes))
    except LeftOut as reason:
        raise Fault(f'a book cannot hold this: {reason}', 0) from None
    for kind, table, count in zip(KINDS, packer.tables, before):
        if len(table) > count:
            raise Fault(f'{packer.names().short(list(table)[count])} is no {kind} of the register', 0)
    return number


def unshowable(book, c):
    """The word of a part of a concept that is never shown, or None."""
    seen, waiting = set(), [c]
    while waiting:
        c = waiting.pop()
        kind, fields = book.concepts[c]
        if kind not in SHOWABLE:
            return CONCEPT_WORDS.get(kind, 'owl:Nothing')
        if c not in seen:
            waiting += parts(kind, fields)
        seen.add(c)
    return None


def leaves(book, c):
    """The parts of a conjunction at any depth."""
    seen, waiting, out = set(), [c], []
    while waiting:
        c = waiting.pop()
        kind, fields = book.concepts[c]
        if kind != f.AND:
            out.append(c)
        elif c not in seen:
            waiting += fields
        seen.add(c)
    return out


def is_plain(book, kind, v):
    """Whether a statement is one of those of a plain book."""
    def atomic(c):
        return book.concepts[c][0] == f.ATOMIC

    def simple(c):
        kind, fields = book.concepts[c]
        return kind in (f.ATOMIC, f.TOP) or kind == f.SOME and book.concepts[fields[1]][0] == f.NOMINAL
    if kind == f.SUB_CLASS:
        return atomic(v[0]) and all(map(simple, leaves(book, v[1])))
    if kind in (f.EQUIVALENT, f.DISJOINT):
        return atomic(v[0]) and atomic(v[1])
    if kind in (f.DOMAIN, f.RANGE):
        return all(map(atomic, leaves(book, v[1])))
    return kind != f.CLASS_ASSERTION or all(map(simple, leaves(book, v[0])))


def not_plain(book):
    """The word of the first statement that no plain book has, or None."""
    return next((STATEMENT_WORDS[kind] for kind, _, v in book.statements if not is_plain(book, kind, v)), None)


def said(book, c):
    """What not shown means, of this book and this concept."""
    part, statement = unshowable(book, c), not_plain(book)
    if part:
        return f'That does not say that it is false: {part} is never shown, although it may hold.'
    if statement:
        return f'That does not say that it is false: the register is not plain, as it has such a {statement}.'
    return 'It is false in some world that fits: the register is plain.'
