"""What a further axiom would do to a register (request No. 13): the book, and the axiom as one statement record."""
import book_format as f

from .membership import tree
from .names import KINDS
from .packer import LeftOut
from .syntax import Node
from .tokens import Fault
from .words import STATEMENTS


def added(packer, text, end):
    """Takes the axiom of a text behind those of the register, in whose names it is written; `end` is the offset behind them. It returns the
    bytes of the book without it, which has the class expressions of the axiom too, and those of its record."""
    node = tree(text, packer.prefixes)
    if not isinstance(node, Node) or node.word not in STATEMENTS:
        raise Fault('expected an axiom that a book can hold, such as SubClassOf(:A :B)', 0)
    before, count = [len(table) for table in packer.tables[:3]], len(packer.statements)
    try:
        packer.take(node)
    except LeftOut as reason:
        raise Fault(f'a book cannot hold this{": " if str(reason) else ""}{reason}', 0) from None
    for kind, table, length in zip(KINDS, packer.tables, before):
        if len(table) > length:
            raise Fault(f'{packer.names().short(list(table)[length])} is no {kind} of the register', 0)
    if len(packer.statements) != count + 1:
        raise Fault('this is several statements; ask about one at a time' if len(packer.statements) > count else 'a book has at most 4,096 statements', 0)
    packer.places[-1] = end
    whole = f.read(packer.data())
    concepts = [(kind, *fields) for kind, fields in whole.concepts]
    statements = [(kind, *fields) for kind, _, fields in whole.statements]
    return f.write(whole.counts, concepts, statements[:-1], whole.marks[:-1]), f.statement(*statements[-1], marks=whole.marks[-1])


def facts(run):
    """What a run of the library listed."""
    for letter, entries, count, width in zip('tes', run[4:], run[1:4], (2, 3, 2)):
        for n in range(0, count * width, width):
            yield (letter, *entries[n:n + width])
