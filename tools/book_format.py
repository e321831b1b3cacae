"""The book format in Python, written from the requirements and not from the Rattle: a reader with the
refusal numbers, and a writer of records. The tests hold the two against each other.

A concept is (kind, fields) with the fields in the order of their bits; the fields of an And or Or are
its part numbers. A statement is (kind, map, fields), with the low byte of the map; its marks, which any
kind may have, stand apart: whose statement it was, 0 for the shared book, and the first and the last day on which
it is in force. Role fields are twice the role's number, plus 1 for the inverse.
"""
import struct
from collections import namedtuple

LIMITS = (256, 64, 512, 4096, 4096)  # classes, roles, individuals, concepts, statements
CLASSES, ROLES, INDIVIDUALS, CONCEPTS, STATEMENTS = range(5)

TOP, BOT, ATOMIC, NOMINAL, SELF, NOT, AND, OR, SOME, ALL, MIN, MAX = range(12)
CONCEPT_MAPS = (0x00, 0x00, 0x01, 0x02, 0x04, 0x08, 0x10, 0x10, 0x0C, 0x0C, 0x2C, 0x2C)

(SUB_CLASS, EQUIVALENT, DISJOINT, INVERSE, SUB_ROLE, TRANSITIVE, SYMMETRIC, FUNCTIONAL,
 INVERSE_FUNCTIONAL, DOMAIN, RANGE, SAME, CLASS_ASSERTION, ROLE_ASSERTION, DIFFERENT, DENIAL) = range(1, 17)
STATEMENT_MAPS = {
    SUB_CLASS: (0x30,), EQUIVALENT: (0x30,), DISJOINT: (0x30,), INVERSE: (0x03,), SUB_ROLE: (0x09, 0x0B, 0x0F),
    TRANSITIVE: (0x01,), SYMMETRIC: (0x01,), FUNCTIONAL: (0x01,), INVERSE_FUNCTIONAL: (0x01,),
    DOMAIN: (0x11,), RANGE: (0x11,), SAME: (0xC0,), CLASS_ASSERTION: (0x50,), ROLE_ASSERTION: (0xC1,),
    DIFFERENT: (0xC0,), DENIAL: (0xC1,),
}
# the fields that every kind may have, behind its own: bit of the map, limit, and the value of an absent one, which is never written
MARKS = {'source': (8, 1024, 0), 'first': (9, 65536, 0), 'last': (10, 65536, 65535)}
Marks = namedtuple('Marks', MARKS, defaults=[absent for _, _, absent in MARKS.values()])
UNMARKED = Marks()
MARK_BITS = sum(1 << bit for bit, _, _ in MARKS.values())


class Refused(Exception):
    """The book's first fault: its number, and the offset behind the field or record that has it."""

    def __init__(self, number, at):
        super().__init__(f'refused {number} at {at}')
        self.number, self.at = number, at


class Book:
    """`marks` has those of each statement."""

    def __init__(self, counts, concepts, statements, marks=None):
        self.counts, self.concepts, self.statements = counts, concepts, statements
        self.marks = [UNMARKED] * len(statements) if marks is None else marks

    def part(self, kept):
        """The book with only those statements of whose marks `kept` says so."""
        left = [n for n, marks in enumerate(self.marks) if kept(marks)]
        counts = [*self.counts[:STATEMENTS], len(left)]
        return Book(counts, self.concepts, [self.statements[n] for n in left], [self.marks[n] for n in left])


class Cursor:
    def __init__(self, data):
        self.data, self.at = data, 0

    def number(self, size):
        if len(self.data) - self.at < size:
            raise Refused(4, self.at)
        self.at += size
        return int.from_bytes(self.data[self.at - size:self.at], 'little')

    def below(self, limit):
        value = self.number(2)
        if value >= limit:
            raise Refused(9, self.at)
        return value

    def mark(self, limit, absent):
        value = self.number(2)
        if value == absent:
            raise Refused(5, self.at)
        if value >= limit:
            raise Refused(9, self.at)
        return value


def read(data):
    """The book, or Refused."""
    cursor = Cursor(data)
    header = cursor.number(1)
    if header >> 5:
        raise Refused(5, cursor.at)
    counts = [0] * 5
    for bit in range(5):
        if header >> bit & 1:
            counts[bit] = cursor.number(2)
            if counts[bit] == 0:
                raise Refused(5, cursor.at)
            if counts[bit] > LIMITS[bit]:
                raise Refused(6, cursor.at)
    concepts = [read_concept(cursor, counts, k) for k in range(counts[CONCEPTS])]
    records = [read_statement(cursor, counts) for _ in range(counts[STATEMENTS])]
    if cursor.at < len(data):
        raise Refused(10, cursor.at)
    return Book(counts, concepts, [statement for statement, _ in records], [marks for _, marks in records])


def read_concept(cursor, counts, k):
    kind = cursor.number(1)
    if kind >= len(CONCEPT_MAPS):
        raise Refused(7, cursor.at)
    map_ = cursor.number(1)
    if map_ != CONCEPT_MAPS[kind]:
        raise Refused(8, cursor.at)
    limits = (counts[CLASSES], counts[INDIVIDUALS], 2 * counts[ROLES], k)
    fields = [cursor.below(limits[bit]) for bit in range(4) if map_ >> bit & 1]
    if map_ >> 4 & 1:
        fields += [cursor.below(k) for _ in range(cursor.number(1))]
    if map_ >> 5 & 1:
        fields.append(cursor.number(4))
    return kind, fields


def read_statement(cursor, counts):
    """A statement and its marks."""
    kind = cursor.number(1)
    if kind not in STATEMENT_MAPS:
        raise Refused(7, cursor.at)
    map_ = cursor.number(2)
    own = map_ & 0xFF
    if own not in STATEMENT_MAPS[kind] or map_ & ~0xFF & ~MARK_BITS:
        raise Refused(8, cursor.at)
    role, concept, individual = 2 * counts[ROLES], counts[CONCEPTS], counts[INDIVIDUALS]
    limits = (role, role, role, role, concept, concept, individual, individual)
    fields = [cursor.below(limits[bit]) for bit in range(8) if own >> bit & 1]
    marks = Marks(*(cursor.mark(limit, absent) if map_ >> bit & 1 else absent for bit, limit, absent in MARKS.values()))
    if marks.last < marks.first:
        raise Refused(16, cursor.at)
    return (kind, own, fields), marks


def u16(*values):
    return struct.pack(f'<{len(values)}H', *values)


def header(counts):
    map_ = sum(1 << bit for bit in range(5) if counts[bit])
    return bytes([map_]) + u16(*(n for n in counts if n))


def concept(kind, *fields):
    """The bytes of a concept record; the bound of Min and Max is the last field."""
    out = bytes([kind, CONCEPT_MAPS[kind]])
    if kind in (AND, OR):
        return out + bytes([len(fields)]) + u16(*fields)
    if kind in (MIN, MAX):
        return out + u16(*fields[:-1]) + struct.pack('<I', fields[-1])
    return out + u16(*fields)


def statement(kind, *fields, marks=UNMARKED):
    """The bytes of a statement record; a path's map goes by the number of its roles."""
    maps = STATEMENT_MAPS[kind]
    map_ = maps[0] if len(maps) == 1 else next(m for m in maps if bin(m).count('1') == len(fields))
    written = [(bit, value) for value, (bit, _, absent) in zip(marks, MARKS.values()) if value != absent]
    return bytes([kind]) + u16(map_ + sum(1 << bit for bit, _ in written), *fields, *(value for _, value in written))


def write(counts, concepts, statements, marks=None):
    """The bytes of a book from records given as (kind, field, ..), the marks of the statements apart; concept and
    statement counts are theirs."""
    counts = (*counts[:3], len(concepts), len(statements))
    marks = [UNMARKED] * len(statements) if marks is None else marks
    return header(counts) + b''.join(concept(*c) for c in concepts) + b''.join(statement(*s, marks=m) for s, m in zip(statements, marks, strict=True))


def cleaned(data):
    """The bytes of an accepted book without the statements that repeat an earlier one in kind, fields and marks, or Refused."""
    book = read(data)
    records = dict.fromkeys(((kind, *fields), marks) for (kind, _, fields), marks in zip(book.statements, book.marks))
    concepts = [(kind, *fields) for kind, fields in book.concepts]
    return write(book.counts, concepts, [record for record, _ in records], [marks for _, marks in records])
