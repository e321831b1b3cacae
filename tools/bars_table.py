"""The worked examples: the bars of the requirements, starred ones marked, and further rows for what those
leave open. Each row has a book, a budget, the lengths of the three lists, and by hand what a run must come
to: its end as the program prints it, and the types, edges and pairs that it lists.

`bars` has the rows that are proved and run, `readings` those of runs that name a reader or a day, also proved and run, and
`runs` those that are only run: input that is no book, and books that fill the program's lists.

In a comment p, q are roles 0 and 1, A to D classes 0 to 3.
"""
import book_format as f

P, P_INV, Q, Q_INV = 0, 1, 2, 3


class Register:
    """A book under construction: concepts are named by the numbers that the methods return."""

    def __init__(self, classes, roles, individuals):
        self.counts, self.concepts, self.statements, self.marks = (classes, roles, individuals), [], [], []

    def concept(self, kind, *fields):
        self.concepts.append((kind, *fields))
        return len(self.concepts) - 1

    def classes(self, n):
        return [self.concept(f.ATOMIC, c) for c in range(n)]

    def value(self, role, individual):
        return self.concept(f.SOME, role, self.concept(f.NOMINAL, individual))

    def some(self, role, inner):
        return self.concept(f.SOME, role, inner)

    def both(self, *parts):
        return self.concept(f.AND, *parts)

    def tell(self, kind, *fields, **marks):
        self.statements.append((kind, *fields))
        self.marks.append(f.Marks(**marks))
        return self

    def data(self):
        return f.write(self.counts, self.concepts, self.statements, self.marks)


class Bar:
    """`reader` is the number of the reader that the run names and the words of its table, `day` the day's number, or None."""

    def __init__(self, label, book, end, types=(), edges=(), pairs=(), starred=False, budget=12, room=6, type_room=None, edge_room=None, reader=None, day=None):
        self.label, self.starred, self.budget, self.end, self.reader, self.day = label, starred, budget, end, reader, day
        self.data = book.data() if isinstance(book, Register) else bytes(book)
        self.type_room = 2 * budget if type_room is None else type_room
        self.edge_room = 3 * budget if edge_room is None else edge_room
        self.pair_room = room
        self.types, self.edges, self.pairs = list(types), list(edges), list(pairs)


def bars():
    out = []

    def row(label, book, end, **rest):
        out.append(Bar(label, book, end, **rest))

    def star(label, book, end, **rest):
        row(label, book, end, starred=True, **rest)

    # refusals, and the smallest book
    star('no bytes: refused 4', [], 'refused 4')
    star('one byte 00: finished with nothing', [0], 'finished 0 0 0')
    star('a written count 0: refused 5', [1, 0, 0], 'refused 5')
    row('a budget above 1,000,000: refused 1', [0], 'refused 1', budget=1000001, type_room=1, edge_room=1, room=1)
    row('too short an edge list: refused 2, though the type list is too short as well', [0], 'refused 2', budget=2, type_room=3, edge_room=5, room=1)
    row('too short a type list: refused 3', [0], 'refused 3', budget=2, type_room=3, edge_room=6, room=1)
    row('a byte behind the last statement: refused 10', [0, 0], 'refused 10')

    # whose statement it was
    one = Register(0, 0, 2).tell(f.SAME, 0, 1, source=1).data()
    row('a source 1', one, 'finished 0 0 1', pairs=[(0, 1)])
    row('a source 1,023', one[:-2] + f.u16(1023), 'finished 0 0 1', pairs=[(0, 1)])
    row('a written source 0: refused 5', one[:-2] + f.u16(0), 'refused 5')
    row('a source 1,024: refused 9', one[:-2] + f.u16(1024), 'refused 9')
    row('a source cut off: refused 4', one[:-1], 'refused 4')
    b = Register(0, 1, 3).tell(f.TRANSITIVE, P, source=7).tell(f.ROLE_ASSERTION, P, 0, 1, source=1).tell(f.ROLE_ASSERTION, P, 1, 2, source=1023)
    row('p transitive by one source, p(0,1) and p(1,2) by two others: p(0,2)', b, 'finished 0 3 0', edges=[(0, 0, 1), (0, 0, 2), (0, 1, 2)])
    b = Register(0, 1, 2)
    for source in (0, 1, 2, 1):
        b.tell(f.ROLE_ASSERTION, P, 0, 1, source=source)
    row('p(0,1) by the shared book and by two sources: one edge', b, 'finished 0 1 0', edges=[(0, 0, 1)], budget=1)
    b = Register(2, 0, 1)
    a, c = b.classes(2)
    b.tell(f.DISJOINT, a, c, source=1).tell(f.CLASS_ASSERTION, a, 0, source=2).tell(f.CLASS_ASSERTION, c, 0, source=3)
    row('A and B disjoint, 0:A, 0:B, by three sources: clash', b, 'clash 2 0')

    # days
    one = Register(0, 0, 2).tell(f.SAME, 0, 1, first=1, last=1).data()
    row('a period of one day', one, 'finished 0 0 1', pairs=[(0, 1)])
    row('the longest period that is written whole', one[:-4] + f.u16(1, 65534), 'finished 0 0 1', pairs=[(0, 1)])
    row('a written first day 0: refused 5', one[:-4] + f.u16(0, 1), 'refused 5')
    row('a written last day 65,535: refused 5', one[:-4] + f.u16(1, 65535), 'refused 5')
    row('a last day before the first: refused 16', one[:-4] + f.u16(258, 257), 'refused 16')
    row('a last day 0 before the first day 1: refused 16', one[:-4] + f.u16(1, 0), 'refused 16')
    row('a last day cut off: refused 4, though the first day is known', one[:-1], 'refused 4')
    row('bit 11 of a map: refused 8', one[:7] + b'\x08' + one[8:], 'refused 8')
    one = Register(0, 0, 2).tell(f.SAME, 0, 1, first=65535).data()
    row('a first day 65,535 alone', one, 'finished 0 0 1', pairs=[(0, 1)])
    row('a first day 0 alone: refused 5', one[:-2] + f.u16(0), 'refused 5')
    one = Register(0, 0, 2).tell(f.SAME, 0, 1, last=0).data()
    row('a last day 0 alone', one, 'finished 0 0 1', pairs=[(0, 1)])
    row('a last day 65,535 alone: refused 5', one[:-2] + f.u16(65535), 'refused 5')
    one = Register(0, 0, 2).tell(f.SAME, 0, 1, source=1, first=2, last=3).data()
    row('a source and a period', one, 'finished 0 0 1', pairs=[(0, 1)])
    row('a source 1,024 and a last day before the first: refused 9', one[:-6] + f.u16(1024, 3, 2), 'refused 9')
    b = Register(0, 1, 3).tell(f.TRANSITIVE, P, last=9).tell(f.ROLE_ASSERTION, P, 0, 1, first=20).tell(f.ROLE_ASSERTION, P, 1, 2, first=10, last=19)
    row('p transitive to day 9, p(0,1) and p(1,2) in periods behind it: p(0,2), as no day is named', b, 'finished 0 3 0', edges=[(0, 0, 1), (0, 0, 2), (0, 1, 2)])
    b = Register(0, 1, 2).tell(f.ROLE_ASSERTION, P, 0, 1).tell(f.ROLE_ASSERTION, P, 0, 1, first=1).tell(f.ROLE_ASSERTION, P, 0, 1, last=1)
    row('p(0,1) in three periods: one edge', b, 'finished 0 1 0', edges=[(0, 0, 1)], budget=1)

    # rule 3
    b = Register(0, 2, 2).tell(f.INVERSE, P, Q).tell(f.ROLE_ASSERTION, P, 0, 1)
    star('p and q inverse, p(0,1): q(1,0)', b, 'finished 0 2 0', edges=[(0, 0, 1), (1, 1, 0)])
    b = Register(0, 2, 2).tell(f.INVERSE, P, Q_INV).tell(f.ROLE_ASSERTION, P, 0, 1)
    star('p and the inverse of q inverse, p(0,1): q(0,1)', b, 'finished 0 2 0', edges=[(0, 0, 1), (1, 0, 1)])
    b = Register(0, 2, 2).tell(f.INVERSE, P, Q).tell(f.ROLE_ASSERTION, Q, 0, 1)
    row('p and q inverse, q(0,1): p(1,0)', b, 'finished 0 2 0', edges=[(0, 1, 0), (1, 0, 1)])
    b = Register(0, 1, 2).tell(f.SYMMETRIC, P).tell(f.ROLE_ASSERTION, P, 0, 1)
    row('p symmetric, p(0,1): p(1,0)', b, 'finished 0 2 0', edges=[(0, 0, 1), (0, 1, 0)])

    # rule 4
    b = Register(0, 2, 2).tell(f.SUB_ROLE, P, Q_INV).tell(f.ROLE_ASSERTION, P, 0, 1)
    star('p under the inverse of q, p(0,1): q(1,0)', b, 'finished 0 2 0', edges=[(0, 0, 1), (1, 1, 0)])
    b = Register(0, 2, 2).tell(f.SUB_ROLE, P_INV, Q).tell(f.ROLE_ASSERTION, P, 0, 1)
    row('the inverse of p under q, p(0,1): q(1,0)', b, 'finished 0 2 0', edges=[(0, 0, 1), (1, 1, 0)])
    b = Register(0, 2, 2).tell(f.SUB_ROLE, P_INV, Q_INV).tell(f.ROLE_ASSERTION, P, 0, 1)
    row('the inverse of p under the inverse of q, p(0,1): q(0,1)', b, 'finished 0 2 0', edges=[(0, 0, 1), (1, 0, 1)])
    b = Register(0, 1, 3).tell(f.SUB_ROLE, P_INV, P).tell(f.ROLE_ASSERTION, P, 0, 1).tell(f.ROLE_ASSERTION, P_INV, 1, 2)
    row('the inverse of p under p, p(0,1), p(2,1): p(1,0) and p(1,2)', b, 'finished 0 4 0', edges=[(0, 0, 1), (0, 1, 0), (0, 1, 2), (0, 2, 1)])
    six = [(0, 0, 1), (0, 0, 2), (0, 0, 3), (0, 1, 2), (0, 1, 3), (0, 2, 3)]
    b = Register(0, 1, 4).tell(f.TRANSITIVE, P)
    for a in range(3):
        b.tell(f.ROLE_ASSERTION, P, a, a + 1)
    star('p transitive, p(0,1), p(1,2), p(2,3), budget 6: 6 edges', b, 'finished 0 6 0', edges=six, budget=6)
    star('the same with budget 5: spent', b, 'spent', budget=5)
    b = Register(0, 2, 4).tell(f.SUB_ROLE, P, P, P, Q)
    for a in range(3):
        b.tell(f.ROLE_ASSERTION, P, a, a + 1)
    row('the path p, p, p under q', b, 'finished 0 4 0', edges=[(0, 0, 1), (0, 1, 2), (0, 2, 3), (1, 0, 3)])
    b = Register(0, 2, 3).tell(f.SUB_ROLE, P_INV, P, Q_INV).tell(f.ROLE_ASSERTION, P, 0, 1).tell(f.ROLE_ASSERTION, P, 0, 2)
    row('the path of the inverse of p, p under the inverse of q', b, 'finished 0 6 0', edges=[(0, 0, 1), (0, 0, 2), (1, 1, 1), (1, 1, 2), (1, 2, 1), (1, 2, 2)])

    # rule 6
    b = Register(0, 1, 2).tell(f.SAME, 0, 1).tell(f.ROLE_ASSERTION, P, 0, 0)
    star('0 same as 1, p(0,0): 4 edges and the pair', b, 'finished 0 4 1', edges=[(0, 0, 0), (0, 0, 1), (0, 1, 0), (0, 1, 1)], pairs=[(0, 1)])
    b = Register(0, 1, 2).tell(f.SAME, 0, 1).tell(f.ROLE_ASSERTION, P, 1, 1)
    row('0 same as 1, p(1,1): 4 edges and the pair', b, 'finished 0 4 1', edges=[(0, 0, 0), (0, 0, 1), (0, 1, 0), (0, 1, 1)], pairs=[(0, 1)])
    b = Register(1, 0, 4)
    a, = b.classes(1)
    row('0 same as 1, 0 same as 2, 1:A: 0:A and 2:A', b.tell(f.SAME, 0, 1).tell(f.SAME, 0, 2).tell(f.CLASS_ASSERTION, a, 1), 'finished 3 0 3', types=[(0, 0), (1, 0), (2, 0)], pairs=[(0, 1), (0, 2), (1, 2)])

    # rules 1 and 2
    def nested(b):
        a, x, c, d = b.classes(4)
        return a, b.both(x, b.both(c, d))
    b = Register(4, 0, 1)
    a, e = nested(b)
    star('A under B and (C and D), 0:A: B, C and D', b.tell(f.SUB_CLASS, a, e).tell(f.CLASS_ASSERTION, a, 0), 'finished 4 0 0', types=[(0, 0), (0, 1), (0, 2), (0, 3)])
    b = Register(4, 0, 1)
    a, e = nested(b)
    star('B and (C and D) asserted: B, C and D', b.tell(f.CLASS_ASSERTION, e, 0), 'finished 3 0 0', types=[(0, 1), (0, 2), (0, 3)])
    b = Register(5, 0, 1)
    a, x, c, d, e = b.classes(5)
    right = b.both(x, b.both(c, b.both(d, e)))
    row('A under B and (C and (D and E)), 0:A: B, C, D and E', b.tell(f.SUB_CLASS, a, right).tell(f.CLASS_ASSERTION, a, 0), 'finished 5 0 0', types=[(0, i) for i in range(5)])
    b = Register(4, 0, 1)
    a, x, c, d = b.classes(4)
    twice = b.both(x, c)
    row('A under (B and C) and ((B and C) and D), the part B and C being one concept, 0:A: B, C and D', b.tell(f.SUB_CLASS, a, b.both(twice, b.both(twice, d))).tell(f.CLASS_ASSERTION, a, 0), 'finished 4 0 0', types=[(0, 0), (0, 1), (0, 2), (0, 3)])
    b = Register(3, 0, 1)
    a, x, c = b.classes(3)
    right = b.both(x, b.both(b.both(), c))
    row('A under B and (an And without parts, and C), 0:A: B and C', b.tell(f.SUB_CLASS, a, right).tell(f.CLASS_ASSERTION, a, 0), 'finished 3 0 0', types=[(0, 0), (0, 1), (0, 2)])
    b = Register(4, 0, 1)
    a, x, c, d = b.classes(4)
    right = b.both(x, b.both(b.concept(f.OR, c, d), b.concept(f.NOT, b.both(c, d))))
    row('A under B and ((C or D) and not (C and D)), 0:A: B alone', b.tell(f.SUB_CLASS, a, right).tell(f.CLASS_ASSERTION, a, 0), 'finished 2 0 0', types=[(0, 0), (0, 1)])
    b = Register(4, 0, 1)
    a, e = nested(b)
    row('B and (C and D) equivalent to A, 0:A: B, C and D', b.tell(f.EQUIVALENT, e, a).tell(f.CLASS_ASSERTION, a, 0), 'finished 4 0 0', types=[(0, 0), (0, 1), (0, 2), (0, 3)])
    b = Register(1, 0, 1)
    a, = b.classes(1)
    row('A under Bot, 0:A: no clash', b.tell(f.SUB_CLASS, a, b.concept(f.BOT)).tell(f.CLASS_ASSERTION, a, 0), 'finished 1 0 0', types=[(0, 0)])
    b = Register(1, 1, 2)
    v = b.value(P, 1)
    a, = b.classes(1)
    row('(Some(p, Nominal 1) and A) asserted one And deeper', b.tell(f.CLASS_ASSERTION, b.both(b.both(v, a)), 0), 'finished 1 1 0', types=[(0, 0)], edges=[(0, 0, 1)])
    b = Register(1, 1, 2)
    v = b.value(P_INV, 1)
    a, = b.classes(1)
    row('A under Some(inverse of p, Nominal 1), 0:A: p(1,0)', b.tell(f.SUB_CLASS, a, v).tell(f.CLASS_ASSERTION, a, 0), 'finished 1 1 0', types=[(0, 0)], edges=[(0, 1, 0)])
    b = Register(2, 1, 2)
    a, x = b.classes(2)
    e = b.both(x, b.both(b.value(P, 1)))
    row('A under B and (Some(p, Nominal 1)), 0:A: B and p(0,1)', b.tell(f.SUB_CLASS, a, e).tell(f.CLASS_ASSERTION, a, 0), 'finished 2 1 0', types=[(0, 0), (0, 1)], edges=[(0, 0, 1)])
    b = Register(2, 0, 1)
    a, x = b.classes(2)
    row('A and B equivalent, 0:B: A', b.tell(f.EQUIVALENT, a, x).tell(f.CLASS_ASSERTION, x, 0), 'finished 2 0 0', types=[(0, 0), (0, 1)])
    b = Register(3, 0, 1)
    a, x, c = b.classes(3)
    row('A equivalent to B and C, 0:B: nothing more', b.tell(f.EQUIVALENT, a, b.both(x, c)).tell(f.CLASS_ASSERTION, x, 0), 'finished 1 0 0', types=[(0, 1)])
    b = Register(3, 0, 1)
    a, x, c = b.classes(3)
    row('B and C equivalent to A, 0:A: B and C', b.tell(f.EQUIVALENT, b.both(x, c), a).tell(f.CLASS_ASSERTION, a, 0), 'finished 3 0 0', types=[(0, 0), (0, 1), (0, 2)])
    b = Register(2, 0, 1)
    a, x = b.classes(2)
    row('an And of A alone under B, 0:A: nothing more', b.tell(f.SUB_CLASS, b.both(a), x).tell(f.CLASS_ASSERTION, a, 0), 'finished 1 0 0', types=[(0, 0)])

    # rule 5
    b = Register(1, 1, 2)
    a, = b.classes(1)
    row('the domain of p is A, p(0,1): 0:A', b.tell(f.DOMAIN, P, a).tell(f.ROLE_ASSERTION, P, 0, 1), 'finished 1 1 0', types=[(0, 0)], edges=[(0, 0, 1)])
    b = Register(1, 1, 2)
    a, = b.classes(1)
    row('the domain of the inverse of p is A, p(0,1): 1:A', b.tell(f.DOMAIN, P_INV, a).tell(f.ROLE_ASSERTION, P, 0, 1), 'finished 1 1 0', types=[(1, 0)], edges=[(0, 0, 1)])
    b = Register(1, 1, 2)
    a, = b.classes(1)
    row('the range of the inverse of p is A, p(0,1): 0:A', b.tell(f.RANGE, P_INV, a).tell(f.ROLE_ASSERTION, P, 0, 1), 'finished 1 1 0', types=[(0, 0)], edges=[(0, 0, 1)])
    b = Register(4, 1, 2)
    a, e = nested(b)
    row('the range of p is B and (C and D), p(0,1): 1:B, 1:C and 1:D', b.tell(f.RANGE, P, e).tell(f.ROLE_ASSERTION, P, 0, 1), 'finished 3 1 0', types=[(1, 1), (1, 2), (1, 3)], edges=[(0, 0, 1)])
    b = Register(4, 1, 2)
    a, e = nested(b)
    row('the domain of p is B and (C and D), p(0,1): 0:B, 0:C and 0:D', b.tell(f.DOMAIN, P, e).tell(f.ROLE_ASSERTION, P, 0, 1), 'finished 3 1 0', types=[(0, 1), (0, 2), (0, 3)], edges=[(0, 0, 1)])
    b = Register(1, 2, 2)
    v = b.value(Q, 1)
    a, = b.classes(1)
    row('the domain of p is A and (Some(q, Nominal 1)), p(0,1): 0:A and no edge more', b.tell(f.DOMAIN, P, b.both(a, b.both(v))).tell(f.ROLE_ASSERTION, P, 0, 1), 'finished 1 1 0', types=[(0, 0)], edges=[(0, 0, 1)])

    # rule 7 and same pairs
    b = Register(1, 4, 7)
    a, = b.classes(1)
    v = b.value(6, 6)
    b.tell(f.FUNCTIONAL, 0).tell(f.FUNCTIONAL, 2).tell(f.RANGE, 4, a).tell(f.SUB_CLASS, a, v).tell(f.CLASS_ASSERTION, a, 1)
    for r, x, y in [(0, 0, 1), (0, 0, 2), (2, 3, 2), (2, 3, 4), (4, 5, 4)]:
        b.tell(f.ROLE_ASSERTION, r, x, y)
    star('the worked book of seven individuals', b, 'finished 3 12 3', types=[(1, 0), (2, 0), (4, 0)],
         edges=[(0, 0, 1), (0, 0, 2), (0, 0, 4), (1, 3, 1), (1, 3, 2), (1, 3, 4), (2, 5, 1), (2, 5, 2), (2, 5, 4), (3, 1, 6), (3, 2, 6), (3, 4, 6)],
         pairs=[(1, 2), (1, 4), (2, 4)], budget=15)
    row('the same with a pair list of four entries: refused 11', b, 'refused 11', budget=15, room=4)
    row('the same with budget 14: spent', b, 'spent', budget=14)
    b = Register(1, 1, 3)
    a, = b.classes(1)
    b.tell(f.INVERSE_FUNCTIONAL, P).tell(f.ROLE_ASSERTION, P, 1, 0).tell(f.ROLE_ASSERTION, P, 2, 0).tell(f.CLASS_ASSERTION, a, 1)
    row('p inverse functional, p(1,0), p(2,0), 1:A: 2:A', b, 'finished 2 2 1', types=[(1, 0), (2, 0)], edges=[(0, 1, 0), (0, 2, 0)], pairs=[(1, 2)])
    b = Register(0, 2, 5).tell(f.FUNCTIONAL, P).tell(f.INVERSE_FUNCTIONAL, Q)
    for r, x, y in [(P, 0, 1), (P, 0, 2), (Q, 3, 1), (Q, 4, 2)]:
        b.tell(f.ROLE_ASSERTION, r, x, y)
    row('a join that makes a join: p(0,1), p(0,2), q(3,1), q(4,2), p functional, q inverse functional', b, 'finished 0 6 2',
        edges=[(0, 0, 1), (0, 0, 2), (1, 3, 1), (1, 3, 2), (1, 4, 1), (1, 4, 2)], pairs=[(1, 2), (3, 4)])
    b = Register(0, 1, 5).tell(f.SAME, 2, 3).tell(f.FUNCTIONAL, P).tell(f.ROLE_ASSERTION, P, 0, 1).tell(f.ROLE_ASSERTION, P, 0, 2)
    row('p functional, p(0,1), p(0,2), 2 same as 3: one class of told and found', b, 'finished 0 3 3', edges=[(0, 0, 1), (0, 0, 2), (0, 0, 3)], pairs=[(1, 2), (1, 3), (2, 3)], budget=3)

    # denied
    b = Register(0, 0, 2).tell(f.DIFFERENT, 1, 1)
    row('1 different from 1: clash', b, 'clash 0 0')
    b = Register(0, 0, 3).tell(f.SAME, 0, 1).tell(f.SAME, 2, 1).tell(f.DIFFERENT, 2, 0)
    row('0, 1 and 2 the same, 2 different from 0: clash', b, 'clash 0 0')
    b = Register(0, 0, 3).tell(f.SAME, 0, 1).tell(f.DIFFERENT, 2, 0)
    row('0 same as 1, 2 different from 0: finished', b, 'finished 0 0 1', pairs=[(0, 1)])
    b = Register(0, 1, 3).tell(f.FUNCTIONAL, P).tell(f.ROLE_ASSERTION, P, 0, 1).tell(f.ROLE_ASSERTION, P, 0, 2).tell(f.DIFFERENT, 1, 2)
    row('two fillers of a functional role that are different: clash', b, 'clash 0 2')
    row('the same with a budget of 1: spent before clash', b, 'spent', budget=1)
    b = Register(0, 1, 2).tell(f.ROLE_ASSERTION, P, 0, 1).tell(f.DENIAL, P_INV, 1, 0)
    row('p(0,1), and the inverse of p denied from 1 to 0: clash', b, 'clash 0 1')
    b = Register(0, 1, 2).tell(f.ROLE_ASSERTION, P, 0, 1).tell(f.DENIAL, P, 1, 0)
    row('p(0,1), and p denied from 1 to 0: finished', b, 'finished 0 1 0', edges=[(0, 0, 1)])
    b = Register(0, 1, 3).tell(f.SAME, 1, 2).tell(f.ROLE_ASSERTION, P, 0, 1).tell(f.DENIAL, P, 0, 2)
    row('p(0,1), 1 same as 2, and p denied from 0 to 2: clash', b, 'clash 0 2')

    # clash
    b = Register(1, 0, 1)
    a, = b.classes(1)
    star('A disjoint from A, 0:A: clash', b.tell(f.DISJOINT, a, a).tell(f.CLASS_ASSERTION, a, 0), 'clash 1 0')

    def marked(b, role=P):
        a, c, d = b.classes(3)
        return a, c, d, b.both(b.some(role, c), b.some(role, d))
    b = Register(3, 1, 1)
    a, c, d, e = marked(b)
    row('markers (p,B) and (p,C), p functional, B and C disjoint: clash', b.tell(f.FUNCTIONAL, P).tell(f.DISJOINT, c, d).tell(f.SUB_CLASS, a, e).tell(f.CLASS_ASSERTION, a, 0), 'clash 1 0')
    b = Register(3, 1, 1)
    a, c, d, e = marked(b)
    row('the same concepts asserted: no marker', b.tell(f.FUNCTIONAL, P).tell(f.DISJOINT, c, d).tell(f.CLASS_ASSERTION, e, 0), 'finished 0 0 0')
    b = Register(2, 1, 1)
    a, c = b.classes(2)
    row('markers of one class that is disjoint from itself: no clash', b.tell(f.FUNCTIONAL, P).tell(f.DISJOINT, c, c).tell(f.SUB_CLASS, a, b.some(P, c)).tell(f.CLASS_ASSERTION, a, 0), 'finished 1 0 0', types=[(0, 0)])
    b = Register(4, 1, 2)
    a, x, c, d = b.classes(4)
    b.tell(f.FUNCTIONAL, P).tell(f.DISJOINT, c, d).tell(f.SUB_CLASS, a, b.some(P, c)).tell(f.SUB_CLASS, x, b.some(P, d))
    row('markers of two individuals: no clash', b.tell(f.CLASS_ASSERTION, a, 0).tell(f.CLASS_ASSERTION, x, 1), 'finished 2 0 0', types=[(0, 0), (1, 1)])
    b = Register(3, 1, 1)
    a, c, d, e = marked(b)
    row('markers of a role that is not functional: no clash', b.tell(f.DISJOINT, c, d).tell(f.SUB_CLASS, a, e).tell(f.CLASS_ASSERTION, a, 0), 'finished 1 0 0', types=[(0, 0)])
    b = Register(3, 1, 1)
    a, c, d = b.classes(3)
    e = b.both(b.some(P, c), b.both(b.some(P, d)))
    row('markers at any And depth, from the left of an equivalence: clash', b.tell(f.FUNCTIONAL, P).tell(f.DISJOINT, c, d).tell(f.EQUIVALENT, e, a).tell(f.CLASS_ASSERTION, a, 0), 'clash 1 0')
    b = Register(3, 1, 1)
    a, c, d, e = marked(b)
    row('markers of p, the inverse of p inverse functional: clash', b.tell(f.INVERSE_FUNCTIONAL, P_INV).tell(f.DISJOINT, c, d).tell(f.EQUIVALENT, a, e).tell(f.CLASS_ASSERTION, a, 0), 'clash 1 0')
    b = Register(3, 1, 1)
    a, c, d, e = marked(b, P_INV)
    row('Some of an inverse sets no marker', b.tell(f.FUNCTIONAL, P).tell(f.FUNCTIONAL, P_INV).tell(f.DISJOINT, c, d).tell(f.SUB_CLASS, a, e).tell(f.CLASS_ASSERTION, a, 0), 'finished 1 0 0', types=[(0, 0)])
    b = Register(3, 1, 1)
    a, c, d, e = marked(b)
    row('markers of p, p inverse functional: no clash', b.tell(f.INVERSE_FUNCTIONAL, P).tell(f.DISJOINT, c, d).tell(f.SUB_CLASS, a, e).tell(f.CLASS_ASSERTION, a, 0), 'finished 1 0 0', types=[(0, 0)])
    b = Register(4, 1, 1)
    a, c, d, sup = b.classes(4)
    e = b.both(b.some(P, c), b.some(P, d))
    b.tell(f.FUNCTIONAL, P).tell(f.DISJOINT, sup, d).tell(f.SUB_CLASS, c, sup).tell(f.SUB_CLASS, a, e).tell(f.CLASS_ASSERTION, a, 0)
    row("a marker is not one of the filler's superclasses", b, 'finished 1 0 0', types=[(0, 0)])
    b = Register(3, 1, 1)
    a, c, d, e = marked(b)
    row('an And of A alone brings no marker', b.tell(f.FUNCTIONAL, P).tell(f.DISJOINT, c, d).tell(f.SUB_CLASS, b.both(a), e).tell(f.CLASS_ASSERTION, a, 0), 'finished 1 0 0', types=[(0, 0)])

    # a plain book, for which the proofs show that the theorem on plain books is about something
    b = Register(4, 2, 4)
    a, x, c, d = b.classes(4)
    top = b.concept(f.TOP)
    right = b.both(x, b.both(top, b.value(Q, 2)))
    told = b.both(b.both(a), top)
    b.tell(f.SUB_CLASS, a, right).tell(f.EQUIVALENT, x, c).tell(f.DISJOINT, a, d).tell(f.SUB_ROLE, P_INV, Q).tell(f.DOMAIN, P_INV, b.both(b.both(c)))
    b.tell(f.FUNCTIONAL, P).tell(f.SAME, 0, 1).tell(f.CLASS_ASSERTION, told, 0).tell(f.ROLE_ASSERTION, P, 0, 2).tell(f.ROLE_ASSERTION, P, 1, 3)
    b.tell(f.DIFFERENT, 0, 2).tell(f.DENIAL, P, 2, 0)
    ones, others = (0, 1), (2, 3)
    row('a plain book', b, 'finished 10 12 2', types=[(i, k) for i in ones for k in range(3)] + [(i, k) for i in others for k in (1, 2)],
        edges=[(0, i, j) for i in ones for j in others] + [(1, i, j) for i in ones for j in others] + [(1, j, i) for j in others for i in ones],
        pairs=[ones, others], budget=22)
    return out


def words(length=1024, **by_source):
    """A table: the words of some sources, as s7=0b11 for source 7, and 0 for all others."""
    return [by_source.get(f's{source}', 0) for source in range(length)]


def readings():
    out = []

    def row(label, book, end, reader, **rest):
        out.append(Bar(label, book, end, reader=reader, **rest))

    # which statements count: source 1 is read by readers 0 and 31, source 2 by reader 0, and the word of source 0 has no bit
    some = words(s1=0x80000001, s2=1)
    b = Register(0, 1, 3).tell(f.ROLE_ASSERTION, P, 0, 1).tell(f.ROLE_ASSERTION, P, 1, 2, source=1).tell(f.TRANSITIVE, P, source=2)
    every, told, shared = [(0, 0, 1), (0, 0, 2), (0, 1, 2)], [(0, 0, 1), (0, 1, 2)], [(0, 0, 1)]
    row('no reader: all statements', b, 'finished 0 3 0', None, edges=every)
    row('reader 0 may read sources 1 and 2', b, 'finished 0 3 0', (0, some), edges=every)
    row('reader 31, the highest bit, may read source 1', b, 'finished 0 2 0', (31, some), edges=told)
    row('reader 1 may read the shared book alone, whose word is 0', b, 'finished 0 1 0', (1, some), edges=shared)
    row('every bit but that of reader 1', b, 'finished 0 1 0', (1, words(s0=0xFFFFFFFD, s1=0xFFFFFFFD, s2=0xFFFFFFFD)), edges=shared)
    row('no bit but those of reader 1', b, 'finished 0 3 0', (1, words(s1=2, s2=2)), edges=every)
    row('the budget is for what reader 1 may read', b, 'finished 0 1 0', (1, some), edges=shared, budget=1)
    row('and reader 31 has spent it', b, 'spent', (31, some), budget=1)
    b = Register(0, 1, 3).tell(f.ROLE_ASSERTION, P, 0, 1, source=1023).tell(f.ROLE_ASSERTION, P, 1, 2, source=1022)
    row('source 1,023 has the last word', b, 'finished 0 1 0', (5, words(s1023=1 << 5)), edges=[(0, 0, 1)])

    # every part of the conclusions comes from readable statements
    own = words(s1=1)
    b = Register(0, 1, 2).tell(f.SAME, 0, 1, source=1).tell(f.ROLE_ASSERTION, P, 0, 0)
    row('0 same as 1 by source 1, p(0,0): 4 edges for reader 0', b, 'finished 0 4 1', (0, own), edges=[(0, 0, 0), (0, 0, 1), (0, 1, 0), (0, 1, 1)], pairs=[(0, 1)])
    row('and 1 for reader 1', b, 'finished 0 1 0', (1, own), edges=[(0, 0, 0)])
    b = Register(2, 0, 1)
    a, c = b.classes(2)
    b.tell(f.DISJOINT, a, c, source=1).tell(f.CLASS_ASSERTION, a, 0).tell(f.CLASS_ASSERTION, c, 0)
    row('A and B disjoint by source 1, 0:A, 0:B: clash for reader 0', b, 'clash 2 0', (0, own))
    row('and none for reader 1', b, 'finished 2 0 0', (1, own), types=[(0, 0), (0, 1)])
    b = Register(0, 1, 2).tell(f.ROLE_ASSERTION, P, 0, 1).tell(f.DENIAL, P, 0, 1, source=1)
    row('p(0,1), denied by source 1: clash for reader 0', b, 'clash 0 1', (0, own))
    row('and none for reader 1, by whom it is not read', b, 'finished 0 1 0', (1, own), edges=[(0, 0, 1)])
    b = Register(1, 1, 3)
    a, = b.classes(1)
    b.tell(f.FUNCTIONAL, P, source=1).tell(f.ROLE_ASSERTION, P, 0, 1).tell(f.ROLE_ASSERTION, P, 0, 2).tell(f.CLASS_ASSERTION, a, 1)
    row('p functional by source 1, p(0,1), p(0,2), 1:A: a same pair for reader 0', b, 'finished 2 2 1', (0, own), types=[(1, 0), (2, 0)], edges=[(0, 0, 1), (0, 0, 2)], pairs=[(1, 2)])
    row('which his pair list has no room for: refused 11', b, 'refused 11', (0, own), room=1)
    row('reader 1 has no pair, and needs no room', b, 'finished 1 2 0', (1, own), types=[(1, 0)], edges=[(0, 0, 1), (0, 0, 2)], room=1)
    b = Register(2, 0, 1)
    a, c = b.classes(2)
    b.tell(f.SUB_CLASS, a, c, source=1).tell(f.CLASS_ASSERTION, a, 0)
    row('A under B by source 1, 0:A: B for reader 0', b, 'finished 2 0 0', (0, own), types=[(0, 0), (0, 1)])
    row('and not for reader 1', b, 'finished 1 0 0', (1, own), types=[(0, 0)])

    # refusals: 14 and 15 in that order, after 3 and before the book; a fault in a statement that the reader may not read
    row('reader 32: refused 14', [0], 'refused 14', (32, words()))
    row('reader 32 and too short a table: refused 14', [0], 'refused 14', (32, words(1023)))
    row('too short a table: refused 15', [0], 'refused 15', (31, words(1023)))
    row('too long a table: refused 15', [0], 'refused 15', (0, words(1025)))
    row('no bytes and no table: refused 15', [], 'refused 15', (0, []))
    row('no bytes: refused 4', [], 'refused 4', (0, words()))
    row('too short a type list and reader 32: refused 3', [0], 'refused 3', (32, []), budget=2, type_room=3, edge_room=6, room=1)
    bad = Register(0, 1, 2).tell(f.ROLE_ASSERTION, P, 0, 1, source=1).data()
    row('an individual out of range in a statement that the reader may not read: refused 9', bad[:-4] + f.u16(2) + bad[-2:], 'refused 9', (1, own))

    # days: the ends of a period, closed and open
    b = Register(0, 1, 3).tell(f.ROLE_ASSERTION, P, 0, 1, first=100, last=200).tell(f.ROLE_ASSERTION, P, 1, 2)
    both, undated = [(0, 0, 1), (0, 1, 2)], [(0, 1, 2)]
    row('p(0,1) from day 100 to day 200, p(1,2) without days; no day: both', b, 'finished 0 2 0', None, edges=both)
    row('the day before the first', b, 'finished 0 1 0', None, day=99, edges=undated)
    row('the first day', b, 'finished 0 2 0', None, day=100, edges=both)
    row('the last day', b, 'finished 0 2 0', None, day=200, edges=both)
    row('the day behind the last', b, 'finished 0 1 0', None, day=201, edges=undated)
    row('the first day of all', b, 'finished 0 1 0', None, day=0, edges=undated)
    row('the last day of all', b, 'finished 0 1 0', None, day=65535, edges=undated)
    b = Register(0, 1, 4).tell(f.ROLE_ASSERTION, P, 0, 1, last=100).tell(f.ROLE_ASSERTION, P, 1, 2, first=101).tell(f.ROLE_ASSERTION, P, 2, 3, first=100, last=100)
    row('p(0,1) to day 100, p(1,2) from day 101, p(2,3) on day 100: day 0', b, 'finished 0 1 0', None, day=0, edges=[(0, 0, 1)])
    row('day 100', b, 'finished 0 2 0', None, day=100, edges=[(0, 0, 1), (0, 2, 3)])
    row('day 101', b, 'finished 0 1 0', None, day=101, edges=[(0, 1, 2)])
    row('day 65,535', b, 'finished 0 1 0', None, day=65535, edges=[(0, 1, 2)])

    # every part of the conclusions comes from statements in force
    b = Register(0, 1, 2).tell(f.SAME, 0, 1, first=5, last=5).tell(f.ROLE_ASSERTION, P, 0, 0)
    row('0 same as 1 on day 5, p(0,0): 4 edges on day 5', b, 'finished 0 4 1', None, day=5, edges=[(0, 0, 0), (0, 0, 1), (0, 1, 0), (0, 1, 1)], pairs=[(0, 1)])
    row('and 1 on day 6', b, 'finished 0 1 0', None, day=6, edges=[(0, 0, 0)])
    b = Register(2, 0, 1)
    a, c = b.classes(2)
    b.tell(f.DISJOINT, a, c, last=5).tell(f.CLASS_ASSERTION, a, 0).tell(f.CLASS_ASSERTION, c, 0)
    row('A and B disjoint to day 5, 0:A, 0:B: clash on day 5', b, 'clash 2 0', None, day=5)
    row('and none on day 6', b, 'finished 2 0 0', None, day=6, types=[(0, 0), (0, 1)])
    b = Register(1, 1, 3)
    a, = b.classes(1)
    b.tell(f.FUNCTIONAL, P, first=5).tell(f.ROLE_ASSERTION, P, 0, 1).tell(f.ROLE_ASSERTION, P, 0, 2).tell(f.CLASS_ASSERTION, a, 1)
    row('p functional from day 5, p(0,1), p(0,2), 1:A: a same pair on day 5', b, 'finished 2 2 1', None, day=5, types=[(1, 0), (2, 0)], edges=[(0, 0, 1), (0, 0, 2)], pairs=[(1, 2)])
    row('for which the pair list has no room: refused 11', b, 'refused 11', None, day=5, room=1)
    row('day 4 has no pair, and needs no room', b, 'finished 1 2 0', None, day=4, types=[(1, 0)], edges=[(0, 0, 1), (0, 0, 2)], room=1)
    b = Register(2, 0, 1)
    a, c = b.classes(2)
    b.tell(f.SUB_CLASS, a, c, first=5).tell(f.CLASS_ASSERTION, a, 0)
    row('A under B from day 5, 0:A: B on day 5, and the budget is spent', b, 'spent', None, day=5, budget=1)
    row('and not on day 4, with budget enough', b, 'finished 1 0 0', None, day=4, types=[(0, 0)], budget=1)

    # a reader and a day: the readable ones among those in force
    b = Register(0, 1, 4).tell(f.ROLE_ASSERTION, P, 0, 1, source=1, first=5).tell(f.ROLE_ASSERTION, P, 1, 2, source=1, last=4).tell(f.ROLE_ASSERTION, P, 2, 3, first=5)
    row('p(0,1) by source 1 from day 5, p(1,2) by source 1 to day 4, p(2,3) from day 5: reader 0 on day 5', b, 'finished 0 2 0', (0, own), day=5, edges=[(0, 0, 1), (0, 2, 3)])
    row('reader 0 on day 4', b, 'finished 0 1 0', (0, own), day=4, edges=[(0, 1, 2)])
    row('reader 1 on day 5', b, 'finished 0 1 0', (1, own), day=5, edges=[(0, 2, 3)])
    row('reader 1 on day 4: nothing', b, 'finished 0 0 0', (1, own), day=4)
    row('reader 0 without a day', b, 'finished 0 3 0', (0, own), edges=[(0, 0, 1), (0, 1, 2), (0, 2, 3)])
    row('day 5 without a reader', b, 'finished 0 2 0', None, day=5, edges=[(0, 0, 1), (0, 2, 3)])

    # refusals on a day: 14 and 15 where a reader is named, and a fault in a statement that is not in force
    row('reader 32 on a day: refused 14', [0], 'refused 14', (32, words()), day=7)
    row('too short a table on a day: refused 15', [0], 'refused 15', (0, words(1023)), day=7)
    row('no bytes on a day: refused 4', [], 'refused 4', None, day=7)
    row('too short a type list on a day: refused 3', [0], 'refused 3', None, day=7, budget=2, type_room=3, edge_room=6, room=1)
    bad = Register(0, 1, 2).tell(f.ROLE_ASSERTION, P, 0, 1, first=5).data()
    row('an individual out of range in a statement that is not in force: refused 9', bad[:-4] + f.u16(2) + bad[-2:], 'refused 9', None, day=4)
    bad = Register(0, 1, 2).tell(f.ROLE_ASSERTION, P, 0, 1, first=6, last=6).data()
    row('a last day before the first, and a day before both: refused 16', bad[:-2] + f.u16(5), 'refused 16', None, day=4)
    return out


def runs():
    out = []
    worked = next(bar.data for bar in bars() if bar.label == 'the worked book of seven individuals')

    def row(label, book, end, budget=4000, room=4000, **rest):
        out.append(Bar(label, book, end, budget=budget, room=room, **rest))

    # input that is no book, with the program's budget and lists
    row('an empty file', [], 'refused 4')
    row('a text file: S has bit 6', b'SubClassOf(:Plate :Steel)\n', 'refused 5')
    row('a text file that begins with an empty line: roles, and there are too many', b'\nPrefix(:=<http://plates/>)\n', 'refused 6')
    row('a text file that begins with a byte order mark', b'\xef\xbb\xbfOntology()\n', 'refused 5')
    row('an XML file', b'<?xml version="1.0"?>\n', 'refused 5')
    row('a book as hexadecimal digits', worked.hex().encode(), 'refused 5')
    row('a compressed file: five counts, and too many classes', b'\x1f\x8b\x08\x00\x00\x00\x00\x00\x00\x03', 'refused 6')
    row('65,536 zeros: a book of one byte, and more behind it', bytes(65536), 'refused 10')
    for n in (1, 2, 10, 11, 20, 30, 60, len(worked) - 1):
        row(f'the worked book, cut off behind {n} bytes', worked[:n], 'refused 4')
    row('the worked book with a line feed behind it', worked + b'\n', 'refused 10')
    row('the worked book twice', worked + worked, 'refused 10')
    row('the worked book with its bytes read as text and written as UTF-8', worked.decode('latin-1').encode(), 'refused 8')

    # budgets
    row('the largest budget: refused 1', [0], 'refused 1', budget=2 ** 64 - 1, type_room=1, edge_room=1, room=1)
    row('a budget of 1,000,000 on short lists: refused 2', [0], 'refused 2', budget=1000000, type_room=1, edge_room=1, room=1)
    row('no budget and no facts', [0], 'finished 0 0 0', budget=0, room=1)
    b = Register(1, 0, 1)
    a, = b.classes(1)
    row('no budget and a fact: spent', b.tell(f.CLASS_ASSERTION, a, 0), 'spent', budget=0, room=1)

    # books that fill a list of the program, and one fact or pair more
    def typed(more):
        b = Register(8, 0, 500 + more)
        all_eight = b.both(*b.classes(8))
        for i in range(500):
            b.tell(f.CLASS_ASSERTION, all_eight, i)
        for i in range(500, 500 + more):
            b.tell(f.CLASS_ASSERTION, 7, i)
        return b
    row('500 individuals of 8 classes: 4,000 types', typed(0), 'finished 4000 0 0', types=[(i, c) for i in range(500) for c in range(8)])
    row('one type more: spent', typed(1), 'spent')

    ends = [(a, c) for a in range(412, 512) for c in range(472, 512)]

    def joined(more):
        b = Register(0, 64, 512)
        for a, c in ends:
            b.tell(f.ROLE_ASSERTION, 127, c, a)
        for a in range(more):
            b.tell(f.ROLE_ASSERTION, 126, a, a)
        return b
    row('the inverse of role 63 from 40 individuals to 100: 4,000 edges', joined(0), 'finished 0 4000 0', edges=[(63, a, c) for a, c in ends])
    row('one edge more: spent', joined(1), 'spent')

    # a functional role with 63, 10, 2 and 2 fillers of its subjects has 1,953 + 45 + 1 + 1 same pairs
    def paired(sizes):
        first, groups = len(sizes), []
        for size in sizes:
            groups.append(range(first, first + size))
            first += size
        b = Register(0, 1, first).tell(f.FUNCTIONAL, P)
        for subject, fillers in enumerate(groups):
            for x in fillers:
                b.tell(f.ROLE_ASSERTION, P, subject, x)
        return b, [(0, subject, x) for subject, fillers in enumerate(groups) for x in fillers], [(x, y) for fillers in groups for x in fillers for y in fillers if x < y]
    b, edges, pairs = paired((63, 10, 2, 2))
    row('2,000 same pairs', b, 'finished 0 77 2000', edges=edges, pairs=pairs)
    row('one pair more: refused 11', paired((63, 10, 2, 2, 2))[0], 'refused 11')
    return out
