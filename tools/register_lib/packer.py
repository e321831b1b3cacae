"""From trees to a book. Classes, roles and individuals are numbered by first mention, anonymous individuals behind the
others; equal class expressions have one number, parts before wholes. What a book cannot hold takes no numbers. The source
of a statement is the workshop that an annotation of its axiom names; a source keeps the number that it is known by. Its days
are the dates of two further annotations."""
from itertools import combinations, islice

import book_format as f

from . import days, words
from .names import BOTTOM, BUILT_IN_ROLES, MOST_SOURCES, TOP, Names, own_source
from .syntax import OWL, UNNAMED, Literal, Name, Node, Number, Parser
from .tokens import Fault

MOST_BYTES = 65536  # of a book that the program reads
MOST_PARTS = 255
MOST_BOUND = 2 ** 32 - 1
UNREAD = ('http://org.semanticweb.owlapi/error#', UNNAMED)  # how names begin that stand for what an OWL editor could not read
WHERE = ('classes', 'roles', 'individuals', 'concepts', 'statements')


class LeftOut(Exception):
    """Why a book cannot hold an axiom; empty where no statement is of its kind."""


def said_by(annotations, properties):
    """The values of the annotations that have one of some properties."""
    for annotation in annotations:
        args = [arg for arg in annotation.args if not isinstance(arg, Node)]
        if len(args) == 2 and isinstance(args[0], Name) and args[0].iri in properties:
            yield args[1]


def day_of(value):
    """The day that a literal says."""
    if not isinstance(value, Literal):
        raise Fault('expected a date such as "2026-11-15"', value.at)
    try:
        return days.number(value.text[1:-1])
    except ValueError as wrong:
        raise Fault(str(wrong), value.at) from None


class Packer:
    def __init__(self, text, known=()):
        """`known` has the names of sources by their numbers."""
        parser = Parser(text, words.AXIOMS)
        self.items, self.prefixes = parser.document(), parser.prefixes
        # each table: key to (number, offset of the first mention); an individual stays its name until the end
        self.classes, self.roles, self.individuals, self.concepts = self.tables = {}, {}, {}, {}
        # each statement as (record, its source, its days); a source is its name, or None for the shared book
        self.statements, self.told, self.first_over = [], 0, None
        self.places = []  # of each statement, the offset of its axiom
        self.sources, self.known = {}, dict(known)  # of each source in statements, the offset of its first mention
        self.left_out = {}  # kind: [how often, offset of the first]

    def pack(self, strict=False):
        """Takes every axiom; with `strict` the first one that a book cannot hold is a fault."""
        for node in self.items:
            lengths = [len(table) for table in self.tables]
            try:
                self.take(node)
            except LeftOut as reason:
                kind = f'{node.word} with {reason}' if str(reason) else node.word
                if strict:
                    raise Fault(f'a book cannot hold this: {words.left_out(kind)}', node.at) from None
                self.left_out.setdefault(kind, [0, node.at])[0] += 1
                for table, length in zip(self.tables, lengths):
                    while len(table) > length:
                        table.popitem()

    def take(self, node):
        args, annotations = list(node.args), []
        while args and isinstance(args[0], Node) and args[0].word == 'Annotation':
            annotations.append(args.pop(0))
        if node.word == 'Declaration':
            self.declare(node, args)
        elif node.word in words.STATEMENTS:
            self.state(node, args, self.sources_of(annotations), self.days_of(annotations))
        elif node.word in words.UNHELD:
            raise LeftOut
        elif node.word not in words.SILENT:
            raise words.unknown(node, 'axiom', words.AXIOMS)

    def declare(self, node, args):
        tables = {'Class': self.classes, 'ObjectProperty': self.roles, 'NamedIndividual': self.individuals,
                  'DataProperty': {}, 'AnnotationProperty': {}, 'Datatype': {}}
        entity = args[0] if len(args) == 1 else None
        if not isinstance(entity, Node) or len(entity.args) != 1 or not isinstance(entity.args[0], Name):
            raise Fault('Declaration takes one of Class(..), ObjectProperty(..), NamedIndividual(..) and the like', node.at)
        if entity.word not in tables:
            raise words.unknown(entity, 'kind of declaration', tables)
        name = entity.args[0]
        if name.iri.startswith('_:'):
            raise Fault(f'{name.iri} is anonymous and cannot be declared', name.at)
        if not name.iri.startswith((OWL, *UNREAD)):
            self.number(tables[entity.word], name.iri, name.at)

    def sources_of(self, annotations):
        """The workshops that annotations of an axiom name, each once; the shared book where there is none."""
        found = {}
        for value in said_by(annotations, [words.SOURCE]):
            if not isinstance(value, Name) or value.iri.startswith('_:'):
                raise LeftOut('an rdfs:isDefinedBy that is no name')
            found.setdefault(value.iri, value.at)
        return found or {None: None}

    def days_of(self, annotations):
        """The first and the last day that annotations of an axiom say, those of a book where there are none."""
        found, at = [], None
        for properties, absent in ((words.FIRST_DAY, f.UNMARKED.first), (words.LAST_DAY, f.UNMARKED.last)):
            numbers = {}
            for value in said_by(annotations, properties):
                numbers.setdefault(day_of(value), value.at)
            if len(numbers) > 1:
                which = 'first' if properties is words.FIRST_DAY else 'last'
                raise Fault(f'a statement has one {which} day; for two periods the axiom stands twice', max(numbers.values()))
            at = min(numbers.values(), default=at)
            found.append(min(numbers, default=absent))
        if found[1] < found[0]:
            raise Fault(f'the last day, {days.written(found[1])}, is before the first, {days.written(found[0])}', at)
        return found

    def state(self, node, args, sources, period):
        """The statements of an axiom, for each of its sources: one, or pairs of a list (neighbours for SameIndividual, all
        pairs elsewhere). A member that is repeated counts once; one that is alone is paired with itself."""
        kind, form = words.STATEMENTS[node.word]
        words.check_form(node, form, args)
        if form[-1] == '2':
            members = list(dict.fromkeys(self.fields(form[0], arg)[0] for arg in args))
            members *= 2 if len(members) == 1 else 1
            n = len(members)
            if kind == f.SAME:
                self.tell(((kind, *pair) for pair in zip(members, members[1:])), n - 1, node.at, sources, period)
            else:
                self.tell(((kind, *pair) for pair in combinations(members, 2)), n * (n - 1) // 2, node.at, sources, period)
        else:
            fields = [field for letter, arg in zip(form, args) for field in self.fields(letter, arg)]
            self.tell([(kind, *fields)], 1, node.at, sources, period)

    def tell(self, records, count, at, sources, period):
        """Keeps statements as far as a book has room; the others are counted."""
        room = f.LIMITS[f.STATEMENTS] - len(self.statements)
        if self.first_over is None and count * len(sources) > room:
            self.first_over = at
        self.statements += islice(((record, source, period) for record in records for source in sources), room)
        self.places += [at] * (len(self.statements) - len(self.places))
        self.told += count * len(sources)
        for source, mentioned in sources.items():
            if source:
                self.sources.setdefault(source, mentioned)

    def fields(self, letter, tree):
        """The fields of one argument: one, or the roles of a chain."""
        if letter == 'P' and isinstance(tree, Node) and tree.word == 'ObjectPropertyChain':
            words.check_form(tree, 'R2', tree.args)
            if len(tree.args) > 3:
                raise LeftOut(f'a chain of {len(tree.args):,} roles')
            return [self.role(role) for role in tree.args]
        return [{'C': self.concept, 'R': self.role, 'P': self.role, 'I': self.individual, 'N': self.bound}[letter](tree)]

    def number(self, table, key, at):
        """The number of a key: the one it has, or the next."""
        if isinstance(key, str) and key.startswith(UNREAD):
            raise LeftOut('what an OWL editor could not read')
        return table.setdefault(key, (len(table), at))[0]

    def role(self, tree):
        """A role field: twice the number, plus 1 for the inverse."""
        inverse = isinstance(tree, Node) and tree.word == 'ObjectInverseOf'
        if inverse:
            words.check_form(tree, 'R', tree.args)
        name = tree.args[0] if inverse else tree
        if not isinstance(name, Name) or name.iri.startswith('_:'):
            raise Fault('expected the name of a role' + ('' if inverse else ' or ObjectInverseOf(..)'), name.at)
        if name.iri in BUILT_IN_ROLES:
            raise LeftOut('owl:' + name.iri.partition('#')[2])
        return 2 * self.number(self.roles, name.iri, name.at) + inverse

    def individual(self, tree):
        if not isinstance(tree, Name):
            raise Fault('expected the name of an individual', tree.at)
        self.number(self.individuals, tree.iri, tree.at)
        return tree.iri

    def bound(self, tree):
        if not isinstance(tree, Number):
            raise Fault('expected a number', tree.at)
        if tree.value > MOST_BOUND:
            raise LeftOut(f'a bound above {MOST_BOUND:,}')
        return tree.value

    def concept(self, tree):
        """The number of a class expression. What waits is kept in a list, so depth is free."""
        waiting, numbers = [(tree, None, 0)], []
        while waiting:
            node, fields, parts = waiting.pop()
            if fields is not None:
                whole = self.whole(node, fields, numbers[len(numbers) - parts:])
                del numbers[len(numbers) - parts:]
                numbers.append(whole)
            elif isinstance(node, Node):
                form = self.form(node)
                letters = form[0] * len(node.args) if form[-1] in words.MANY else form
                fields = [self.fields(x, arg)[0] for x, arg in zip(letters, node.args) if x != 'C']
                inner = [arg for x, arg in zip(letters, node.args) if x == 'C']
                if len(node.args) > MOST_PARTS:
                    raise LeftOut(f'{node.word} of more than {MOST_PARTS} parts')
                waiting.append((node, fields, len(inner)))
                waiting += [(arg, None, 0) for arg in reversed(inner)]
            else:
                numbers.append(self.named(node))
        return numbers[0]

    def form(self, node):
        if node.word in words.UNHELD_CONCEPTS:
            raise LeftOut(node.word)
        if node.word not in words.CONCEPTS and node.word not in words.COMPOSED:
            raise words.unknown(node, 'class expression', {*words.CONCEPTS, *words.COMPOSED, *words.UNHELD_CONCEPTS})
        form = words.COMPOSED.get(node.word) or words.CONCEPTS[node.word][1]
        words.check_form(node, form, node.args)
        return form

    def named(self, name):
        if not isinstance(name, Name) or name.iri.startswith('_:'):
            raise Fault('expected a class expression', name.at)
        if name.iri in (TOP, BOTTOM):
            return self.kept(name, f.TOP if name.iri == TOP else f.BOT)
        return self.kept(name, f.ATOMIC, self.number(self.classes, name.iri, name.at))

    def kept(self, tree, *record):
        return self.number(self.concepts, record, tree.at)

    def whole(self, node, fields, parts):
        """The number of an expression whose parts have theirs."""
        word = node.word
        if word == 'ObjectOneOf':
            nominals = [self.kept(node, f.NOMINAL, x) for x in fields]
            return nominals[0] if len(nominals) == 1 else self.kept(node, f.OR, *nominals)
        if word == 'ObjectHasValue':
            return self.kept(node, f.SOME, fields[0], self.kept(node, f.NOMINAL, fields[1]))
        if word.endswith('Cardinality'):
            bound, role = fields
            inner = parts[0] if parts else self.kept(node, f.TOP)
            if word == 'ObjectExactCardinality':
                return self.kept(node, f.AND, *(self.kept(node, kind, role, inner, bound) for kind in (f.MIN, f.MAX)))
            return self.kept(node, words.CONCEPTS[word][0], role, inner, bound)
        return self.kept(node, words.CONCEPTS[word][0], *fields, *parts)

    def source_numbers(self):
        """The numbers of the sources: known ones keep theirs, book:s7 is 7, and the others have the lowest that are free, by
        first mention. A known source stays, also where no statement has it now."""
        numbers = {name: n for n, name in self.known.items()}
        numbers |= {name: own_source(name) for name in self.sources if own_source(name)}
        taken = set(numbers.values())
        free = (n for n in range(1, f.LIMITS[f.STATEMENTS] + MOST_SOURCES) if n not in taken)
        for name in self.sources:
            if name not in numbers:
                numbers[name] = next(free)
        return numbers

    def numbered_sources(self):
        """The sources by number; one that is known goes by its known name."""
        out = {}
        for name, n in self.source_numbers().items():
            out.setdefault(n, name)
        return out

    def names(self):
        """The names by number."""
        return Names(self.prefixes, list(self.classes), list(self.roles),
                     sorted(self.individuals, key=lambda name: name.startswith('_:')), self.numbered_sources())

    def over(self, most_bytes=MOST_BYTES):
        """A fault for each limit of a book that is exceeded."""
        names, faults = self.names(), []
        for table, what, limit in zip(self.tables, WHERE, f.LIMITS):
            if len(table) > limit:
                key, (_, at) = next(islice(table.items(), limit, None))
                which = names.short(key) if isinstance(key, str) else 'this'
                faults.append(Fault(f'{len(table):,} {what}, and a book has at most {limit:,}; {which} is the first too many', at))
        limit = f.LIMITS[f.STATEMENTS]
        if self.told > limit:
            faults.append(Fault(f'{self.told:,} statements, and a book has at most {limit:,}; this is the first too many '
                                '(longer lists become pairs)', self.first_over))
        for n, name in self.numbered_sources().items():
            if n > MOST_SOURCES:
                faults.append(Fault(f'{len(self.numbered_sources()):,} sources, and a book has at most {MOST_SOURCES:,}; '
                                    f'{names.short(name)} is the first too many', self.sources[name]))
                break
        if not faults and most_bytes and len(self.data()) > most_bytes:
            faults.append(Fault(f'{len(self.data()):,} bytes, and a book for the program has at most {most_bytes:,}; '
                                'conclude --budget N takes longer ones'))
        return faults

    def data(self):
        """The bytes of the book, where no limit of its counts is exceeded."""
        number = {name: n for n, name in enumerate(self.names().lists[f.INDIVIDUALS])}
        concepts, statements = ([tuple(number.get(x, x) for x in record) for record in records]
                                for records in (self.concepts, [record for record, _, _ in self.statements]))
        sources = self.source_numbers()
        marks = [f.Marks(sources[source] if source else 0, *period) for _, source, period in self.statements]
        return f.write([len(table) for table in self.tables[:3]], concepts, statements, marks)
