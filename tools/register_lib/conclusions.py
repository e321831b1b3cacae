"""What a book concludes: a run of the program, its output read back, or of the library; and either written with the names
of the register."""
import re
import subprocess
from collections import namedtuple

import book_format as f

from . import days, library
from .text import counted, document, periods, sourced
from .tokens import Fault

FINISHED, CLASH, SPENT, REFUSED = 0, 3, 4, 5  # exit statuses
NUMBER = '[0-9]{1,9}'
CAUSES = {
    4: 'the book ends before a record is complete', 5: 'header bit 5 to 7, or a written count 0, source 0, first day 0 or last day 65,535', 6: 'a count above its limit',
    7: 'an unknown kind', 8: 'a map that its kind does not have', 9: 'a number out of range', 10: 'bytes behind the last statement',
    11: "more same pairs than the program's list holds (2,000 for saturate)", 14: 'a reader above 31', 15: 'a table of another length than 1,024 words',
    16: 'a last day before the first',
}

# the end's word, its numbers, and the listed facts, such as ('t', individual, class)
Run = namedtuple('Run', 'word numbers facts')


def run(program, data):
    """What the program prints for a book."""
    try:
        done = subprocess.run([program], input=data, stdout=subprocess.PIPE, check=False)
    except OSError as error:
        raise Fault(f'the program cannot be run: {error.strerror}') from None
    if done.returncode < 0:
        raise Fault(f'the program was ended by signal {-done.returncode}')
    return done.stdout.decode('ascii', 'replace')


def read(output, counts):
    """The run that a program has printed; a fault for any other text."""
    first, *rest = output.split('\n')
    ends = 'finished( N){3}|clash( N){2}|spent|refused N|long'.replace('N', NUMBER)
    if not re.fullmatch(ends, first) or rest[-1:] != ['']:
        raise Fault(f'the program printed none of its ends: {first[:60]!r}')
    word, *numbers = first.split()
    numbers, facts = [int(n) for n in numbers], [tuple(line.split(' ')) for line in rest[:-1]]
    classes, roles, individuals = counts[:3]
    limits = {'t': (individuals, classes), 'e': (roles, individuals, individuals), 's': (individuals, individuals)}
    for fact in facts:
        values, limit = fact[1:], limits.get(fact[0], ())
        if len(values) != len(limit) or not all(re.fullmatch(NUMBER, x) and int(x) < top for x, top in zip(values, limit)):
            raise Fault(f'the program listed what the book does not have: {" ".join(fact)[:60]!r}')
    listed = [sum(fact[0] == letter for fact in facts) for letter in 'tes']
    if listed != (numbers if word == 'finished' else [0, 0, 0]):
        raise Fault(f'the program listed other facts than it counted: {first!r}')
    return Run(word, numbers, [(fact[0], *map(int, fact[1:])) for fact in facts])


def run_library(data, counts, budget, reader=None, day=None):
    """The run of the library, for a reader and as of a day where they are given, with a pair list that has room for every pair of
    the book's individuals."""
    individuals = counts[f.INDIVIDUALS]
    rooms = 2 * budget, 3 * budget, individuals * (individuals - 1)
    who, when = [reader.number, reader.table] if reader else [], [] if day is None else [day]
    function = [[library.saturate, library.saturate_on], [library.saturate_for, library.saturate_for_on]][bool(who)][bool(when)]
    got = function(data, budget, *rooms, *who, *when)
    numbers = [got.type_count, got.edge_count, got.pair_count]
    if got.end != library.FINISHED:
        word = {library.CLASH: 'clash', library.SPENT: 'spent'}.get(got.end, 'refused')
        return Run(word, [got.end - library.REFUSED] if word == 'refused' else numbers[:2], [])
    edge_part, pair_part = (library.named_part(got.end, got.edge_count, got.pair_count, named)
                            for named in (library.EDGES, library.PAIRS))
    parts = [('t', 2, got.types[:2 * got.type_count]), ('e', 3, got.edges[:edge_part]), ('s', 2, got.pairs[:pair_part])]
    return Run('finished', numbers, [(letter, *part[n:n + width]) for letter, width, part in parts
                                     for n in range(0, len(part), width)])


def edge(role, a, b):
    """The edge, in the named direction, that says that the role field leads a to b."""
    return ('e', role // 2, b, a) if role % 2 else ('e', role // 2, a, b)


def told(book):
    """What a book says outright: assertions (rule 1), and SameIndividual as pairs, lower number first; of each, the sources
    that say it, 0 for the shared book."""
    out = {}
    for (kind, _, v), marks in zip(book.statements, book.marks):
        for fact in said(book, kind, v):
            out.setdefault(fact, set()).add(marks.source)
    return out


def said(book, kind, v):
    """What a statement says outright."""
    if kind == f.ROLE_ASSERTION:
        yield edge(*v)
    elif kind == f.SAME:
        yield 's', *sorted(v)
    elif kind == f.CLASS_ASSERTION:
        seen, waiting = set(), [v[0]]
        while waiting:
            c = waiting.pop()
            kind_, fields = book.concepts[c]
            if kind_ == f.AND and c not in seen:
                waiting += fields
            elif kind_ == f.ATOMIC:
                yield 't', v[1], fields[0]
            elif kind_ == f.SOME and book.concepts[fields[1]][0] == f.NOMINAL:
                yield edge(fields[0], v[1], book.concepts[fields[1]][1][0])
            seen.add(c)

def tally(types, edges, pairs):
    return ', '.join([counted(types, 'type'), counted(edges, 'edge'), counted(pairs, 'same pair')])


def named(fact, names):
    """The names of a fact in its order: individual and class; role and ends; both of a pair."""
    kinds = {'t': (f.INDIVIDUALS, f.CLASSES), 'e': (f.ROLES, f.INDIVIDUALS, f.INDIVIDUALS), 's': (f.INDIVIDUALS, f.INDIVIDUALS)}[fact[0]]
    return [names.of(kind, n) for kind, n in zip(kinds, fact[1:])]


def section(title, facts, names, outright=None, reader=None):
    """The lines of some facts under their title. A told fact has the workshops that say it; where the shared book says it,
    it has none. For a reader they stand in the order of their names: numbers go by first mention, which may be in a statement
    that he may not read."""
    yield f'# {title}: ' + tally(*(sum(fact[0] == letter for fact in facts) for letter in 'tes'))
    rows = [('tes'.index(fact[0]), named(fact, names), fact) for fact in facts]
    if reader:
        rows = sorted((letter, sorted(words) if fact[0] == 's' else words, fact) for letter, words, fact in rows)
    for _, words, fact in rows:
        sources = outright[fact] if outright else {0}
        order = [n for n in reader.sources if n in sources] if reader else sorted(sources)
        whose = '' if 0 in sources else sourced(names, order)
        if fact[0] == 't':
            yield f'ClassAssertion({whose}{words[1]} {words[0]})'
        elif fact[0] == 'e':
            yield f'ObjectPropertyAssertion({whose}{" ".join(words)})'
        else:
            yield f'SameIndividual({whose}{" ".join(words)})'


def advice(counts, budget, reader=None, day=None):
    """How a run with a larger budget is had: with the bound of the book's counts, or the largest there is."""
    classes, roles, individuals = counts[:3]
    enough = min(individuals * classes + roles * individuals ** 2, library.MOST_BUDGET)
    if budget >= enough:
        return 'There is no larger budget.'
    named = (f' --reader {reader.name}' if reader else '') + ('' if day is None else f' --day {days.written(day)}')
    return f'With a larger one, by the proved library: tools/register conclude --budget {enough}{named} FILE'


def named_by(names, book, reader, day):
    """The lines that say of which statements the conclusions are."""
    if reader:
        yield f'for {reader.name}, who may read the shared book' + ''.join(f', {names.source(n)}' for n in reader.sources)
    if day is not None:
        yield f'on {days.written(day)}'
    elif periods(book):
        yield f'of all days, with {counted(len(periods(book)), "period")}; conclude --day 2026-11-15 takes one day'


def write(run, book, size, names, budget=None, reader=None, day=None):
    """(exit status, text) of a run of the program, or of the library with a budget: a document after finished, told and
    derived apart, and a sentence after any other end. Of a run for a reader or a day the book is the part that counts."""
    word, numbers, facts = run
    if word == 'finished':
        outright = told(book)
        body = [*section('told', [x for x in facts if x in outright], names, outright, reader),
                *section('derived', [x for x in facts if x not in outright], names, reader=reader)]
        return FINISHED, document(names, ['finished: ' + tally(*numbers), *named_by(names, book, reader, day)], body)
    if word == 'clash':
        sizes = f'{counted(numbers[0], "type")} and {counted(numbers[1], "edge")}'
        which = (f'what {reader.name} may read of this register' if reader else 'this register') + ('' if day is None else f' on {days.written(day)}')
        ask = '' if reader or day is not None else 'Why: tools/register why FILE\n'
        return CLASH, f'clash: no world fits {which}; its smallest sets have {sizes}.\n{ask}'
    if word == 'spent':
        which = "the program's budget (4,000 for saturate)" if budget is None else f'the budget of {budget:,}'
        return SPENT, (f'spent: the conclusions have more types and edges than {which}.\n'
                       f'{advice(book.counts, budget or 0, reader, day)}\n')
    if word == 'long':
        return REFUSED, f'long: the book has {size:,} bytes, more than the program reads (65,536 for saturate).\n'
    cause = CAUSES.get(numbers[0], 'a number that the program does not document')
    more = '\nWith room for all pairs, by the proved library: tools/register conclude --budget 4000 FILE' if numbers[0] == 11 else ''
    return REFUSED, f'refused {numbers[0]}: {cause}.{more}\n'
