"""The command line of tools/register."""
import argparse
import ctypes
import pathlib
import re
import sys

import book_format as f

from . import conclusions, days, library, membership, names, prospect, readers, why, words
from .packer import MOST_BYTES, Packer
from .source import AT_FAULT, DONE, NOT_RUN, Source, Stop, decoded, read_bytes
from .text import Writer, counted, summary
from .tokens import Fault

ROOT = pathlib.Path(__file__).resolve().parent.parent.parent
PROGRAM = ROOT / 'target' / 'bin' / 'saturate'
PROGRAM_BUDGET = 4000  # of that program
NOT_SHOWN = 6  # exit status
NOT_CONCLUDED = 3  # exit status of why
SUFFIX = r'\.(ofn|owl|ttl|nt|rdf|xml|owx|omn)$'  # of a register's file; its book has .book in place of it

ABOUT = 'Books in a form that people read and write: OWL 2 functional-style syntax.'
SYNTAXES = '''FILE is in functional-style syntax. One in Turtle, RDF/XML, OWL/XML or Manchester syntax, as its first
words tell, is converted through the OWL API, where Java and that are at hand (on Debian: apt install
default-jdk-headless libowlapi-java). Imports are not fetched; they are counted as left out.
'''
STATUSES = '''Exit status:
  0  done; for conclude: finished; for is: shown
  1  the file is at fault: syntax, a limit of the book, with --strict an axiom that a book cannot hold, a file of readers;
     for is and what-if: a name that the register has not, an expression or axiom that a book cannot hold;
     for show and clean: a refused book, for show also names that do not fit it
  2  wrong usage, a file that cannot be read or written, a program that cannot be run or prints something else,
     a library, Java or an OWL API that is not there
  3  conclude, is: clash, no world fits the register; what-if: that, or none would fit it with the axiom; why: the register does not conclude the fact, or does not clash
  4  conclude, is, what-if, why: spent, more conclusions than the budget
  5  conclude: refused, or a book that is too long for the program
  6  is: not shown
'''
PACKED = SYNTAXES + '''
Into the book go:
  SubClassOf, EquivalentClasses, DisjointClasses, SameIndividual, DifferentIndividuals, ClassAssertion,
  ObjectPropertyAssertion, NegativeObjectPropertyAssertion,
  SubObjectPropertyOf (of a role, or of a chain of two or three), InverseObjectProperties,
  Transitive-, Symmetric-, Functional- and InverseFunctionalObjectProperty, ObjectPropertyDomain and -Range,
over owl:Thing, owl:Nothing, classes, and ObjectIntersectionOf, ObjectUnionOf, ObjectComplementOf, ObjectOneOf,
ObjectSomeValuesFrom, ObjectAllValuesFrom, ObjectHasValue, ObjectHasSelf, ObjectMin-, -Max- and -ExactCardinality,
and over roles and ObjectInverseOf. Longer lists become pairs: neighbours for SameIndividual, all pairs elsewhere;
a repeated member counts once. Everything else is left out and counted on standard error; annotations are passed over,
but for three. Annotation(rdfs:isDefinedBy :workshop) in an axiom says whose statement it was. Its sources are numbered
from 1 and named in FILE.names; where that file is there already, a source in it keeps its number. An axiom without one
is the shared book's, and one with several is stated by each. Annotation(schema:validFrom "2026-01-12") and
Annotation(schema:validThrough "2026-04-30"), with Prefix(schema:=<http://schema.org/>), say the first and the last day
on which it is in force, both among them, from 2000-01-01 to 2179-06-06; without them it is in force from the first of
these days, or to the last. An axiom with two periods stands twice.

A book has at most 256 classes, 64 roles, 512 individuals, 4,096 concepts, 4,096 statements and 1,023 sources, and for the
program 65,536 bytes. A declared name counts, also where no axiom uses it.
'''
SHOWN = '''A book may have an ObjectIntersectionOf or ObjectUnionOf of one part or none. It is shown as it stands and
packed again as it is shown, but it is not legal OWL, which wants two parts, and OWL editors refuse it.
'''
CLEANED = f'''A repeat has the kind, the fields, the source and the days of an earlier statement; the first of each is kept, and nothing else changes,
so every run of the written book ends as before. The proved library writes it; `{library.BUILD}` builds that.
'''
SMALL = f'''The books with one class, one role, two individuals, the concept Atomic 0 and at most two statements: 5,403 of
them, fewer statements first, then by bytes. The proved library makes them; `{library.BUILD}` builds that.
'''
CONCLUDED = SYNTAXES + f'''
The program target/bin/saturate is run, which keeps at most 4,000 types and edges and lists 2,000 same pairs. With
--budget the proved library is run instead, with lists of the size that is needed; `{library.BUILD}` builds it. So it is
without --budget, where the library is built, for a register that may need more than 4,000 and at most 1,000,000, as
`need` tells: with that figure as budget, which is never spent.

With --reader the conclusions are those of the statements that one reader may read: the shared book's, and those of the
workshops that his line in FILE.readers names. Nothing that he may not read changes what is printed of them; what standard
error says of left out axioms and faults is about the whole file. The file has a line for each reader, at most 32 of them;
# starts a comment:
  inspector: :north south:workshop
  visitor:
With --day the conclusions are those of the statements in force that day, such as 2026-11-15; with both, of those among
them that the reader may read. Without it they are those of all statements, whatever their days.
For a reader or a day the proved library draws the conclusions, with the budget that they need where no --budget is given.
'''
ASKED = SYNTAXES + f'''
INDIVIDUAL and EXPRESSION are written as in the register, with its prefixes, such as
  tools/register is examples/plates.ofn :serial_412 'ObjectSomeValuesFrom(:readAgainst :ReferenceBar)'
Shown are: owl:Thing; a class that is concluded; ObjectOneOf of one that is told or found to be the same, or of itself; ObjectHasSelf and
ObjectSomeValuesFrom by the edges that are concluded; an intersection of which every part is shown, a union of which some
part is. Nothing else is ever shown. What is shown holds in every world that fits the register. What is not shown may hold
all the same, unless the register is plain and the expression is made of those kinds alone: then it is false in some world
that fits. With --reader the statements are those that he may read, with --day those in force that day. The proved library answers, with the budget that `need` tells
where no --budget is given; `{library.BUILD}` builds it.
'''
TRIED = SYNTAXES + f'''
AXIOM is written as in the register, with its prefixes and of its names, such as
  tools/register what-if examples/plates.ofn 'SubClassOf(:A :B)'
and is one statement: nothing is changed in FILE. What is printed is what the conclusions of FILE with the axiom have and those of
FILE have not; or, where both together clash, why, as for `why`. The proved library answers, with the budget that `need` tells where
no --budget is given; `{library.BUILD}` builds it.
'''
EXPLAINED = SYNTAXES + f'''
The steps are printed in functional-style syntax, facts before what follows from them: only those that the fact rests on,
each with its rule in words and the axioms of the register that it used, by line. They are the rows of a derivation that
the proved library lists, and they are shown only if its checker, which is proved too, accepts all of them; `{library.BUILD}`
builds it. Another derivation of the same fact may be as good.
'''
NEEDED = SYNTAXES + f'''
The figure is worked out without a run, by the proved library; `{library.BUILD}` builds that. A run with a budget of at
least the figure is never spent. It counts every individual with each class that the register may conclude of anyone, and
every two individuals linked by each role, so the conclusions may be far fewer.
'''


def write_file(path, data):
    try:
        path.write_bytes(data)
    except OSError as error:
        raise Stop(NOT_RUN, f'{path}: cannot be written: {error.strerror}') from None


def known_sources(path):
    """The names of the sources in a names file, if there is one: they keep their numbers."""
    if not pathlib.Path(path).exists():
        return {}
    list_ = Source(path, decoded(path, read_bytes(path)))
    try:
        return names.read_sources(list_.text)
    except Fault as fault:
        raise Stop(AT_FAULT, *list_.said(fault)) from None


def packed(path, strict, most_bytes=MOST_BYTES, known=()):
    """A file as a Packer that a book can hold; what is left out is counted on standard error."""
    source = Source.of(path)
    try:
        if strict and source.left_out:
            raise Fault(f'a book cannot hold this, {source.left_out[0]}')
        packer = Packer(source.text, known)
        packer.pack(strict)
    except Fault as fault:
        raise Stop(AT_FAULT, *source.said(fault)) from None
    over = packer.over(most_bytes)
    if over:
        raise Stop(AT_FAULT, *(line for fault in over for line in source.said(fault)))
    for sentence in source.left_out:
        print(f'{path}: left out, {sentence}', file=sys.stderr)
    for kind, (count, at) in packer.left_out.items():
        print(f'{path}: left out, since a book cannot hold it: {count:,} {words.left_out(kind)}, {source.first(at)}',
              file=sys.stderr)
    return packer


def pack(args):
    stem = args.out or re.sub(SUFFIX, '', args.file)
    packer = packed(args.file, args.strict, known=known_sources(stem + '.names'))
    data = packer.data()
    write_file(pathlib.Path(stem + '.book'), data)
    write_file(pathlib.Path(stem + '.names'), names.write(packer.names()).encode())
    print(f'{stem}.book: {summary(f.read(data))}, {counted(len(data), "byte")}; names in {stem}.names')
    return DONE


def show(args):
    try:
        book = f.read(read_bytes(args.file))
    except f.Refused as fault:
        cause = conclusions.CAUSES[fault.number]
        raise Stop(AT_FAULT, f'{args.file}: refused {fault.number} at byte {fault.at:,}: {cause}') from None
    given, list_ = names.unnamed(book.counts), None
    try:
        if args.names:
            list_ = Source(args.names, decoded(args.names, read_bytes(args.names)))
            given = names.read(list_.text, book.counts)
    except Fault as fault:
        raise Stop(AT_FAULT, *list_.said(fault)) from None
    try:
        print(Writer(book, given).show(), end='')
    except Fault as fault:
        raise Stop(AT_FAULT, f'{args.file}: {fault.words}') from None
    return DONE


def clean(args):
    data = read_bytes(args.file)
    out = ctypes.create_string_buffer(max(len(data), 1))
    try:
        code, length = library.write(data, out)
    except library.NotBuilt as missing:
        raise Stop(NOT_RUN, str(missing)) from None
    if code != library.WRITTEN:
        number = code - library.REFUSED
        raise Stop(AT_FAULT, f'{args.file}: refused {number}: {conclusions.CAUSES[number]}')
    cleaned, target = out.raw[:length], args.out or re.sub(r'\.book$', '', args.file) + '.clean.book'
    before, after = (f.read(book).counts[f.STATEMENTS] for book in (data, cleaned))
    write_file(pathlib.Path(target), cleaned)
    print(f'{target}: {counted(before - after, "statement")} dropped of {before:,}, {counted(length, "byte")}')
    return DONE


def small(args):
    """The small book at a position, shown, or all of them as files."""
    try:
        if args.all is None:
            book = library.small_book(args.position)
            if book is None:
                raise Stop(AT_FAULT, f'there is no small book at position {args.position:,}')
            print(f'# position {args.position}: {book.hex()}')
            print(Writer(f.read(book), names.unnamed(f.read(book).counts)).show(), end='')
            return DONE
        position, folder = 0, pathlib.Path(args.all)
        while book := library.small_book(position):
            write_file(folder / f'{position:04}.book', book)
            position += 1
    except library.NotBuilt as missing:
        raise Stop(NOT_RUN, str(missing)) from None
    print(f'{folder}: {counted(position, "book")}')
    return DONE


def need(args):
    """What a register will need: the figure, the lists that it asks for, and the budget to give."""
    data = packed(args.file, args.strict, None).data()
    try:
        figure = library.figure(data)[1]
    except library.NotBuilt as missing:
        raise Stop(NOT_RUN, str(missing)) from None
    print(f'{args.file}: at most {counted(figure, "type")} and edges together')
    if figure > library.MOST_BUDGET:
        print(f'The largest budget, {library.MOST_BUDGET:,}, may be spent: tools/register conclude --budget {library.MOST_BUDGET} {args.file}')
        return DONE
    print(f'A budget of {figure:,} is never spent; it asks for a type list of {2 * figure:,} entries and an edge list of {3 * figure:,}.')
    if figure <= PROGRAM_BUDGET:
        print(f"The program's budget of {PROGRAM_BUDGET:,} is enough: tools/register conclude {args.file}")
    else:
        print(f'By the proved library: tools/register conclude --budget {figure} {args.file}')
    return DONE


def explain(args):
    """Why a register concludes a fact, or why it clashes."""
    packer, source = packed(args.file, args.strict, None), Source.of(args.file)
    data = packer.data()
    try:
        fact = why.wanted(args.fact, packer) if args.fact else None
    except Fault as fault:
        raise Stop(AT_FAULT, f'{args.fact}: {fault.words}') from None
    try:
        found = accepted_steps(packer, source, data, fact)
    except library.NotBuilt as missing:
        raise Stop(NOT_RUN, str(missing)) from None
    if not found:
        raise Stop(NOT_CONCLUDED, f'{args.file}: {"it does not conclude this" if fact else "it does not clash; name a fact"}')
    print(why.text(found), end='')
    if args.svg:
        write_file(pathlib.Path(args.svg), why.svg(found).encode())
    return DONE


def try_axiom(args):
    """What a further axiom would add, or why it would clash."""
    packer, source = packed(args.file, args.strict, None), Source.of(args.file)
    try:
        data, line = prospect.added(packer, args.axiom, len(source.text))
    except Fault as fault:
        raise Stop(AT_FAULT, f'{args.axiom}: {fault.words}') from None
    try:
        budget = min(library.figure(packer.data())[1], library.MOST_BUDGET) if args.budget is None else args.budget
        count = f.read(data).counts[f.INDIVIDUALS]
        rooms = 2 * budget, 3 * budget, count * (count - 1)
        present, copy = library.what_if(data, line, budget, rooms, rooms)
    except library.NotBuilt as missing:
        raise Stop(NOT_RUN, str(missing)) from None
    if present.end == library.CLASH:
        print(f'clash: no world fits {args.file}, with this axiom or without it')
        return conclusions.CLASH
    if library.SPENT in (present.end, copy.end):
        print(f'spent: the conclusions have more types and edges than the budget of {budget:,}')
        return conclusions.SPENT
    if copy.end == library.CLASH:
        print(f'clash: no world would fit {args.file} with {args.axiom}')
        print(why.text(accepted_steps(packer, source, packer.data())), end='')
        return conclusions.CLASH
    if copy.end != library.FINISHED:
        raise Stop(AT_FAULT, f'{args.axiom}: refused {copy.end - library.REFUSED}: {conclusions.CAUSES[copy.end - library.REFUSED]}')
    print('\n'.join(conclusions.section('Would be added', list(prospect.facts(copy)), packer.names())))
    return DONE


def accepted_steps(packer, source, data, fact=None):
    """The steps to a fact, or to a clash, of rows that the checker accepts."""
    rows = listed_rows(data)
    stands = library.check_rows(data, rows)
    if stands != ('standing', len(rows) // why.derivation.WIDTH):
        raise Stop(NOT_RUN, f'the checker does not accept the rows of the library: {stands[0]} {stands[1]:,}')
    return why.steps(packer, source, data, rows, fact)


def listed_rows(data):
    """The rows of all that a register concludes, and of its clash, by the library."""
    budget = min(library.figure(data)[1], library.MOST_BUDGET)
    individuals, width = f.read(data).counts[f.INDIVIDUALS], why.derivation.WIDTH
    got = library.saturate_rows(data, budget, 2 * budget, 3 * budget, width * (budget + individuals * (individuals - 1) // 2 + 1))
    if got.end not in (library.FINISHED, library.CLASH):
        raise Stop(conclusions.SPENT, f'spent: the conclusions have more types and edges than the budget of {budget:,}')
    # every row has a rule, and behind the last there are 0s
    rules = got.pairs[::width]
    return got.pairs[:width * (rules.index(0) if 0 in rules else len(rules))]


def conclude(args):
    if args.readers and args.reader is None:
        raise Stop(NOT_RUN, '--readers says who may read what, for the one that --reader names')
    if args.reader is not None or args.day is not None:
        return conclude_part(args)
    packer = packed(args.file, args.strict, MOST_BYTES if args.budget is None else None)
    data = packer.data()
    book = f.read(data)
    budget = args.budget if args.budget is not None or args.program else needed_budget(data)
    run = run_program(args.program, data, book) if budget is None else run_library(data, book, budget)
    status, text = conclusions.write(run, book, len(data), packer.names(), budget)
    print(text, end='')
    return status


def conclude_part(args):
    """What one reader may conclude, or is concluded on a day, or both. The run is on the whole book; what is printed, and the
    budget, come from the part of it that counts."""
    if args.program:
        option, what = ('--day', 'day') if args.reader is None else ('--reader', 'reader')
        raise Stop(NOT_RUN, f'{option} takes the library: the program names no {what}')
    packer = packed(args.file, args.strict, None)
    data, given = packer.data(), packer.names()
    part, reader = f.read(data), None
    if args.reader is not None:
        reader = chosen_reader(args.readers or re.sub(SUFFIX, '', args.file) + '.readers', args.reader, given)
        part = readers.part(part, reader)
    if args.day is not None:
        part = days.part(part, args.day)
    try:
        budget = args.budget
        if budget is None:
            budget = min(library.figure(written(part))[1], library.MOST_BUDGET)
        run = conclusions.run_library(data, part.counts, budget, reader, args.day)
    except library.NotBuilt as missing:
        raise Stop(NOT_RUN, str(missing)) from None
    status, text = conclusions.write(run, part, len(data), given, budget, reader, args.day)
    print(text, end='')
    return status


def ask(args):
    """Whether an individual is shown to be of a class expression."""
    if args.readers and args.reader is None:
        raise Stop(NOT_RUN, '--readers says who may read what, for the one that --reader names')
    packer = packed(args.file, args.strict, None)
    individual = asked(args.individual, membership.individual, packer)
    concept = asked(args.expression, membership.concept, packer)
    over = packer.over(None)
    if over:
        raise Stop(AT_FAULT, f'{args.expression}: {over[0].words}')
    data = packer.data()
    book, reader = f.read(data), None
    if args.reader is not None:
        reader = chosen_reader(args.readers or re.sub(SUFFIX, '', args.file) + '.readers', args.reader, packer.names())
        book = readers.part(book, reader)
    if args.day is not None:
        book = days.part(book, args.day)
    try:
        budget = args.budget
        if budget is None:
            budget = min(library.figure(written(book))[1], library.MOST_BUDGET)
        count = book.counts[f.INDIVIDUALS]
        got = library.judge(data, budget, 2 * budget, 3 * budget, count * (count - 1), individual, concept, reader and (reader.number, reader.table), args.day)
    except library.NotBuilt as missing:
        raise Stop(NOT_RUN, str(missing)) from None
    who = (f', as far as {reader.name} may read' if reader else '') + ('' if args.day is None else f', on {days.written(args.day)}')
    if got.end == library.SHOWN:
        print(f'shown: {args.individual} is {args.expression} in every world that fits {args.file}{who}')
        return DONE
    if got.end == library.NOT_SHOWN:
        print(f'not shown: {args.individual} is {args.expression}, by {args.file}{who}\n{membership.said(book, concept)}')
        return NOT_SHOWN
    if got.end == library.CLASH:
        print(f'clash: no world fits {args.file}{who}')
        return conclusions.CLASH
    print(f'spent: the conclusions have more types and edges than the budget of {budget:,}')
    return conclusions.SPENT


def asked(text, find, packer):
    """The number of what is named on the command line."""
    try:
        return find(packer, text)
    except Fault as fault:
        raise Stop(AT_FAULT, f'{text}: {fault.words}') from None


def written(book):
    """The bytes of a book."""
    return f.write(book.counts, [(kind, *fields) for kind, fields in book.concepts], [(kind, *fields) for kind, _, fields in book.statements], book.marks)


def chosen_reader(path, name, given):
    """The reader of a name, by the file that says who may read what."""
    list_ = Source(path, decoded(path, read_bytes(path)))
    try:
        return readers.chosen(readers.read(list_.text, given), name)
    except Fault as fault:
        raise Stop(AT_FAULT, *list_.said(fault)) from None


def needed_budget(data):
    """The figure as budget, where it is more than the program's and a run may have it; else, or without the library, None."""
    try:
        figure = library.figure(data)[1]
    except library.NotBuilt:
        return None
    return figure if PROGRAM_BUDGET < figure <= library.MOST_BUDGET else None


def run_program(path, data, book):
    program = pathlib.Path(path or PROGRAM)
    if not path and not program.exists():
        raise Stop(NOT_RUN, 'the program target/bin/saturate is not built; `tools/build saturate` builds it; or name one with '
                   '--program (tools/saturate-reference is a slow stand-in)')
    try:
        # a path without a directory is one in this directory, not one to search for
        return conclusions.read(conclusions.run(program.absolute(), data), book.counts)
    except Fault as fault:
        raise Stop(NOT_RUN, f'{program}: {fault.words}') from None


def run_library(data, book, budget):
    try:
        return conclusions.run_library(data, book.counts, budget)
    except library.NotBuilt as missing:
        raise Stop(NOT_RUN, str(missing)) from None


def budget(text):
    """A budget on the command line."""
    if not re.fullmatch('[0-9]{1,9}', text) or int(text) > library.MOST_BUDGET:
        raise argparse.ArgumentTypeError(f'{text} is no number up to {library.MOST_BUDGET}')
    return int(text)


def day(text):
    """A date on the command line."""
    try:
        return days.number(text)
    except ValueError as wrong:
        raise argparse.ArgumentTypeError(str(wrong)) from None


def position(text):
    """A position on the command line."""
    if not re.fullmatch('[0-9]{1,19}', text):
        raise argparse.ArgumentTypeError(f'{text} is no position')
    return int(text)


def arguments():
    def command(name, run, what, about='', file='FILE', strict=True):
        made = commands.add_parser(name, help=what, description=f'{what}.\n\n{about}', epilog=STATUSES,
                                   formatter_class=argparse.RawDescriptionHelpFormatter)
        if file:
            made.add_argument('file', metavar=file)
        made.set_defaults(run=run)
        if strict:
            made.add_argument('--strict', action='store_true', help='refuse the file at the first axiom that a book cannot hold')
        return made
    parser = argparse.ArgumentParser(prog='register', description=ABOUT, epilog=STATUSES,
                                     formatter_class=argparse.RawDescriptionHelpFormatter)
    commands = parser.add_subparsers(dest='command', metavar='COMMAND', required=True)
    made = command('pack', pack, 'writes FILE.book, and FILE.names with the name of each number', PACKED)
    made.add_argument('--out', metavar='STEM', help='write STEM.book and STEM.names instead')
    made = command('show', show, 'prints a book in functional-style syntax', SHOWN, file='FILE.book', strict=False)
    made.add_argument('--names', metavar='FILE.names', help='names for the numbers; book:C0, book:R0, book:i0, book:s1 and so on else')
    made = command('clean', clean, 'writes a book without the statements that repeat an earlier one', CLEANED, file='FILE.book', strict=False)
    made.add_argument('-o', '--out', metavar='OUT', help='the file to write; FILE.clean.book else')
    made = command('small', small, 'shows a book of the list of every small book, or writes all of them', SMALL, file=None, strict=False)
    made = made.add_mutually_exclusive_group(required=True)
    made.add_argument('position', metavar='POSITION', type=position, nargs='?', help='which one, counted from 0')
    made.add_argument('--all', metavar='DIR', help='write each as DIR/POSITION.book')
    command('need', need, 'tells how many types and edges the conclusions of FILE can have at most, and the budget to give', NEEDED)
    made = command('is', ask, 'tells whether INDIVIDUAL is shown to be of the class expression EXPRESSION', ASKED)
    made.add_argument('individual', metavar='INDIVIDUAL')
    made.add_argument('expression', metavar='EXPRESSION')
    made.add_argument('--reader', metavar='NAME', help='by the statements that this reader may read')
    made.add_argument('--day', metavar='DATE', type=day, help='by the statements in force on this day, such as 2026-11-15')
    made.add_argument('--readers', metavar='FILE.readers', help='who may read which workshop; FILE with .readers in place of its ending else')
    made.add_argument('--budget', metavar='N', type=budget, help='a budget of N facts, up to 1000000')
    made = command('what-if', try_axiom, 'tells what the axiom AXIOM would add to the conclusions of FILE, or why it would clash', TRIED)
    made.add_argument('axiom', metavar='AXIOM')
    made.add_argument('--budget', metavar='N', type=budget, help='a budget of N facts, up to 1000000')
    made = command('why', explain, 'tells why FILE concludes a fact, or, without one, why it clashes', EXPLAINED)
    made.add_argument('fact', metavar='FACT', nargs='?', help="such as 'ClassAssertion(:Class :individual)', 'ObjectPropertyAssertion(:role :first :second)' or 'SameIndividual(:first :second)'")
    made.add_argument('--svg', metavar='OUT.svg', help='draw the same steps as a picture')
    made = command('conclude', conclude, 'packs FILE, runs the book and prints what it concludes, told and derived apart', CONCLUDED)
    made.add_argument('--reader', metavar='NAME', help='conclude what this reader may read')
    made.add_argument('--day', metavar='DATE', type=day, help='conclude what is in force on this day, such as 2026-11-15')
    made.add_argument('--readers', metavar='FILE.readers', help='who may read which workshop; FILE with .readers in place of its ending else')
    made = made.add_mutually_exclusive_group()
    made.add_argument('--budget', metavar='N', type=budget, help='run the library, with a budget of N facts, up to 1000000')
    made.add_argument('--program', metavar='PATH', help='the program to run on the book (target/bin/saturate of this repository else)')
    return parser


def main(argv=None):
    args = arguments().parse_args(argv)
    try:
        return args.run(args)
    except Stop as stop:
        for line in stop.lines:
            print(line, file=sys.stderr)
        return stop.status
