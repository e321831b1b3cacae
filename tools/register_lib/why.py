"""Why a register concludes a fact, or clashes: the steps that it rests on, as text and as a picture. They are rows of a
derivation (request No. 6); none is shown that the proved checker does not accept."""
import copy
import html
from collections import namedtuple

import book_format as f
import rows as derivation

from .syntax import Name, Node, Parser, place
from .text import Writer
from .tokens import Fault

RULES = {
    1: 'told', 2: 'a class is under another, or equivalent', 3: 'a role is the inverse of another, or symmetric',
    4: 'a role is above a path of roles, or transitive', 5: 'domain or range of a role', 6: 'one individual under two names',
    7: 'fillers of a functional role are one individual', 8: 'classes that nothing can have both',
}

TOLD = 'told to be the same individual'
DENIED = 'an axiom denies it'

# its number among those shown, the fact as an axiom, the rule in words, the numbers of the steps that it rests on, and the
# register's axioms that it used, as (line, axiom)
Step = namedtuple('Step', 'number fact rule premises axioms')


def wanted(text, packer):
    """The fact that a text in functional-style syntax names."""
    parser = Parser(''.join(f'Prefix({p}=<{iri}>)\n' for p, iri in packer.prefixes.items()) + f'Ontology(\n{text}\n)', ())
    items = parser.document()
    node = items[0] if len(items) == 1 else None
    given = packer.names().lists

    def number(kind, tree, what):
        if not isinstance(tree, Name):
            raise Fault(f'expected the name of {what}')
        if tree.iri not in given[kind]:
            raise Fault(f'the register has no {what.split(" ", 1)[1]} {packer.names().short(tree.iri)}')
        return given[kind].index(tree.iri)
    if node and node.word == 'ClassAssertion' and len(node.args) == 2:
        return 't', number(f.INDIVIDUALS, node.args[1], 'an individual'), number(f.CLASSES, node.args[0], 'a class')
    if node and node.word == 'ObjectPropertyAssertion' and len(node.args) == 3:
        role, a, b = node.args
        if isinstance(role, Node) and role.word == 'ObjectInverseOf' and len(role.args) == 1:
            role, a, b = role.args[0], b, a
        return ('e', number(f.ROLES, role, 'a role'), *(number(f.INDIVIDUALS, x, 'an individual') for x in (a, b)))
    if node and node.word == 'SameIndividual' and len(node.args) == 2:
        a, b = sorted(number(f.INDIVIDUALS, x, 'an individual') for x in node.args)
        if a == b:
            raise Fault('each individual is the same as itself')
        return 'p', a, b
    raise Fault('a fact is ClassAssertion(:Class :individual), ObjectPropertyAssertion(:role :first :second) or SameIndividual(:first :second)')


def resting(rows, last):
    """The numbers of the rows that a row rests on, and its own, in their order."""
    found, waiting = set(), [last]
    while waiting:
        k = waiting.pop()
        if k not in found:
            found.add(k)
            waiting += [x for x in rows[k][2:5] if x != derivation.NONE]
    return sorted(found)


def linked(book, a, b):
    """The told-same statements, one after the other, that make two individuals one; None where none do."""
    ways, waiting = {a: []}, [a]
    for x in waiting:
        for k, (kind, _, pair) in enumerate(book.statements):
            for y in pair if kind == f.SAME and x in pair else ():
                if y not in ways:
                    ways[y] = ways[x] + [k]
                    waiting.append(y)
    return ways.get(b)


def clashing(book, facts):
    """Statements without any of which the facts would not clash."""
    kept = [k for k, (kind, *_) in enumerate(book.statements)
            if kind in (f.DISJOINT, f.FUNCTIONAL, f.INVERSE_FUNCTIONAL, f.SUB_CLASS, f.EQUIVALENT, f.SAME, f.DIFFERENT, f.DENIAL)]

    def clash(numbers):
        part = copy.copy(book)
        part.statements = [book.statements[k] for k in numbers]
        return derivation.Checker(part).clashes(facts)
    size = len(kept)
    while size:
        at = 0
        while at < len(kept):
            less = kept[:at] + kept[at + size:]
            if clash(less):
                kept = less
            else:
                at += size
        size //= 2
    return kept


def changed(before, claim):
    """The individuals of a fact beside those of another that has the same class, or role; None where it has not."""
    same = before[0] == claim[0] and (before[2] == claim[2] if claim[0] == 't' else before[1] == claim[1])
    return same and list(zip(before[1:2], claim[1:2]) if claim[0] == 't' else zip(before[2:], claim[2:]))


def used(book, checker, rows, k):
    """The numbers of the statements that row k used."""
    rule, statement, *earlier = rows[k][:5]
    facts = [checker.claim(rows[x]) for x in earlier if x != derivation.NONE]
    if rule == 6:
        claim = checker.claim(rows[k])

        def told(a, b):
            """The statements by which one is the other; none for one by its joining, None where it is neither."""
            return [] if ('p', *sorted((a, b))) in facts else linked(book, a, b)
        ways = ([told(a, b) for a, b in pairs] for pairs in (changed(x, claim) for x in facts if x[0] != 'p') if pairs)
        return list(dict.fromkeys(n for way in next(way for way in ways if None not in way) for n in way))
    if rule == 8:
        return clashing(book, set(facts))
    return [statement]


def written(names, claim):
    """What is claimed, as an axiom."""
    if claim == 'clash':
        return 'no world fits'
    if claim[0] == 't':
        return f'ClassAssertion({names.of(f.CLASSES, claim[2])} {names.of(f.INDIVIDUALS, claim[1])})'
    ends = ' '.join(names.of(f.INDIVIDUALS, x) for x in claim[-2:])
    return f'SameIndividual({ends})' if claim[0] == 'p' else f'ObjectPropertyAssertion({names.of(f.ROLES, claim[1])} {ends})'


def steps(packer, source, data, entries, fact=None):
    """The steps to a fact, or to a clash, each behind those that it rests on; None where the rows have no such row."""
    book, names = f.read(data), packer.names()
    writer, checker = Writer(book, names), derivation.Checker(book)
    rows = [entries[i:i + derivation.WIDTH] for i in range(0, len(entries), derivation.WIDTH)]
    claims = [checker.claim(row) for row in rows]

    def axiom(k):
        line = place(source.text, packer.places[k])[0]
        return line, writer.statement(*book.statements[k], book.marks[k])
    if (fact or 'clash') not in claims:
        way = linked(book, *fact[1:]) if fact and fact[0] == 'p' else None
        return way and [Step(1, written(names, fact), TOLD, [], [axiom(k) for k in way])]
    chosen = resting(rows, claims.index(fact or 'clash'))
    number = {k: n for n, k in enumerate(chosen, 1)}

    def step(k):
        by = used(book, checker, rows, k)
        rule = DENIED if any(book.statements[n][0] in (f.DIFFERENT, f.DENIAL) for n in by) else RULES[rows[k][0]]
        return Step(number[k], written(names, claims[k]), rule, sorted({number[x] for x in rows[k][2:5] if x != derivation.NONE}), [axiom(n) for n in by])
    return [step(k) for k in chosen]


def by(step):
    """The rule of a step, and what it rests on."""
    from_ = ' and '.join(map(str, step.premises)) if len(step.premises) < 3 else ', '.join(map(str, step.premises))
    return step.rule + (f'; from {from_}' if step.premises else '')


def text(found):
    """The steps as lines."""
    out = []
    for step in found:
        out.append(f'{step.number}. {step.fact}')
        out.append(f'   {by(step)}')
        out += [f'   line {line}: {axiom}' for line, axiom in step.axioms]
    return '\n'.join(out) + '\n'


# ---- the picture

LETTER, LINE, PAD, GAP, LANE, MOST = 7.3, 18, 10, 14, 12, 78  # of a letter and a line, around and between boxes, of a lane, in points; letters a line
Box = namedtuple('Box', 'step lines left top width height')
Lane = namedtuple('Lane', 'box left users')  # from a box down to those that rest on it, each with the height at which it is reached


def cut(words):
    return words if len(words) <= MOST else words[:MOST - 2] + ' …'


def places(found):
    """The lane of each step that another rests on, 0 the nearest to the boxes: none is taken twice at one height."""
    last = {n: step.number for step in found for n in step.premises}
    ends, out = [], {}
    for number in (step.number for step in found if step.number in last):
        free = next((k for k, end in enumerate(ends) if end <= number), len(ends))
        ends[free:free + 1] = [last[number]]
        out[number] = free
    return out


def boxes(found):
    """A box for each step, one below the other, so that each stands below all that it rests on, with room for the lanes on their left."""
    left, top, out = PAD + LANE * (1 + max(places(found).values(), default=-1)) + GAP, PAD, []
    for step in found:
        lines = [cut(x) for x in (f'{step.number}. {step.fact}', by(step), *(f'line {n}: {a}' for n, a in step.axioms))]
        width, height = round(max(map(len, lines)) * LETTER) + 2 * PAD, len(lines) * LINE + 2 * PAD
        out.append(Box(step, lines, left, top, width, height))
        top += height + GAP
    return out


def lanes(laid):
    """What joins the boxes, all of it on their left."""
    where, users = places([box.step for box in laid]), {}
    for box in laid:
        for k, n in enumerate(box.step.premises):
            users.setdefault(n, []).append((box, box.top + PAD + LANE * k))
    return [Lane(box, box.left - GAP - LANE * where[box.step.number], users[box.step.number]) for box in laid if box.step.number in users]


def svg(found):
    """The steps as a picture."""
    laid = boxes(found)
    width, height = max(b.left + b.width for b in laid) + PAD, max(b.top + b.height for b in laid) + PAD
    out = [f'<svg xmlns="http://www.w3.org/2000/svg" width="{width}" height="{height}" viewBox="0 0 {width} {height}" '
           'font-family="monospace" font-size="12">', f'<rect width="{width}" height="{height}" fill="white"/>']
    for lane in lanes(laid):
        start, end = lane.box.top + lane.box.height - PAD // 2, max(at for _, at in lane.users)
        out.append(f'<path d="M{lane.box.left} {start} H{lane.left} V{end}" stroke="#888888" fill="none"/>')
        for box, at in lane.users:
            out.append(f'<circle cx="{lane.left}" cy="{at}" r="2" fill="#888888"/>')
            out.append(f'<path d="M{lane.left} {at} H{box.left} m-5 -3 l5 3 l-5 3" stroke="#888888" fill="none"/>')
    for box in laid:
        out.append(f'<rect x="{box.left}" y="{box.top}" width="{box.width}" height="{box.height}" rx="4" '
                   f'fill="{"#ffffff" if box.step.premises else "#eef3f8"}" stroke="#444444"/>')
        for k, line in enumerate(box.lines):
            style = ' font-weight="bold"' if k == 0 else ' fill="#555555"'
            length = round(len(line) * LETTER)
            out.append(f'<text x="{box.left + PAD}" y="{box.top + PAD + LINE * k + 13}" textLength="{length}" '
                       f'lengthAdjust="spacingAndGlyphs"{style} xml:space="preserve">{html.escape(line)}</text>')
    return '\n'.join([*out, '</svg>', ''])
