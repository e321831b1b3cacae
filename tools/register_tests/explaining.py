"""Why a register concludes a fact, or clashes."""
import itertools
import re
import tempfile
import unittest
import xml.etree.ElementTree as xml

import rows as derivation
from register_lib import library, why
from register_lib.packer import Packer
from register_lib.source import Source

from .common import HEAD, ROOT, register

CLASHING, PLATES = ROOT / 'examples' / 'clash.ofn', ROOT / 'examples' / 'plates.ofn'
LINK = 'ObjectPropertyAssertion(:readAgainst :serial_412 :bar_440)'
CLASH_STEPS = '''SubClassOf(:A :B)
DisjointClasses(:B :C)
SameIndividual(:x :y)
ClassAssertion(:A :x)
ClassAssertion(:C :y)
'''


def steps(text, fact=None):
    """The steps that the listing in plain Python gives, without the library."""
    packer = Packer(text)
    packer.pack()
    data = packer.data()
    return why.steps(packer, Source('r.ofn', text), data, derivation.listing(data), fact and why.wanted(fact, packer))


class Steps(unittest.TestCase):
    def test_facts_before_what_follows(self):
        for found in (steps(CLASHING.read_text()), steps(PLATES.read_text(), LINK)):
            for step in found:
                self.assertTrue(all(n < step.number for n in step.premises))
            rested = {n for step in found for n in step.premises}
            self.assertEqual(rested, {step.number for step in found[:-1]})

    def test_a_clash_names_what_it_used(self):
        text = HEAD + CLASH_STEPS + ')'
        last = steps(text)[-1]
        self.assertEqual((last.fact, [line for line, _ in last.axioms]), ('no world fits', [4]))
        shared = next(step for step in steps(text) if 'two names' in step.rule)
        self.assertEqual(shared.axioms, [(5, 'SameIndividual(:x :y)')])

    def test_told_facts_have_their_line(self):
        self.assertEqual(why.text(steps(HEAD + 'ClassAssertion(:A :x)\n)', 'ClassAssertion(:A :x)')),
                         '1. ClassAssertion(:A :x)\n   told\n   line 3: ClassAssertion(:A :x)\n')

    def test_an_inverse_is_turned(self):
        found = steps(HEAD + 'ObjectPropertyAssertion(:p :x :y)\n)', 'ObjectPropertyAssertion(ObjectInverseOf(:p) :y :x)')
        self.assertEqual(found[0].fact, 'ObjectPropertyAssertion(:p :x :y)')

    def test_why_two_are_one(self):
        found = steps(PLATES.read_text(), 'SameIndividual(:serial_412 :top_of_billet_17)')
        self.assertEqual(found[-1].fact, 'SameIndividual(:top_of_billet_17 :serial_412)')
        self.assertEqual(len(found[-1].premises), 2)
        told = steps(HEAD + 'SameIndividual(:x :y)\nSameIndividual(:z :y)\n)', 'SameIndividual(:z :x)')
        self.assertEqual([(step.fact, [line for line, _ in step.axioms]) for step in told], [('SameIndividual(:x :z)', [3, 4])])

    def test_what_is_denied(self):
        edges = 'ObjectPropertyAssertion(:p :x :y)\nObjectPropertyAssertion(:p :x :z)\n'
        joined = steps(HEAD + 'FunctionalObjectProperty(:p)\n' + edges + 'DifferentIndividuals(:z :y)\n)')[-2:]
        self.assertEqual([step.fact for step in joined], ['SameIndividual(:y :z)', 'no world fits'])
        self.assertEqual((joined[1].rule, joined[1].axioms), (why.DENIED, [(6, 'DifferentIndividuals(:z :y)')]))
        told = steps(HEAD + 'SameIndividual(:x :y)\nSameIndividual(:y :z)\nDifferentIndividuals(:x :z)\n)')
        self.assertEqual([(step.fact, step.premises, [line for line, _ in step.axioms]) for step in told], [('no world fits', [], [3, 4, 5])])
        linked = steps(HEAD + edges + 'NegativeObjectPropertyAssertion(ObjectInverseOf(:p) :z :x)\n)')
        self.assertEqual([(step.fact, [line for line, _ in step.axioms]) for step in linked], [('ObjectPropertyAssertion(:p :x :z)', [4]), ('no world fits', [5])])

    def test_what_is_not_concluded(self):
        self.assertIsNone(steps(HEAD + 'ClassAssertion(:A :x)\nClassAssertion(:B :y)\n)', 'ClassAssertion(:B :x)'))
        self.assertIsNone(steps(HEAD + 'ClassAssertion(:A :x)\n)'))

    def test_every_clash_of_markers_names_its_axioms(self):
        text = HEAD + '''FunctionalObjectProperty(:p)
SubClassOf(:A ObjectSomeValuesFrom(:p :C))
SubClassOf(:B ObjectSomeValuesFrom(:p :D))
DisjointClasses(:C :D)
ClassAssertion(:A :x)
ClassAssertion(:B :x)
ClassAssertion(:E :x)
)'''
        last = steps(text)[-1]
        self.assertEqual([line for line, _ in last.axioms], [3, 4, 5, 6])
        self.assertEqual(len(last.premises), 2)


class Picture(unittest.TestCase):
    def test_boxes_apart_and_text_inside(self):
        for found in (steps(CLASHING.read_text()), steps(PLATES.read_text(), LINK), steps(HEAD + CLASH_STEPS + ')')):
            laid = why.boxes(found)
            for a, b in itertools.combinations(laid, 2):
                self.assertTrue(a.left + a.width <= b.left or b.left + b.width <= a.left or a.top + a.height <= b.top or b.top + b.height <= a.top)
            drawn = xml.fromstring(why.svg(found))
            width, height = int(drawn.get('width')), int(drawn.get('height'))
            texts = [x for x in drawn if x.tag.endswith('text')]
            self.assertEqual(len(texts), sum(len(box.lines) for box in laid))
            for box in laid:
                self.assertTrue(0 <= box.left and 0 <= box.top and box.left + box.width <= width and box.top + box.height <= height)
                self.assertTrue(all(len(line) * why.LETTER + 2 * why.PAD <= box.width + 1 for line in box.lines))
            for x in texts:
                left, base, long = (float(x.get(key)) for key in ('x', 'y', 'textLength'))
                self.assertTrue(any(b.left <= left and left + long <= b.left + b.width and b.top <= base <= b.top + b.height for b in laid))

    def test_lanes(self):
        """What joins the boxes goes past none of them, and no two lanes lie on one another."""
        for found in (steps(CLASHING.read_text()), steps(PLATES.read_text(), LINK), steps(HEAD + CLASH_STEPS + ')')):
            laid = why.boxes(found)
            drawn = why.lanes(laid)
            self.assertEqual(sum(len(lane.users) for lane in drawn), sum(len(step.premises) for step in found))
            self.assertTrue(all(0 < lane.left < box.left for lane in drawn for box in laid))
            runs = [(lane.left, lane.box.top + lane.box.height - why.PAD // 2, max(at for _, at in lane.users)) for lane in drawn]
            self.assertTrue(all(start < end for _, start, end in runs))
            for (x, start, end), (y, begin, stop) in itertools.combinations(runs, 2):
                self.assertTrue(x != y or end < begin or stop < start)
            for lane in drawn:
                self.assertTrue(all(box.top < at < box.top + box.height for box, at in lane.users))

    def test_below_what_it_rests_on(self):
        laid = {box.step.number: box for box in why.boxes(steps(PLATES.read_text(), LINK))}
        for box in laid.values():
            self.assertTrue(all(laid[n].top + laid[n].height < box.top for n in box.step.premises))


class Command(unittest.TestCase):
    def setUp(self):
        try:
            library.loaded('zamoluvel_saturate_rows')
        except library.NotBuilt:
            self.skipTest('the built library')

    def test_the_examples(self):
        status, out, err = register('why', CLASHING)
        self.assertEqual((status, err), (0, ''))
        self.assertIn('no world fits\n', out)
        status, out, err = register('why', PLATES, LINK)
        self.assertEqual((status, out.count(LINK)), (0, 1))
        self.assertTrue(re.search(r'functional role.*from', out))

    def test_a_picture(self):
        with tempfile.TemporaryDirectory() as folder:
            self.assertEqual(register('why', CLASHING, '--svg', f'{folder}/out.svg')[0], 0)
            xml.parse(f'{folder}/out.svg')

    def test_other_ends(self):
        self.assertEqual(register('why', PLATES), (3, '', f'{PLATES}: it does not clash; name a fact\n'))
        self.assertEqual(register('why', PLATES, 'ClassAssertion(:Billet :serial_412)')[0], 3)
        self.assertEqual(register('why', PLATES, 'ClassAssertion(:Nothing :serial_412)')[0], 1)
        self.assertEqual(register('why', PLATES, 'SubClassOf(:A :B)')[0], 1)
