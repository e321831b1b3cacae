"""The words of functional-style syntax, each with its kind in the book and the form of its arguments: one table for
packing and showing.

A form: C class expression, R role, P role or chain of roles, I individual, N number. Behind the last letter: * any
number of them (a book has lists of none and of one, which OWL's grammar has not), + one or more, 2 two or more, ? it
may be absent."""
import difflib

import book_format as f

from .tokens import Fault

STATEMENTS = {
    'SubClassOf': (f.SUB_CLASS, 'CC'), 'EquivalentClasses': (f.EQUIVALENT, 'C2'), 'DisjointClasses': (f.DISJOINT, 'C2'),
    'InverseObjectProperties': (f.INVERSE, 'RR'), 'SubObjectPropertyOf': (f.SUB_ROLE, 'PR'),
    'TransitiveObjectProperty': (f.TRANSITIVE, 'R'), 'SymmetricObjectProperty': (f.SYMMETRIC, 'R'),
    'FunctionalObjectProperty': (f.FUNCTIONAL, 'R'), 'InverseFunctionalObjectProperty': (f.INVERSE_FUNCTIONAL, 'R'),
    'ObjectPropertyDomain': (f.DOMAIN, 'RC'), 'ObjectPropertyRange': (f.RANGE, 'RC'), 'SameIndividual': (f.SAME, 'I2'),
    'ClassAssertion': (f.CLASS_ASSERTION, 'CI'), 'ObjectPropertyAssertion': (f.ROLE_ASSERTION, 'RII'),
    'DifferentIndividuals': (f.DIFFERENT, 'I2'), 'NegativeObjectPropertyAssertion': (f.DENIAL, 'RII'),
}
CONCEPTS = {
    'ObjectHasSelf': (f.SELF, 'R'), 'ObjectComplementOf': (f.NOT, 'C'), 'ObjectIntersectionOf': (f.AND, 'C*'),
    'ObjectUnionOf': (f.OR, 'C*'), 'ObjectSomeValuesFrom': (f.SOME, 'RC'), 'ObjectAllValuesFrom': (f.ALL, 'RC'),
    'ObjectMinCardinality': (f.MIN, 'NRC?'), 'ObjectMaxCardinality': (f.MAX, 'NRC?'),
}
# said by several concepts of the book, with the same meaning
COMPOSED = {'ObjectOneOf': 'I+', 'ObjectHasValue': 'RI', 'ObjectExactCardinality': 'NRC?'}
STATEMENT_WORDS = {kind: word for word, (kind, _) in STATEMENTS.items()}
CONCEPT_WORDS = {kind: word for word, (kind, _) in CONCEPTS.items()}

# the property of an annotation that says whose statement an axiom was
SOURCE = 'http://www.w3.org/2000/01/rdf-schema#isDefinedBy'

# and those that say the first and the last day on which it is in force; schema.org's names stand under two fronts, of which the
# first is written
SCHEMA = ('http://schema.org/', 'https://schema.org/')
DATE = 'http://www.w3.org/2001/XMLSchema#date'  # the datatype of a day
FIRST_DAY, LAST_DAY = ([front + name for front in SCHEMA] for name in ('validFrom', 'validThrough'))

# without a meaning for worlds, so nothing is lost
SILENT = {'Annotation', 'AnnotationAssertion', 'SubAnnotationPropertyOf', 'AnnotationPropertyDomain', 'AnnotationPropertyRange'}
# what no statement of the book says, with the way to say it where the rules act on that
UNHELD = {word: '' for word in (
    'Import DisjointObjectProperties ReflexiveObjectProperty IrreflexiveObjectProperty AsymmetricObjectProperty '
    'SubDataPropertyOf EquivalentDataProperties DisjointDataProperties DataPropertyDomain DataPropertyRange '
    'FunctionalDataProperty DatatypeDefinition HasKey '
    'DataPropertyAssertion NegativeDataPropertyAssertion DLSafeRule').split()}
UNHELD['EquivalentObjectProperties'] = 'SubObjectPropertyOf in both directions says the same'
UNHELD['DisjointUnion'] = 'EquivalentClasses with ObjectUnionOf, and DisjointClasses, say the same'
UNHELD_CONCEPTS = {'DataSomeValuesFrom', 'DataAllValuesFrom', 'DataHasValue', 'DataMinCardinality', 'DataMaxCardinality',
                   'DataExactCardinality'}
# words of other times and places, with how their meaning is written
ELSEWHERE = dict.fromkeys(('SubPropertyChainOf', 'PropertyChain', 'ObjectPropertyChain'),
                          'a chain is written SubObjectPropertyOf(ObjectPropertyChain(..) ..)')
# the words that stand in Ontology( ) itself, but for its annotations
AXIOMS = {'Declaration', *STATEMENTS, *UNHELD, *SILENT} - {'Annotation'}

TAKEN = {'C': ('a class expression', 'class expressions'), 'R': ('a role', 'roles'), 'P': ('a role or chain of roles', ''),
         'I': ('an individual', 'individuals'), 'N': ('a number', '')}
MANY = {'*': 'any number of', '+': 'one or more', '2': 'two or more'}


def check_form(node, form, args):
    """A fault unless the arguments are as many as the form says."""
    least = {'*': 0, '+': 1, '2': 2, '?': len(form) - 2}.get(form[-1], len(form))
    most = len(args) if form[-1] in MANY else len(form.rstrip('?'))
    if not least <= len(args) <= most:
        if form[-1] in MANY:
            what = f'{MANY[form[-1]]} {TAKEN[form[0]][1]}'
        else:
            what = ', then '.join(TAKEN[x][0] for x in form.rstrip('?')) + (' (may be absent)' if form[-1] == '?' else '')
        raise Fault(f'{node.word} takes {what}; here it has {len(args)} argument{"" if len(args) == 1 else "s"}', node.at)


def left_out(kind):
    """A kind that is left out, in words."""
    hint = UNHELD.get(kind)
    return f'{kind} ({hint})' if hint else kind


def unknown(node, what, known):
    """The fault of a word that is none of the known ones."""
    if node.word in ELSEWHERE:
        return Fault(f'{node.word} is no {what}; {ELSEWHERE[node.word]}', node.at)
    near = difflib.get_close_matches(node.word, sorted(known), 1)
    return Fault(f'{node.word} is no {what}' + (f'; did you mean {near[0]}?' if near else ''), node.at)
