"""Registers in Turtle, RDF/XML, OWL/XML and Manchester syntax: told by how they begin, and converted by the OWL API."""
import os
import pathlib
import re
import shutil
import subprocess
import tempfile
import unittest
from unittest import mock

from register_lib import owlapi
from register_lib.owlapi import MANCHESTER, OWL_XML, RDF_XML, TURTLE

from .common import PROGRAM, ROOT, STAND_IN, FileCase, register

HERE = pathlib.Path(__file__).resolve().parent
PLATES = HERE / 'plates.ttl'  # and .rdf, .owx, .omn; each is examples/plates.ofn in another syntax
TURTLE_HEAD = '''@prefix : <http://example.org/r#> .
@prefix owl: <http://www.w3.org/2002/07/owl#> .
@prefix rdfs: <http://www.w3.org/2000/01/rdf-schema#> .
'''


def facts(text):
    """The conclusions in a document as (told, derived) sets, without the order that the numbers give."""
    parts = [re.findall(r'^    (\w+)\((.*)\)$', part, re.MULTILINE) for part in text.split('# derived')]
    return [{(word, tuple(sorted(args.split())) if word == 'SameIndividual' else args) for word, args in part} for part in parts]


class Recognition(FileCase):
    def test_beginnings(self):
        rows = [
            ('Prefix(:=<urn:x>)', None), ('\ufeff# a comment\n\n Ontology (', None), ('', None), ('hello', None), ('Prefix :=<urn:x>)', None),
            ('SubClassOf(:A :B)', None),
            ('@prefix : <urn:x> .', TURTLE), ('# @base\n@base <urn:x> .', TURTLE), ('PREFIX ex: <urn:x>', TURTLE), ('base <urn:x>', TURTLE),
            ('<http://example.org/r> a owl:Ontology .', TURTLE), ('<urn:a>\n <urn:b> <urn:c> .', TURTLE),
            ('<?xml version="1.0"?>\n<rdf:RDF xmlns:rdf="x">', RDF_XML), ('<rdf:RDF\n xmlns:rdf="x">', RDF_XML), ('<?xml version="1.0"?>', RDF_XML),
            ('<!DOCTYPE rdf:RDF [ <!ENTITY o "Ontology>" > ]>\n<rdf:RDF >', RDF_XML), ('<!-- <Ontology > --><rdf:RDF >', RDF_XML),
            ('<?xml version="1.0"?>\n<!-- <rdf:RDF> -->\n<Ontology xmlns="x">', OWL_XML), ('<Ontology xmlns="x">', OWL_XML), ('<owl:Ontology xmlns:owl="x">', OWL_XML),
            ('Prefix: : <urn:x>', MANCHESTER), ('# c\nOntology: <urn:x>', MANCHESTER), ('Ontology:\nClass: A', MANCHESTER),
        ]
        for text, syntax in rows:
            self.assertEqual(owlapi.syntax_of(text.encode()), syntax, text)
        self.assertEqual(owlapi.syntax_of('<?xml version="1.0"?><Ontology >'.encode('utf-16')), OWL_XML)

    def test_suffixes(self):
        """The suffix decides where the beginning does not; functional style may stand in a file of any name."""
        self.assertEqual([owlapi.syntax_of(b'[] a :A .', suffix) for suffix in ('.ttl', '.TTL', '.omn', '.owl', '')],
                         [TURTLE, TURTLE, MANCHESTER, None, None])
        self.assertEqual(self.run_on('Ontology()', 'pack', name='file.ttl')[0], 0)
        self.assertEqual(self.run_on('Ontology()', 'pack', name='file.owl')[0], 0)

    def test_missing(self):
        """What to install is said where Java or the OWL API is not there, or Java cannot run the source."""
        with tempfile.TemporaryDirectory() as folder:
            script = pathlib.Path(folder, 'java')
            script.write_text('#!/bin/sh\necho error: no compiler >&2\nexit 1\n')
            script.chmod(0o755)
            (script.parent / 'owlapi-distribution.jar').touch()
            for name, value, words in [('JARS', script.parent / 'none', 'converting it takes'), ('JAVA', str(script.parent / 'none'), 'converting it takes'),
                                       ('JAVA', str(script), 'cannot be run; it needs')]:
                with mock.patch.multiple(owlapi, **{'JARS': script.parent, 'JAVA': str(script), name: value}):
                    status, out, err = register('conclude', PLATES)
                self.assertEqual((status, out), (2, ''), err)
                self.assertTrue(err.startswith(f'{PLATES}: this is Turtle, and '), err)
                self.assertIn(words, err)
                self.assertIn('apt install default-jdk-headless libowlapi-java', err)


@unittest.skipUnless(owlapi.at_hand() and shutil.which('javac'), f'conversions, which take {owlapi.INSTALL}')
class Conversion(FileCase):
    """Each conversion is a run of Java of a second or two."""

    def check_plates(self, status, out, err):
        """Such a version concludes what the functional one does, told and derived."""
        expected = (ROOT / 'examples' / 'plates.expected').read_text(encoding='utf-8')
        self.assertEqual((status, err), (0, ''))
        self.assertEqual(facts(out), facts(expected))
        self.assertEqual(len(facts(out)[1]), 13)
        self.assertEqual(out.split('\n')[:3], expected.split('\n')[:3])

    def test_plates(self):
        for suffix in ('.ttl', '.rdf', '.owx', '.omn'):
            with self.subTest(suffix):
                text = PLATES.with_suffix(suffix).read_bytes()
                self.check_plates(*self.run_on(text, 'conclude', '--strict', '--program', PROGRAM, name='file' + suffix))

    def test_left_out(self):
        """Imports, which are not fetched, links by a property that is not declared, triples in no axiom, and what a book
        cannot hold are told; names come through whole."""
        text = TURTLE_HEAD + '''<http://example.org/r> a owl:Ontology ; owl:imports <http://example.invalid/other> , <http://example.invalid/more> .
:p a owl:ObjectProperty . :A a owl:Class ; owl:hasKey ( :p ) .
:a a :A ; :p <http://example.org/r#b.> , :हिन्दी , :😀 , :a%20b ; :q :c , :d ; :note "x" ; rdfs:seeAlso :c . :e owl:foo :f .
'''
        status, out, err = self.run_on(text, 'conclude', '--program', PROGRAM, name='file.ttl')
        edges = [f':p :a {name}' for name in ('<http://example.org/r#b.>', ':हिन्दी', ':😀', '<http://example.org/r#a%20b>')]
        self.assertEqual((status, facts(out)), (0, [{('ClassAssertion', ':A :a'), *(('ObjectPropertyAssertion', edge) for edge in edges)}, set()]), err)
        self.assertEqual(err.splitlines(), [
            'file.ttl: left out, since the OWL API finds no axiom in it: 1 triple, the first <http://example.org/r#e> '
            '<http://www.w3.org/2002/07/owl#foo> <http://example.org/r#f>.',
            'file.ttl: left out, since this file does not declare <http://example.org/r#q> as an object property: 2 links',
            'file.ttl: left out, since a book cannot hold it: 2 Import, the first: Import(<http://example.invalid/more>)',
            'file.ttl: left out, since a book cannot hold it: 1 HasKey, the first: HasKey(:A (:p) ())'])

    def test_anonymous(self):
        """Individuals without a name keep apart, and get the same names on every run."""
        text = TURTLE_HEAD + ':p a owl:ObjectProperty .' + '\n'.join(
            f'_:b{n} :p _:b{7 * n % 41} , [] .' for n in range(41))
        first, second = (self.run_on(text, 'conclude', '--program', PROGRAM, name='file.ttl') for _ in range(2))
        self.assertTrue(first[1].startswith('# finished: 0 types, 82 edges, 0 same pairs\n'), first)
        self.assertEqual(first, second)

    def test_refused(self):
        """What the OWL API says of a file that it refuses."""
        text = '<Ontology xmlns="http://www.w3.org/2002/07/owl#"><Class></Ontology>'
        status, _, err = self.run_on(text, 'pack', name='file.owx')
        self.assertEqual(status, 1)
        self.assertTrue(err.startswith('file.owx: the OWL API cannot read this as OWL/XML: line 1, column '), err)

    def test_run(self):
        """./run takes such a file too."""
        done = subprocess.run([ROOT / 'run', PLATES], env={**os.environ, 'SATURATE': str(STAND_IN)}, capture_output=True, check=False)
        self.check_plates(done.returncode, done.stdout.decode(), done.stderr.decode())


class Converted(FileCase):
    """Files of which the conversion is known, so that Java is not run."""

    def converted(self, axioms, *args, notes=()):
        text = 'Prefix(:=<http://example.org/r#>)\n\nOntology(\n' + axioms + '\n)'
        with mock.patch.object(owlapi, 'convert', lambda data, syntax, base: (text, list(notes))):
            return self.run_on(TURTLE_HEAD, *args, name='file.ttl')

    def test_places(self):
        """There is no line and column to name, so the axiom stands in their place."""
        many = '\n'.join(f'Declaration(Class(:C{n}))' for n in range(257))
        self.assertEqual(self.converted(many, 'pack'), (
            1, '', 'file.ttl: as functional-style syntax: 257 classes, and a book has at most 256; :C256 is the first too many\n'
            '    Declaration(Class(:C256))\n                      ^\n'))

    def test_strict(self):
        for axioms, notes, words in [('HasKey(:A () (:d))', [], 'as functional-style syntax: a book cannot hold this: HasKey\n'),
                                     ('', ['since this and that: 1 link'], 'a book cannot hold this, since this and that: 1 link\n')]:
            status, _, err = self.converted(axioms, 'pack', '--strict', notes=notes)
            self.assertEqual(status, 1)
            self.assertTrue(err.startswith('file.ttl: ' + words), err)

    def test_pack(self):
        """The book is called as the register, whatever its suffix."""
        for name in ('plates.ttl', 'plates.owl', 'plates.ofn'):
            with tempfile.TemporaryDirectory() as folder, mock.patch.object(owlapi, 'convert', lambda *_: ('Ontology()', [])):
                pathlib.Path(folder, name).write_text(TURTLE_HEAD if name == 'plates.ttl' else 'Ontology()', encoding='utf-8')
                self.assertEqual(register('pack', pathlib.Path(folder, name))[::2], (0, ''))
                self.assertEqual({path.name for path in pathlib.Path(folder).iterdir()}, {name, 'plates.book', 'plates.names'})
