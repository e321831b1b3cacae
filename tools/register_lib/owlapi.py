"""Registers in the other syntaxes of OWL 2, as functional-style syntax through the OWL API. tools/ToFunctional.java, which
Java runs as it is, calls Debian's package libowlapi-java."""
import pathlib
import re
import shutil
import subprocess

from .text import counted
from .tokens import Fault

TURTLE, RDF_XML, OWL_XML, MANCHESTER = 'Turtle', 'RDF/XML', 'OWL/XML', 'Manchester syntax'
SUFFIXES = {'.ttl': TURTLE, '.nt': TURTLE, '.rdf': RDF_XML, '.owx': OWL_XML, '.omn': MANCHESTER}

SOURCE = pathlib.Path(__file__).resolve().parent.parent / 'ToFunctional.java'
JAVA = 'java'
JARS = pathlib.Path('/usr/share/java')  # where Debian's packages have theirs
NEEDED = ('owlapi-distribution slf4j-api slf4j-nop guava caffeine commons-io atinject-jsr330-api hppcrt rdf4j-model '
          'rdf4j-model-api rdf4j-model-vocabulary rdf4j-rio-api rdf4j-rio-turtle rdf4j-util commons-rdf-api xz').split()
INSTALL = 'a JDK of version 11 or later and the OWL API (on Debian: apt install default-jdk-headless libowlapi-java)'
# quick to start, and nothing that XML names is fetched
OPTIONS = ('-XX:TieredStopAtLevel=1', '-XX:+UseSerialGC', '-Djavax.xml.accessExternalDTD=', '-Djavax.xml.accessExternalSchema=')


class Missing(Exception):
    """What is not at hand, and how it can be."""


def syntax_of(data, suffix=''):
    """The syntax of a document other than functional style, by how it begins and else by the suffix of its file; None for
    functional style, and for what is not known."""
    text = data.decode('utf-16' if data[:2] in (b'\xff\xfe', b'\xfe\xff') else 'utf-8-sig', 'replace')
    text = re.sub(r'\A(?:\s|#[^\n\r]*)*', '', text)
    if re.match(r'(?:Prefix|Ontology)\s*\(', text):
        return None
    if re.match(r'<(?:\?xml|!|[\w.\-]+(?::[\w.\-]+)?\s)', text):
        root = re.match(r'(?s)(?:\s|<\?.*?\?>|<!--.*?-->|<!DOCTYPE[^\[>]*(?:\[.*?\]\s*)?>)*<(?:[\w.\-]+:)?([\w.\-]*)', text)
        return OWL_XML if root and root[1] == 'Ontology' else RDF_XML
    if re.match(r'@prefix\b|@base\b|(?i:prefix|base)\s+(?:[^\s:]*:)?\s*<|<[^\s<>]*>\s', text):
        return TURTLE
    if re.match(r'(?:Prefix|Namespace|Ontology|Import|Class|ObjectProperty|Individual):\s', text):
        return MANCHESTER
    return SUFFIXES.get(suffix.lower())


def at_hand():
    """Whether Java and the OWL API are where they are looked for."""
    return bool(shutil.which(JAVA)) and (JARS / f'{NEEDED[0]}.jar').exists()


def convert(data, syntax, base):
    """(text in functional-style syntax, what is in none of its axioms as sentences) of a document, whose relative names are
    read against a base IRI."""
    if not at_hand():
        raise Missing(f'this is {syntax}, and converting it takes {INSTALL}; or save it in functional-style syntax, in an '
                      'OWL editor')
    jars = ':'.join(str(JARS / f'{name}.jar') for name in NEEDED)
    done = subprocess.run([JAVA, *OPTIONS, '-cp', jars, SOURCE, syntax, base], input=data, capture_output=True, check=False)
    said = done.stderr.decode('utf-8', 'replace').splitlines()
    refused = [line.removeprefix('refused: ') for line in said if line.startswith('refused: ')]
    if refused:
        reason = re.sub(r'^lineNumber: (\d+); columnNumber: (\d+);', r'line \1, column \2:', refused[0])
        raise Fault(f'the OWL API cannot read this as {syntax}: {reason[:400]}')
    if done.returncode:
        raise Missing(f'this is {syntax}, and {SOURCE.name}, which converts it, cannot be run; it needs {INSTALL}: '
                      + ' '.join(said[:1]))
    notes = [line.split('\t', 2) for line in said if line.startswith(('triples\t', 'links\t'))]
    return done.stdout.decode(), [sentence(*note) for note in notes]


def sentence(kind, count, first):
    """What ToFunctional.java says of triples or links, in words."""
    if kind == 'triples':
        return f'since the OWL API finds no axiom in it: {counted(int(count), "triple")}, the first {first}'
    return f'since this file does not declare {first} as an object property: {counted(int(count), "link")}'
