"""OWL 2 functional-style syntax as trees: words with arguments, names, literals and numbers, each with the offset
where it begins. Names are full IRIs here; an anonymous individual is its `_:x`."""
import re
from collections import namedtuple

from .tokens import Fault, tokens

Node = namedtuple('Node', 'word args at')
Name = namedtuple('Name', 'iri at')
Literal = namedtuple('Literal', 'text at')
Number = namedtuple('Number', 'value at')

OWL = 'http://www.w3.org/2002/07/owl#'
STANDARD_PREFIXES = {'owl:': OWL, 'rdf:': 'http://www.w3.org/1999/02/22-rdf-syntax-ns#',
                     'rdfs:': 'http://www.w3.org/2000/01/rdf-schema#', 'xsd:': 'http://www.w3.org/2001/XMLSchema#'}
UNNAMED = '<_:'  # how OWL editors begin the name of a role that has none


def place(text, at):
    """Line and column of an offset, both from 1."""
    return text.count('\n', 0, at) + 1, at - text.rfind('\n', 0, at)


def unescaped(local):
    """What stands behind a prefix, without the backslashes of its escapes."""
    return re.sub(r'\\(.)', r'\1', local)


class Parser:
    """A document under reading. `axioms` are the words that stand in Ontology( ) itself and nowhere deeper."""

    def __init__(self, text, axioms):
        self.text, self.axioms, self.rest, self.prefixes = text, axioms, tokens(text), {}
        self.token = next(self.rest)

    def advance(self):
        """The token that stands here; the next one comes in its place."""
        token = self.token
        if token.kind != 'end':
            self.token = next(self.rest)
        return token

    def expect(self, what, kind, text=None):
        if self.token.kind != kind or text not in (None, self.token.text):
            raise Fault(f'expected {what}, found {self.token.text}', self.token.at)
        return self.advance()

    def document(self):
        """What stands in Ontology( ) behind its own IRIs; the prefixes are then in `prefixes`."""
        while self.token.text == 'Prefix':
            self.prefix()
        if self.token.text != 'Ontology':
            self.expect('Prefix( or Ontology(', 'none')
        ontology = self.tree()
        if self.token.kind != 'end':
            raise Fault(f'expected nothing behind the ) of Ontology(, found {self.token.text}', self.token.at)
        items, iris = list(ontology.args), 0
        while items and isinstance(items[0], Name) and iris < 2:
            del items[0]
            iris += 1
        for item in items:
            if not isinstance(item, Node):
                raise Fault('expected an axiom', item.at)
        return items

    def prefix(self):
        self.advance()
        self.expect('(', 'mark', '(')
        name = self.expect('a prefix such as ex:', 'short')
        if not name.text.endswith(':') or name.text.count(':') > 1:
            raise Fault(f'expected a prefix such as ex:, found {name.text}', name.at)
        if name.text in self.prefixes:
            raise Fault(f'the prefix {name.text} is declared twice', name.at)
        self.expect('=', 'mark', '=')
        self.prefixes[name.text] = self.expect('an IRI such as <http://example.org/register#>', 'full').text[1:-1]
        self.expect(')', 'mark', ')')

    def tree(self):
        """The word that stands here with its arguments. The nodes still open are kept in a list, so depth is free."""
        opened = []
        while True:
            if self.token.kind == 'word':
                word = self.advance()
                if self.token.text != '(':
                    raise Fault(f'expected ( behind {word.text}, or, if it is a name of your own, :{word.text} or '
                                f'<http://..#{word.text}>', word.at)
                self.advance()
                if word.text in self.axioms and len(opened) > 1:
                    line, column = place(self.text, opened[1].at)
                    raise Fault(f'{word.text}( begins inside {opened[1].word}( of line {line}, column {column}, which is '
                                'not closed', word.at)
                opened.append(Node(word.text, [], word.at))
            elif self.token == ('mark', '(', self.token.at) and opened[-1].word == 'HasKey':
                opened.append(Node('', [], self.advance().at))  # its list of roles, or of data properties
            elif self.token.text == ')' and self.token.kind == 'mark':
                self.advance()
                node = opened.pop()
                if not opened:
                    return node
                opened[-1].args.append(node)
            elif self.token.kind == 'end':
                raise Fault(f'{opened[-1].word}( is not closed', opened[-1].at)
            else:
                opened[-1].args.append(self.leaf())

    def leaf(self):
        """The name, number or literal that stands here."""
        token = self.advance()
        if token.kind in ('full', 'short', 'anonymous'):
            return self.name(token)
        if token.kind == 'number':
            # twelve digits are above every bound of a book
            return Number(int(token.text.lstrip('0')[:12] or 0), token.at)
        if token.kind == 'string':
            if self.token.kind == 'tag':
                self.advance()
            elif self.token.text == '^^':
                self.advance()
                if self.token.kind not in ('full', 'short'):
                    raise Fault(f'expected the IRI of a datatype, found {self.token.text}', self.token.at)
                self.name(self.advance())
            return Literal(token.text, token.at)
        raise Fault(f'expected a name, a word or ), found {token.text}', token.at)

    def name(self, token):
        if token.kind == 'full':
            # no IRI begins with _:, and what an OWL editor writes so stays in its brackets
            return Name(token.text if token.text.startswith(UNNAMED) else token.text[1:-1], token.at)
        if token.kind == 'anonymous':
            return Name(token.text, token.at)
        prefix, local = re.match('([^:]*:)(.*)', token.text).groups()
        if not local:
            raise Fault(f'expected a name, found the prefix {prefix} alone', token.at)
        if prefix not in self.prefixes and prefix not in STANDARD_PREFIXES:
            raise Fault(f'the prefix {prefix} is not declared', token.at)
        return Name(self.prefixes.get(prefix, STANDARD_PREFIXES.get(prefix)) + unescaped(local), token.at)
