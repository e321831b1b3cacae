"""Which short names are taken and written, held against the grammar of SPARQL that OWL 2's refers to."""
import re
import sys

from register_lib import names, tokens

from .common import HEAD, FileCase, packed

# SPARQL 1.1, productions 164 to 173
BASE = [(0x41, 0x5A), (0x61, 0x7A), (0xC0, 0xD6), (0xD8, 0xF6), (0xF8, 0x2FF), (0x370, 0x37D), (0x37F, 0x1FFF), (0x200C, 0x200D),
        (0x2070, 0x218F), (0x2C00, 0x2FEF), (0x3001, 0xD7FF), (0xF900, 0xFDCF), (0xFDF0, 0xFFFD), (0x10000, 0xEFFFF)]
DIGITS, UNDERSCORE, COLON = (0x30, 0x39), (0x5F, 0x5F), (0x3A, 0x3A)
LATER = [(0x2D, 0x2D), DIGITS, (0xB7, 0xB7), (0x300, 0x36F), (0x203F, 0x2040)]
ESCAPED = "_~.-!$&'()*+,;=/?#@%"

TAKEN = {
    'Hindi': 'हिन्दी', 'Thai': 'ที่นี่', 'Tamil': 'தமிழ்', 'pointed Hebrew': 'שָׁלוֹם', 'pointed Arabic': 'مُحَمَّد', 'Persian': 'می\u200cخواهم',
    'decomposed': 'e\u0301', 'a tie': 'x‿y', 'emoji': '😀', 'Greek': 'Ωμέγα', 'Chinese': '板', 'digits first': '1a', 'an underscore': '_',
    'a dot inside': 'a.b', 'a dash': 'a-', 'a middle dot': 'a·',
}
COLONS_AND_ESCAPES = {'a:b': 'a:b', ':': ':', 'a%20b': 'a%20b', r'a\,b': 'a,b', r'a\.': 'a.', r'\-a': '-a'}  # short: what it stands for
REFUSED = ['µ', '²', '¼', '①', 'aµ', 'a²', '-a', '·a', '\u0301e', 'a/b', 'a~b', 'a%2', 'a\\b', 'a×', '♀', 'a\u2003b', 'a\ufffe']


class ShortNames(FileCase):
    def characters(self, pattern, before, *ranges):
        """The pattern takes exactly these characters, each as the last one behind what stands before it."""
        pattern, inside = re.compile(pattern), {n for low, high in ranges for n in range(low, high + 1)}
        for n in (*range(0xD800), *range(0xE000, 0x10100), 0xEFFFF, 0xF0000, sys.maxunicode):
            if bool(pattern.fullmatch(before + chr(n))) != (n in inside):
                self.fail(f'U+{n:04X} behind {before!r}')

    def test_characters(self):
        """Every character, above U+10000 those at the ends of ranges, first and later in each kind of name."""
        self.characters(tokens.LOCAL, '', *BASE, UNDERSCORE, DIGITS, COLON)
        self.characters(tokens.LOCAL, 'a', *BASE, UNDERSCORE, *LATER, COLON)
        self.characters(tokens.SHORT, '', *BASE, UNDERSCORE, DIGITS)
        self.characters(tokens.SHORT, 'a', *BASE, UNDERSCORE, *LATER)
        self.characters(tokens.PREFIX.removesuffix(':'), '', *BASE)
        self.characters(tokens.PREFIX.removesuffix(':'), 'a', *BASE, UNDERSCORE, *LATER)

    def test_inside(self):
        """Dots stand inside and not at an end; each escape stands for its sign."""
        for text, taken in [('a..b', True), ('.a', False), ('a.', False), ('a.b.', False), ('a.-', True)]:
            self.assertEqual(bool(re.fullmatch(tokens.LOCAL, text)), taken, text)
            self.assertEqual(bool(re.fullmatch(tokens.SHORT, text)), taken, text)
            self.assertEqual(bool(re.fullmatch(tokens.PREFIX, text + ':')), taken, text)
        for n in range(0x80):
            self.assertEqual(bool(re.fullmatch(tokens.LOCAL, 'a\\' + chr(n))), chr(n) in ESCAPED, chr(n))

    def test_taken(self):
        """A short name is the IRI in full, and comes back short where SPARQL 1.0 has it too."""
        for local, full in {**{x: x for x in TAKEN.values()}, **COLONS_AND_ESCAPES}.items():
            with self.subTest(local):
                self.assertEqual(packed(HEAD + f'SubClassOf(:{local} <http://example.org/r#{full}>))'), packed(HEAD + 'SubClassOf(:A :A))'))
                known = names.Names({':': 'http://example.org/r#'}, [], [], [])
                self.assertEqual(known.short('http://example.org/r#' + full),
                                 f':{full}' if local in TAKEN.values() else f'<http://example.org/r#{full}>')
                packed(f'Prefix({TAKEN["Hindi"]}:=<urn:x#>) Ontology(Declaration(Class({TAKEN["Hindi"]}:{local})))')

    def test_refused(self):
        for local in REFUSED:
            with self.subTest(local):
                status, err = self.packed(HEAD + f'SubClassOf(:A :{local})\n)')
                self.assertEqual(status, 1)
                self.assertIn('a short name cannot have the sign', err)
                self.assertEqual(self.packed(HEAD + f'SubClassOf(:A <http://example.org/r#{local}>)\n)')[0], '\\' in local)

    def test_anonymous(self):
        """The names of anonymous individuals have neither colons nor escapes."""
        for label in TAKEN.values():
            packed(HEAD + f'ClassAssertion(:A _:{label}))')
        for label in COLONS_AND_ESCAPES:
            self.assertEqual(self.packed(HEAD + f'ClassAssertion(:A _:{label}))')[0], 1, label)
