"""The tokens of OWL 2 functional-style syntax: words, names, strings, numbers and marks, each with the offset where it
begins."""
import re
from collections import namedtuple

Token = namedtuple('Token', 'kind text at')

# the characters of names as in SPARQL 1.1: PN_CHARS_BASE, PN_CHARS, and the escapes PLX
BASE = ('A-Za-z\u00c0-\u00d6\u00d8-\u00f6\u00f8-\u02ff\u0370-\u037d\u037f-\u1fff\u200c\u200d\u2070-\u218f\u2c00-\u2fef'
        '\u3001-\ud7ff\uf900-\ufdcf\ufdf0-\ufffd\U00010000-\U000effff')
CHARS = BASE + r'_0-9\-\u00b7\u0300-\u036f\u203f\u2040'
ESCAPE = r'''%[0-9A-Fa-f]{2}|\\[_~.\-!$&'()*+,;=/?\#@%]'''
# behind a prefix: PN_LOCAL; SHORT is that of SPARQL 1.0, without colons and escapes, for writing and anonymous names
LOCAL = rf'(?:[{BASE}_0-9:]|{ESCAPE})(?:(?:[{CHARS}.:]|{ESCAPE})*(?:[{CHARS}:]|{ESCAPE}))?'
SHORT = rf'[{BASE}_0-9](?:[{CHARS}.]*[{CHARS}])?'
PREFIX = rf'(?:[{BASE}](?:[{CHARS}.]*[{CHARS}])?)?:'
TOKEN = re.compile(rf'''
    (?P<space> [ \t\n]+ | \#[^\n]* )
  | (?P<full> <[^\x00-\x20<>"{{}}|^`\\]*> )
  | (?P<string> "(?:[^"\\]|\\[\s\S])*" )
  | (?P<anonymous> _:{SHORT} )
  | (?P<short> {PREFIX}(?:{LOCAL})? )
  | (?P<number> [0-9]+ )
  | (?P<word> [A-Za-z]\w* )
  | (?P<tag> @[A-Za-z]+(?:-[A-Za-z0-9]+)* )
  | (?P<mark> \^\^ | [()=] )
''', re.VERBOSE)


class Fault(Exception):
    """What is wrong with a file, and the offset where, if there is one."""

    def __init__(self, words, at=None):
        super().__init__(words)
        self.words, self.at = words, at


def tokens(text):
    """The tokens of a text, and one of kind `end` behind them."""
    at, before = 0, Token('', '', 0)
    while at < len(text):
        found = TOKEN.match(text, at)
        if not found or found.lastgroup == 'short' and before.kind == 'anonymous':
            raise unexpected(text[at], at, before)
        before = Token(found.lastgroup, found.group(), at)
        if before.kind != 'space':
            yield before
        at = found.end()
    yield Token('end', 'the end of the file', at)


def unexpected(sign, at, before):
    """The fault of a sign that begins no token and stands directly behind another token."""
    if sign == '"':
        return Fault('a string begins here that is not closed', at)
    if sign == '<':
        return Fault('an IRI begins here that is not closed, or has a sign that an IRI cannot have', at)
    if before.kind in ('short', 'anonymous') and sign == '.':
        return Fault(f'{before.text}. ends in a dot, which a short name cannot; write its IRI in full, in < >', before.at)
    if before.kind in ('short', 'anonymous') and sign not in ',;':
        return Fault(f'a short name cannot have the sign {sign!r} here; write its IRI in full, in < >', at)
    if before.kind == 'tag' and sign == '_':
        return Fault(f'the language tag {before.text}_.. has _ where - belongs, as in @en-GB', before.at)
    return Fault(f'unexpected sign {sign!r}', at)
