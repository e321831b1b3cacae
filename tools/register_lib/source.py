"""The text of a register: its file read, converted where it is in another syntax than functional style, and places in
it, for messages."""
import pathlib

from . import owlapi
from .syntax import place
from .tokens import Fault

DONE, AT_FAULT, NOT_RUN = 0, 1, 2


class Stop(Exception):
    """A message for standard error, and the exit status."""

    def __init__(self, status, *lines):
        super().__init__(*lines)
        self.status, self.lines = status, lines


def read_bytes(path):
    try:
        return pathlib.Path(path).read_bytes()
    except OSError as error:
        raise Stop(NOT_RUN, f'{path}: cannot be read: {error.strerror}') from None


def decoded(path, data):
    try:
        return data.decode('utf-8-sig').replace('\r\n', '\n').replace('\r', '\n')
    except UnicodeDecodeError as error:
        line, column = place(data[:error.start].decode('utf-8-sig'), len(data[:error.start].decode('utf-8-sig')))
        raise Stop(AT_FAULT, f'{path}: line {line}, column {column}: not UTF-8 text') from None


class Source:
    """A text in functional-style syntax, with its file. In a converted one there are no lines and columns to name, so its
    places are shown. `left_out` says what the conversion found no axiom for."""

    def __init__(self, path, text, converted=False, left_out=()):
        self.path, self.text, self.converted, self.left_out = path, text, converted, left_out

    @classmethod
    def of(cls, path):
        """The register in a file, in whichever syntax."""
        data = read_bytes(path)
        syntax = owlapi.syntax_of(data, pathlib.Path(path).suffix)
        if not syntax:
            return cls(path, decoded(path, data))
        try:
            text, left_out = owlapi.convert(data, syntax, pathlib.Path(path).absolute().as_uri())
        except owlapi.Missing as missing:
            raise Stop(NOT_RUN, f'{path}: {missing}') from None
        except Fault as fault:
            raise Stop(AT_FAULT, f'{path}: {fault.words}') from None
        return cls(path, text, True, left_out)

    def first(self, at):
        """Where the first one of several is."""
        line, column = place(self.text, at)
        return f'the first: {self.line(line)[column - 1:][:200]}' if self.converted else f'first at line {line}, column {column}'

    def line(self, number):
        return self.text.split('\n')[number - 1]

    def said(self, fault):
        """A fault as lines: the file, the place, what is wrong; then the place itself."""
        if fault.at is None:
            return [f'{self.path}: {fault.words}']
        line, column = place(self.text, fault.at)
        start = max(0, column - 60)
        where = 'as functional-style syntax' if self.converted else f'line {line}, column {column}'
        return [f'{self.path}: {where}: {fault.words}', '    ' + self.line(line)[start:start + 120].replace('\t', ' '),
                '    ' + ' ' * (column - 1 - start) + '^']
