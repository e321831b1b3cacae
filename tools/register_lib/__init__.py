"""The parts of tools/register: tokens, trees and words of OWL 2 functional-style syntax, other syntaxes, names, packing, text,
the library, conclusions."""
