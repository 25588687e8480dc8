"""The functions of a text that reading accepts, whatever its white space, comments and spellings of numbers and names."""
import re

from .programs import Function, Row, contents, spelling
from .tables import INSTRUCTIONS

# A quote directly behind a backslash is part of a name.
TOKENS = re.compile(r"(?:[ \t\r\n]|//[^\n]*)*(?:('(?:[^']|(?<=\\)')+?(?<!\\)'|[A-Za-z._][A-Za-z._0-9]*|[+-]?(?:0x[0-9a-fA-F]+|[0-9]+)|[{}(),;=])|$)")


class Tokens:
    def __init__(self, text):
        self.text, self.at = text.decode('latin-1'), 0

    def peek(self):
        return TOKENS.match(self.text, self.at).group(1)

    def take(self, expected=None):
        m = TOKENS.match(self.text, self.at)
        self.at = m.end()
        token = m.group(1)
        assert expected is None or token == expected, (expected, token, m.start())
        return spelling(contents(token)) if token[0] == "'" else token

    def list(self, item):
        """Items parted by commas, in parentheses."""
        self.take('(')
        items = []
        while self.peek() != ')':
            if items:
                self.take(',')
            items.append(item())
        self.take(')')
        return items


def number(word):
    sign = -1 if word[0] == '-' else 1
    digits = word.lstrip('+-')
    return sign * int(digits, 16 if digits.startswith('0x') else 10)


def row(tokens):
    word, target = tokens.take(), None
    if word not in INSTRUCTIONS:
        target = word
        tokens.take('=')
        word = tokens.take()
    sources = []
    while tokens.peek() not in '(;':
        if sources:
            tokens.take(',')
        sources.append(tokens.take())
    operand = tokens.list(tokens.take) if tokens.peek() == '(' else None
    tokens.take(';')
    return Row(word, target, tuple(sources), number(operand[0]) if word.startswith('load.') else operand)


def block(tokens):
    tokens.take('block')
    name, rows = tokens.take(), []
    tokens.take('{')
    while tokens.peek() != '}':
        rows.append(row(tokens))
    tokens.take('}')
    return name, rows


def register(tokens):
    tokens.take('register')
    declared = tokens.take(), tokens.take()
    tokens.take(';')
    return declared


def function(tokens):
    tokens.take('function')
    ssa = tokens.peek() == 'ssa'
    if ssa:
        tokens.take()
    f = Function(result=tokens.take(), name=tokens.take(), ssa=ssa)
    f.params = tokens.list(lambda: (tokens.take(), tokens.take()))
    tokens.take('{')
    while tokens.peek() == 'register':
        f.registers.append(register(tokens))
    while tokens.peek() == 'block':
        f.blocks.append(block(tokens))
    tokens.take('}')
    return f


def parse(text):
    tokens, functions = Tokens(text), []
    while tokens.peek() is not None:
        functions.append(function(tokens))
    return functions
