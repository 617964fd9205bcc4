"""The tree of a text, with the places of its tokens.

It was written from the document of the grammar alone and shares no code with the crates. It refuses no text properly.
"""
import re
from rules import Thing, up

GAP = re.compile(rb'(?:\s|\(\*.*?\*\)|//[^\n]*)*', re.S)
NAME = rb'[A-Za-z_][A-Za-z0-9_]{0,127}'
TOKEN = re.compile(rb'(?P<number>[A-Za-z]+#[-+]?[0-9A-Za-z_.#]*)|(?P<name>' + NAME + rb')|(?P<digits>\d+)|(?P<address>%[A-Za-z0-9.]+)|(?P<sign>:=|<=|>=|<>|[-:;,.()+*/=<>])')
HEADS = {'VAR': 'local', 'VAR_INPUT': 'input', 'VAR_OUTPUT': 'output', 'VAR_IN_OUT': 'inout', 'VAR_TEMP': 'temp'}
LEVELS = [{'OR'}, {'XOR'}, {'AND'}, {'=', '<>'}, {'<', '>', '<=', '>='}, {'+', '-'}, {'*', '/', 'MOD'}]
OPERATORS = {'OR': 'OR', 'XOR': 'XOR', 'AND': 'AND', '=': 'EQ', '<>': 'NE', '<': 'LT', '>': 'GT', '<=': 'LE', '>=': 'GE', '+': 'ADD', '-': 'SUB', '*': 'MUL', '/': 'DIV',
             'MOD': 'MOD'}


class Reader:
    """The tokens of a text with their places, and how far they are read."""

    def __init__(self, data):
        self.tokens, at = [], GAP.match(data).end()
        while at < len(data):
            m = TOKEN.match(data, at)
            self.tokens.append((m.group().decode(), at))
            at = GAP.match(data, m.end()).end()
        self.tokens.append(('', len(data)))
        self.k = 0

    def next(self):
        """The next token in capitals."""
        return up(self.tokens[self.k][0])

    def take(self, wanted=None):
        """Takes the next token with its place."""
        t = self.tokens[self.k]
        assert wanted is None or up(t[0]) == wanted, (wanted, t)
        self.k += 1
        return t

    def unit(self):
        """The POUs of the text."""
        pous = []
        while self.next():
            word = up(self.take()[0])
            p = Thing(program=word == 'PROGRAM', name=self.take(), variables=[])
            while self.next() in HEADS:
                self.block(p)
            p.body = self.statements()
            self.take('END_' + word)
            pous.append(p)
        return pous

    def block(self, p):
        """A block of declarations."""
        cls = HEADS[up(self.take()[0])]
        mark = up(self.take()[0]) if self.next() in ('CONSTANT', 'RETAIN') else ''
        while self.next() != 'END_VAR':
            v = Thing(name=self.take(), cls=cls, mark=mark, initial=None)
            if self.next() == 'AT':
                self.take(), self.take()
            self.take(':')
            v.type = self.take()
            if self.next() == ':=':
                self.take()
                v.initial = self.take()
            self.take(';')
            p.variables.append(v)
        self.take()

    def statements(self):
        """Statements up to a closing word or the next label."""
        found = []
        while self.next() and not self.next().startswith('END_') and not self.next().isdigit():
            found.append(self.statement())
        return found

    def statement(self):
        """A statement: its kind and parts; those of IF, WHILE and CASE have bodies, and those of CASE a label each."""
        word = self.next()
        if word in ('IF', 'WHILE', 'CASE'):
            self.take()
            s = Thing(kind=word, value=self.expression(0), labels=[], bodies=[])
            self.take({'IF': 'THEN', 'WHILE': 'DO', 'CASE': 'OF'}[word])
            if word == 'CASE':
                while self.next() != 'END_CASE':
                    s.labels.append(self.take())
                    self.take(':')
                    s.bodies.append(self.statements())
            else:
                s.bodies.append(self.statements())
            self.take('END_' + word)
        else:
            name = self.take()
            if self.take()[0] == ':=':
                s = Thing(kind=':=', target=name, value=self.expression(0), labels=[], bodies=[])
            else:
                s = Thing(kind='call', instance=name, args=[], labels=[], bodies=[])
                while self.next() != ')':
                    if s.args:
                        self.take(',')
                    formal = self.take()
                    self.take(':=')
                    s.args.append((formal, self.expression(0)))
                self.take()
        self.take(';')
        return s

    def expression(self, level):
        """An expression whose operators bind at least as tightly as the level."""
        if level == len(LEVELS):
            return self.operand()
        left = self.expression(level + 1)
        while self.next() in LEVELS[level]:
            f = OPERATORS[up(self.take()[0])]
            left = Thing(kind='operator', function=f, parts=[left, self.expression(level + 1)], at=left.at)
        return left

    def operand(self):
        """What stands between operators."""
        t, at = self.take()
        if up(t) == 'NOT':
            return Thing(kind='operator', function='NOT', parts=[self.operand()], at=at)
        if t == '(':
            e = self.expression(0)
            self.take(')')
            return e
        if '#' in t or up(t) in ('TRUE', 'FALSE'):
            return Thing(kind='literal', text=t, parts=[], at=at)
        if self.next() == '.':
            self.take()
            return Thing(kind='member', instance=(t, at), output=self.take(), parts=[], at=at)
        if self.next() != '(':
            return Thing(kind='name', name=(t, at), parts=[], at=at)
        self.take()
        e = Thing(kind='call', name=(t, at), parts=[self.expression(0)], at=at)
        while self.next() == ',':
            self.take()
            e.parts.append(self.expression(0))
        self.take(')')
        return e
