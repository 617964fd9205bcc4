"""Which condition a text breaks first, and where, read a second time.

It is for texts that the reader accepts. It was written from the documents of the text alone and shares no code with the crates. Each condition is
a search through all of the unit, with no thought for speed.

    python3 second/conditions.py TEXT ..

prints `ok`, or `plcx: text KIND at byte B`, for each text.
"""
import re
import sys
sys.dont_write_bytecode = True
sys.setrecursionlimit(10000)
import rules
from reading import OPERATORS, Reader
from rules import A, FUNCS, N, RANGE, STANDARD, Thing, up

ORDER = ['name', 'type', 'recursion', 'literal']
WRITTEN = set(OPERATORS.values()) | {'NOT'}
KEYWORDS = set('''PROGRAM END_PROGRAM FUNCTION_BLOCK END_FUNCTION_BLOCK FUNCTION END_FUNCTION VAR VAR_INPUT VAR_OUTPUT VAR_IN_OUT VAR_TEMP VAR_EXTERNAL
    VAR_GLOBAL END_VAR CONSTANT RETAIN AT IF THEN ELSE ELSIF END_IF WHILE DO END_WHILE CASE OF END_CASE FOR TO BY END_FOR REPEAT UNTIL END_REPEAT EXIT
    RETURN AND OR XOR NOT MOD TRUE FALSE'''.split())
LEAVES = {'TON': 6, 'TOF': 7, 'TP': 7, 'CTU': 6, 'CTD': 6, 'CTUD': 10, 'SR': 3, 'RS': 3, 'R_TRIG': 3, 'F_TRIG': 3}
RESERVED = KEYWORDS | {'EN', 'ENO'} | set(RANGE) | set(FUNCS) | set(STANDARD)


def number_of(text):
    """The type and the number of a literal, which may lie outside of its type."""
    if up(text) in ('TRUE', 'FALSE'):
        return 'BOOL', int(up(text) == 'TRUE')
    head, rest = up(text).split('#', 1)
    if rest in ('TRUE', 'FALSE'):
        return 'BOOL', int(rest == 'TRUE')
    if head in ('T', 'TIME'):
        sign, rest = (-1, rest[1:]) if rest[0] == '-' else (1, rest)
        micro = 0
        for n, d, u in re.findall(r'(\d+)(?:\.(\d+))?(MS|D|H|M|S)', rest.replace('_', '')):
            unit = {'D': 86400000, 'H': 3600000, 'M': 60000, 'S': 1000, 'MS': 1}[u]
            micro += int(n + (d or '')) * unit * 10 ** (9 - len(d or ''))
        return 'TIME', sign * (micro // 10 ** 9)
    rest = rest.replace('_', '')
    base, digits = rest.split('#') if '#' in rest else (10, rest)
    return head, int(digits, int(base))


def outcome(f, types):
    """The type that a function gives for inputs of these types, or None."""
    fixed, first, least, most, allowed, out = FUNCS[f]
    if not can_have(f, len(types)):
        return None
    classes = list(fixed.values()) + ['group'] * (len(types) - len(fixed))
    group = None
    for c, t in zip(classes, types):
        if c == 'lone' and t not in N or c in RANGE and t != c:
            return None
        if c == 'group':
            if group not in (None, t):
                return None
            group = t
    if group is not None and group not in (A if allowed is None else allowed):
        return None
    return group if out == 'group' else out


def can_have(f, count):
    fixed, first, least, most, _, _ = FUNCS[f]
    others = count - len(fixed)
    return others == 0 if first is None else least <= others <= most


class Unit:
    """A unit, and all that it breaks."""

    def __init__(self, data):
        self.pous = Reader(data).unit()
        self.broken = []
        self.first = {}
        for p in self.pous:
            self.first.setdefault(up(p.name[0]), p)
        chain = False
        for p in self.pous:
            self.p = p
            self.own_name(p.name, [q.name for q in self.pous])
            for v in p.variables:
                chain |= self.variable(v)
            for s in p.body:
                self.statement(s)
        if not chain:
            for p in self.pous:
                if self.size(p) > 2 ** 23:
                    self.tell('recursion', p.name)

    def tell(self, kind, place):
        self.broken.append((place if isinstance(place, int) else place[1], ORDER.index(kind)))

    def answer(self):
        if not self.broken:
            return 'ok'
        at, kind = min(self.broken)
        return 'plcx: text %s at byte %d' % (ORDER[kind], at)

    # declarations

    def own_name(self, word, all):
        if up(word[0]) in RESERVED or any(up(w[0]) == up(word[0]) and w[1] < word[1] for w in all):
            self.tell('name', word)

    def meaning(self, type):
        """What a type is: its name in capitals, a POU, or None where it is unknown."""
        t = up(type)
        if t in RANGE or t in STANDARD:
            return t
        p = self.first.get(t)
        return p if p and not p.program else None

    def variable(self, v):
        self.own_name(v.name, [w.name for w in self.p.variables])
        m = self.meaning(v.type[0])
        if m is None:
            self.tell('name', v.type)
        instance = m is not None and m not in RANGE
        if v.initial:
            t, n = number_of(v.initial[0])
            if not RANGE[t][0] <= n <= RANGE[t][1]:
                self.tell('literal', v.initial)
            if instance or m is not None and m != t:
                self.tell('type', v.initial)
        if instance and (v.cls != 'local' or v.mark == 'CONSTANT') or v.cls == 'inout' and self.p.program:
            self.tell('type', v.name)
        if self.chain(v, 17):
            self.tell('recursion', v.name)
            return True
        return False

    def chain(self, v, n):
        """A chain of n variables of user blocks starts there."""
        level = [v]
        for k in range(n):
            pous = {id(m): m for m in (self.meaning(w.type[0]) for w in level) if isinstance(m, Thing)}
            if not pous:
                return False
            level = [w for m in pous.values() for w in m.variables]
        return True

    def size(self, p):
        if not hasattr(p, 'size'):
            p.size = 0
            for v in p.variables:
                m = self.meaning(v.type[0])
                if v.cls in ('inout', 'temp'):
                    continue
                p.size += 1 + (self.size(m) if isinstance(m, Thing) else LEAVES.get(m, 0))
        return p.size

    # look-ups

    def own(self, name):
        """The first variable of that name in the POU."""
        return next((v for v in self.p.variables if up(v.name[0]) == up(name)), None)

    def part(self, m, name):
        """The class and the type of what stands first under a name in an instance, or None."""
        if m in STANDARD:
            for cls, pins in (('input', STANDARD[m][0]), ('output', STANDARD[m][1])):
                if up(name) in pins:
                    return cls, pins[up(name)]
            return None
        v = next((v for v in m.variables if up(v.name[0]) == up(name)), None)
        return v and (v.cls, self.meaning(v.type[0]))

    # expressions: each answers its type, or None where it has none that is known

    def expression(self, e):
        types = [self.expression(part) for part in e.parts]
        return getattr(self, 'of_' + e.kind)(e, types)

    def of_literal(self, e, types):
        t, n = number_of(e.text)
        if not RANGE[t][0] <= n <= RANGE[t][1]:
            self.tell('literal', e.at)
        return t

    def elementary(self, m, at):
        """A value of this type: an instance is none."""
        if m is None:
            return None
        if m in RANGE:
            return m
        self.tell('type', at)
        return None

    def of_name(self, e, types):
        v = self.own(e.name[0])
        if not v:
            self.tell('name', e.at)
            return None
        return self.elementary(self.meaning(v.type[0]), e.at)

    def of_member(self, e, types):
        v = self.own(e.instance[0])
        m = v and self.meaning(v.type[0])
        if not v or m in RANGE:
            self.tell('name', e.instance)
            return None
        if m is None:
            return None
        part = self.part(m, e.output[0])
        if not part or part[0] != 'output':
            self.tell('name', e.output)
            return None
        return self.elementary(part[1], e.at)

    def of_call(self, e, types):
        f = up(e.name[0])
        if f not in FUNCS or f in WRITTEN:
            self.tell('name', e.name)
            return None
        if not can_have(f, len(types)) or None not in types and not outcome(f, types):
            self.tell('type', e.name)
            return None
        return None if None in types else outcome(f, types)

    def of_operator(self, e, types):
        if None in types:
            return None
        t = outcome(e.function, types)
        if not t:
            self.tell('type', e.at)
        return t

    # statements

    def wants(self, m, t, e):
        """A value of type t goes to what is of type m."""
        if m is not None and t is not None and m != t:
            self.tell('type', e.at)

    def writable(self, v, m):
        return v.cls != 'input' and v.mark != 'CONSTANT' and (m is None or m in RANGE)

    def statement(self, s):
        if s.kind == 'call':
            self.call(s)
        elif s.kind == ':=':
            t = self.expression(s.value)
            v = self.own(s.target[0])
            if not v:
                self.tell('name', s.target)
            else:
                m = self.meaning(v.type[0])
                if not self.writable(v, m):
                    self.tell('type', s.target)
                self.wants(m, t, s.value)
        else:
            self.wants('DINT' if s.kind == 'CASE' else 'BOOL', self.expression(s.value), s.value)
            for k, (digits, at) in enumerate(s.labels):
                if int(digits) > 2147483647 or int(digits) in [int(d) for d, _ in s.labels[:k]]:
                    self.tell('literal', at)
        for body in s.bodies:
            for inner in body:
                self.statement(inner)

    def call(self, s):
        v = self.own(s.instance[0])
        m = v and self.meaning(v.type[0])
        if not v or m in RANGE:
            self.tell('name', s.instance)
            m = None
        given = [up(f[0]) for f, _ in s.args]
        if isinstance(m, Thing) and any(self.part(m, w.name[0])[0] == 'inout' and up(w.name[0]) not in given for w in m.variables):
            self.tell('type', s.instance)
        for k, (formal, e) in enumerate(s.args):
            if up(formal[0]) in given[:k]:
                self.tell('name', formal)
            t = self.expression(e)
            if m is None:
                continue
            part = self.part(m, formal[0])
            if not part or part[0] not in ('input', 'inout'):
                self.tell('name', formal)
            elif part[0] == 'input':
                self.wants(part[1], t, e)
            else:
                self.bind(part[1], e)

    def bind(self, wanted, e):
        """An in-out of that type gets this argument."""
        if e.kind != 'name':
            self.tell('type', e.at)
            return
        v = self.own(e.name[0])
        if v:
            m = self.meaning(v.type[0])
            if v.cls == 'temp' or not self.writable(v, m) or None not in (m, wanted) and m != wanted:
                self.tell('type', e.at)


if __name__ == '__main__':
    for path in sys.argv[1:]:
        print(Unit(open(path, 'rb').read()).answer())
