"""The rules 20 to 36, read a second time: which is broken first, and at which element.

It is for files that break none of the rules 1 to 16. It was written from the documents of the format alone
and shares no code with the crates. Each rule is a search through all elements, with no thought for speed.

    python3 second/rules.py FILE ..

prints `ok`, or `plcx: rule R at POU ID`, for each file.
"""
from fractions import Fraction
import re
import sys

# ---------------------------------------------------------------- XML

TOKEN = re.compile(r'''
    (?P<comment><!--.*?-->) | (?P<pi><\?.*?\?>) | <!\[CDATA\[(?P<cdata>.*?)\]\]>
  | <(?P<name>[^\s<>/?!"'=]+)(?P<attrs>(?:[ \t\r\n]+[^\s<>/"'=]+[ \t\r\n]*=[ \t\r\n]*(?:"[^"]*"|'[^']*'))*)[ \t\r\n]*(?P<empty>/?)>
  | </(?P<end>[^\s<>/]+)[ \t\r\n]*> | (?P<text>[^<]+)
''', re.X | re.S)
ATTR = re.compile(r'''([^\s=]+)[ \t\r\n]*=[ \t\r\n]*(?:"([^"]*)"|'([^']*)')''', re.S)
REFERENCE = re.compile(r'&(#x[0-9A-Fa-f]+|#[0-9]+|lt|gt|amp|quot|apos);')
NAMED = {'lt': '<', 'gt': '>', 'amp': '&', 'quot': '"', 'apos': "'"}


def replaced(text):
    """A text with the characters that its references stand for."""
    def one(m):
        n = m.group(1)
        return NAMED[n] if n in NAMED else chr(int(n[2:], 16)) if n.startswith('#x') else chr(int(n[1:]))
    return REFERENCE.sub(one, text)


class Tree:
    """An element of the file: its name, its attributes, its elements and its own text."""

    def __init__(self, name, attrs):
        self.name, self.attrs, self.kids, self.text = name, attrs, [], ''

    def all(self, name):
        return [k for k in self.kids if k.name == name]

    def one(self, name):
        """The first element of that name in this one, or None."""
        found = self.all(name)
        return found[0] if found else None

    def get(self, name, default=''):
        return self.attrs.get(name, default)


def tree_of(data):
    """The element that a file's bytes stand for."""
    text = data.decode('utf-8')
    if text.startswith('\ufeff'):
        text = text[1:]
    top = Tree('', {})
    stack = [top]
    at = 0
    while at < len(text):
        m = TOKEN.match(text, at)
        if not m:
            raise ValueError('no token at %d' % at)
        at = m.end()
        if m.group('name'):
            attrs = {}
            for a in ATTR.finditer(m.group('attrs')):
                attrs.setdefault(a.group(1), replaced(a.group(2) if a.group(2) is not None else a.group(3)))
            new = Tree(m.group('name'), attrs)
            stack[-1].kids.append(new)
            if not m.group('empty'):
                stack.append(new)
        elif m.group('end'):
            if stack.pop().name != m.group('end'):
                raise ValueError('nesting at %d' % at)
        elif m.group('cdata') is not None:
            stack[-1].text += m.group('cdata')
        elif m.group('text') is not None:
            stack[-1].text += replaced(m.group('text'))
    return top.kids[0]


# ---------------------------------------------------------------- types, functions, blocks

BITS = {'BYTE': 8, 'WORD': 16, 'DWORD': 32, 'LWORD': 64}
SIGNED = {'SINT': 8, 'INT': 16, 'DINT': 32, 'LINT': 64}
UNSIGNED = {'USINT': 8, 'UINT': 16, 'UDINT': 32, 'ULINT': 64}
RANGE = {'BOOL': (0, 1), 'TIME': (-2 ** 63, 2 ** 63 - 1)}
RANGE.update({t: (0, 2 ** b - 1) for t, b in list(BITS.items()) + list(UNSIGNED.items())})
RANGE.update({t: (-2 ** (b - 1), 2 ** (b - 1) - 1) for t, b in SIGNED.items()})
TYPES = list(RANGE)
N = set(SIGNED) | set(UNSIGNED)
W = set(BITS)
B = W | {'BOOL'}
A = set(TYPES)

# name: (fixed inputs {name: class}, first number of the others or None, least and most of the others, allowed, OUT)
# a class is 'group', 'lone' or a type
FUNCS = {}
for name, allowed in (('ADD', N | {'TIME'}), ('MUL', N), ('AND', B), ('OR', B), ('XOR', B), ('MAX', A), ('MIN', A)):
    FUNCS[name] = ({}, 1, 2, 63, allowed, 'group')
for name in ('GT', 'GE', 'EQ', 'LE', 'LT'):
    FUNCS[name] = ({}, 1, 2, 63, A, 'BOOL')
FUNCS['NE'] = ({'IN1': 'group', 'IN2': 'group'}, None, 0, 0, A, 'BOOL')
FUNCS['SUB'] = ({'IN1': 'group', 'IN2': 'group'}, None, 0, 0, N | {'TIME'}, 'group')
FUNCS['DIV'] = ({'IN1': 'group', 'IN2': 'group'}, None, 0, 0, N, 'group')
FUNCS['MOD'] = ({'IN1': 'group', 'IN2': 'group'}, None, 0, 0, N, 'group')
FUNCS['ABS'] = ({'IN': 'group'}, None, 0, 0, N, 'group')
FUNCS['MOVE'] = ({'IN': 'group'}, None, 0, 0, A, 'group')
FUNCS['NOT'] = ({'IN': 'group'}, None, 0, 0, B, 'group')
for name in ('SHL', 'SHR', 'ROL', 'ROR'):
    FUNCS[name] = ({'IN': 'group', 'N': 'lone'}, None, 0, 0, W, 'group')
FUNCS['SEL'] = ({'G': 'BOOL', 'IN0': 'group', 'IN1': 'group'}, None, 0, 0, A, 'group')
FUNCS['LIMIT'] = ({'MN': 'group', 'IN': 'group', 'MX': 'group'}, None, 0, 0, A, 'group')
FUNCS['MUX'] = ({'K': 'lone'}, 0, 2, 62, A, 'group')
for x in TYPES:
    for y in TYPES:
        if x != y:
            FUNCS['%s_TO_%s' % (x, y)] = ({'IN': x}, None, 0, 0, None, y)

STANDARD = {
    'TON': ({'IN': 'BOOL', 'PT': 'TIME'}, {'Q': 'BOOL', 'ET': 'TIME'}),
    'TOF': ({'IN': 'BOOL', 'PT': 'TIME'}, {'Q': 'BOOL', 'ET': 'TIME'}),
    'TP': ({'IN': 'BOOL', 'PT': 'TIME'}, {'Q': 'BOOL', 'ET': 'TIME'}),
    'CTU': ({'CU': 'BOOL', 'R': 'BOOL', 'PV': 'INT'}, {'Q': 'BOOL', 'CV': 'INT'}),
    'CTD': ({'CD': 'BOOL', 'LD': 'BOOL', 'PV': 'INT'}, {'Q': 'BOOL', 'CV': 'INT'}),
    'CTUD': ({'CU': 'BOOL', 'CD': 'BOOL', 'R': 'BOOL', 'LD': 'BOOL', 'PV': 'INT'}, {'QU': 'BOOL', 'QD': 'BOOL', 'CV': 'INT'}),
    'SR': ({'S1': 'BOOL', 'R': 'BOOL'}, {'Q1': 'BOOL'}),
    'RS': ({'S': 'BOOL', 'R1': 'BOOL'}, {'Q1': 'BOOL'}),
    'R_TRIG': ({'CLK': 'BOOL'}, {'Q': 'BOOL'}),
    'F_TRIG': ({'CLK': 'BOOL'}, {'Q': 'BOOL'}),
}


def up(text):
    """A text with the ASCII letters in upper case, for names that compare without regard to case."""
    return ''.join(chr(ord(c) - 32) if 'a' <= c <= 'z' else c for c in text)


# ---------------------------------------------------------------- literals

IDENT = re.compile(r'[A-Za-z_][A-Za-z0-9_]{0,127}\Z')
DECIMAL = re.compile(r'[0-9]+(_[0-9]+)*\Z')
BASED = re.compile(r'(?:2#[01]+(?:_[01]+)*|8#[0-7]+(?:_[0-7]+)*|16#[0-9A-F]+(?:_[0-9A-F]+)*)\Z')
MOST = 2 ** 127 - 1
UNITS = {'D': 86400000, 'H': 3600000, 'M': 60000, 'S': 1000, 'MS': 1}
ORDER = ['D', 'H', 'M', 'S', 'MS']
PART = re.compile(r'([0-9]{1,20})(?:\.([0-9]{1,9}))?(MS|D|H|M|S)')


def numeral(text):
    """The number of a numeral without sign, decimal or based, or None."""
    if DECIMAL.match(text):
        n = int(text.replace('_', ''))
    elif BASED.match(text):
        base, digits = text.split('#')
        n = int(digits.replace('_', ''), int(base))
    else:
        return None
    return n if n <= MOST else None


def whole(text):
    """The number of a numeral with or without sign, or None."""
    if text[:1] in ('+', '-'):
        if not DECIMAL.match(text[1:]):
            return None
        n = numeral(text[1:])
        return None if n is None else -n if text[0] == '-' else n
    return numeral(text)


def duration(text):
    """Milliseconds of the text behind T#, or None."""
    sign = 1
    if text.startswith('-'):
        sign, text = -1, text[1:]
    total = Fraction(0)
    last = -1
    at = 0
    first = True
    while at < len(text):
        if not first and text[at] == '_':
            at += 1
        m = PART.match(text, at)
        if not m:
            return None
        unit = ORDER.index(m.group(3))
        if unit <= last:
            return None
        last = unit
        at = m.end()
        value = Fraction(int(m.group(1)))
        if m.group(2) is not None:
            if at != len(text):
                return None
            value += Fraction(int(m.group(2)), 10 ** len(m.group(2)))
        total += value * UNITS[m.group(3)]
        first = False
    if first or total.denominator != 1:
        return None
    return sign * int(total)


def literal(text):
    """('typed', type, n), ('whole', n) or None."""
    t = up(text)
    if t in ('TRUE', 'FALSE'):
        return ('typed', 'BOOL', int(t == 'TRUE'))
    n = whole(t)
    if n is not None:
        return ('whole', n)
    if '#' not in t:
        return None
    head, tail = t.split('#', 1)
    if head in ('T', 'TIME'):
        n = duration(tail)
        ty = 'TIME'
    elif head in RANGE:
        ty = head
        n = int(tail == 'TRUE') if ty == 'BOOL' and tail in ('TRUE', 'FALSE') else whole(tail)
    else:
        return None
    if n is None or not RANGE[ty][0] <= n <= RANGE[ty][1]:
        return None
    return ('typed', ty, n)


# ---------------------------------------------------------------- the project

class Thing:
    """What has the fields that it is made with."""

    def __init__(self, **fields):
        self.__dict__.update(fields)


def truth(text):
    """The value of an attribute that is true or false."""
    return text in ('true', '1')


def mods_of(t):
    """The modifiers at an element or a pin."""
    return Thing(negated=truth(t.get('negated')), edge=t.get('edge', 'none'), storage=t.get('storage', 'none'))


def wires_of(t):
    """The connections of all input points of an element, in document order."""
    return [Thing(element=int(c.get('refLocalId')), formal=c.get('formalParameter')) for p in t.all('connectionPointIn') for c in p.all('connection')]


ELEMENTS = ('comment', 'vendorElement', 'block', 'inVariable', 'outVariable', 'contact', 'coil', 'connector', 'continuation',
            'label', 'jump', 'return', 'leftPowerRail', 'rightPowerRail')
LISTS = {'localVars': 'local', 'inputVars': 'input', 'outputVars': 'output', 'inOutVars': 'inout'}


def millionths(text):
    """A coordinate as a whole number of millionths."""
    sign, text = (-1, text[1:]) if text[:1] == '-' else (1, text.lstrip('+'))
    a, _, b = text.partition('.')
    return sign * (int(a or 0) * 1000000 + int((b + '000000')[:6]))


def element_of(t):
    """An element of a body. What its kind has no use for stays empty."""
    e = Thing(kind=t.name, id=int(t.get('localId')), mods=mods_of(t), wires=[], ins=[], inouts=[], outs=[], order=0, x=0, y=0)
    if t.name not in ('comment', 'vendorElement'):
        e.order = int(t.get('executionOrderId', '0') or 0)
        if t.one('position'):
            e.x, e.y = millionths(t.one('position').get('x')), millionths(t.one('position').get('y'))
    if t.name in ('outVariable', 'contact', 'coil', 'connector', 'jump', 'return', 'rightPowerRail'):
        e.wires = wires_of(t)
    if t.name in ('inVariable', 'outVariable'):
        e.text = t.one('expression').text
    if t.name in ('contact', 'coil'):
        e.text = t.one('variable').text
    if t.name in ('connector', 'continuation'):
        e.name = t.get('name')
    if t.name in ('label', 'jump'):
        e.name = t.get('label')
    if t.name == 'block':
        e.type, e.instance = t.get('typeName'), t.get('instanceName')
        for side, to in (('inputVariables', e.ins), ('inOutVariables', e.inouts), ('outputVariables', e.outs)):
            for v in (t.one(side).all('variable') if t.one(side) else []):
                to.append(Thing(formal=v.get('formalParameter'), mods=mods_of(v), wires=wires_of(v) if side != 'outputVariables' else []))
        # an unconnected EN counts as absent
        e.ins = [p for p in e.ins if not (up(p.formal) == 'EN' and not p.wires)]
    return e


def project_of(data):
    """The POUs of a file, in its order."""
    pous = []
    for p in tree_of(data).one('types').one('pous').all('pou'):
        variables = []
        for l in (p.one('interface').kids if p.one('interface') else []):
            if l.name in LISTS:
                inout = l.name == 'inOutVars'
                for v in l.all('variable'):
                    ty = [k for k in v.one('type').kids if k.name in RANGE or k.name == 'derived'][0]
                    first = v.one('initialValue')
                    variables.append(Thing(name=v.get('name'), cls=LISTS[l.name], constant=truth(l.get('constant')) and not inout,
                                           type=ty.name if ty.name != 'derived' else None, block=up(ty.get('name')) if ty.name == 'derived' else None,
                                           retain=truth(l.get('retain')) and not truth(l.get('constant')) and not inout, address=up(v.get('address')), list=l,
                                           initial=first.one('simpleValue').get('value') if first else None))
        b = p.one('body')
        ladder = b.one('LD') is not None
        body = [element_of(t) for t in (b.one('LD') or b.one('FBD')).kids if t.name in ELEMENTS]
        pous.append(Thing(name=p.get('name'), kind=p.get('pouType'), variables=variables, names={up(v.name): v for v in variables}, ladder=ladder, body=body))
    return pous


# ---------------------------------------------------------------- the rules

class Rules:
    """A project and what the rules say of it. Each `rule_R` gives the elements that break rule R, in document order;
    it may presume that no rule before it is broken."""

    def __init__(self, pous):
        self.pous = pous
        self.blocks = {up(p.name): p for p in pous if p.kind == 'functionBlock'}

    # what a block's typeName is

    def callee(self, type_name):
        """A function's name, or the inputs, in-outs and outputs of a block as names to types, or None."""
        t = up(type_name)
        if t in FUNCS:
            return Thing(function=t)
        if t in STANDARD:
            return Thing(function=None, ins=STANDARD[t][0], inouts={}, outs=STANDARD[t][1])
        if t in self.blocks:
            of = lambda cls: {up(v.name): v.type for v in self.blocks[t].variables if v.cls == cls}
            return Thing(function=None, ins=of('input'), inouts=of('inout'), outs=of('output'))
        return None

    def is_function(self, e):
        return e.kind == 'block' and up(e.type) in FUNCS

    def outs_named(self, e):
        """The listed outputs of a block as names in upper case, OUT standing for that of a function."""
        names = [up(o.formal) for o in e.outs]
        if self.is_function(e):
            others = [n for n in names if n != 'ENO']
            names = [n if n == 'ENO' else 'OUT' if len(others) == 1 or n == '' else n for n in names]
        return names

    def output(self, e, formal):
        """The place of the output that a connection to e means, or None."""
        if e.kind in ('contact', 'coil', 'inVariable', 'continuation', 'leftPowerRail'):
            return 0
        if e.kind != 'block':
            return None
        if formal == '':
            return 0 if len(e.outs) == 1 else None
        for i, o in enumerate(e.outs):
            if up(o.formal) == up(formal):
                return i
        if self.is_function(e) and up(formal) == 'OUT' and 'OUT' in self.outs_named(e):
            return self.outs_named(e).index('OUT')
        return None

    def signature(self, function, names):
        """The classes of the inputs by name, where the names are what the function needs, else None. EN is left out."""
        fixed, first, least, most, _, _ = FUNCS[function]
        classes = dict(fixed)
        if first is not None:
            for i in range(most):
                if 'IN%d' % (first + i) in names:
                    classes['IN%d' % (first + i)] = 'group'
                else:
                    break
            if len(classes) - len(fixed) < least:
                return None
        return classes if set(classes) == set(names) else None

    # expressions

    def held(self, pou, text):
        """What an expression holds: ('literal', ..), ('variable', v), ('instance', v), ('output', type), or None for unknown names and other forms."""
        text = text.strip(' \t\r\n')
        l = literal(text)
        if l:
            return ('literal', l)
        if IDENT.match(text):
            v = pou.names.get(up(text))
            return None if v is None else ('variable', v) if v.type else ('instance', v)
        parts = text.split('.')
        if len(parts) == 2 and IDENT.match(parts[0]) and IDENT.match(parts[1]):
            v = pou.names.get(up(parts[0]))
            if v is not None and v.block:
                ty = self.callee(v.block).outs.get(up(parts[1]))
                if ty:
                    return ('output', ty)
        return None

    def written(self, held):
        """Whether what an expression holds can be written."""
        return held is not None and held[0] == 'variable' and held[1].cls != 'input' and not held[1].constant

    # the elements that break each rule

    def pins(self, e):
        """The connections of each input pin of an element."""
        if e.kind == 'block':
            return [p.wires for p in e.ins + e.inouts]
        return [e.wires]

    def elements(self):
        """All elements, each with its POU."""
        for p in self.pous:
            for e in p.body:
                yield p, e

    def index(self):
        """Gives each POU its elements by localId."""
        for p in self.pous:
            p.by_id = {}
            for e in p.body:
                p.by_id.setdefault(e.id, e)

    def rule_20(self):
        for p in self.pous:
            seen = set()
            for e in p.body:
                if e.id in seen:
                    yield p, e
                seen.add(e.id)

    def rule_21(self):
        for p, e in self.elements():
            if any(c.element not in p.by_id for w in self.pins(e) for c in w):
                yield p, e

    def rule_22(self):
        for p, e in self.elements():
            if any(self.output(p.by_id[c.element], c.formal) is None for w in self.pins(e) for c in w):
                yield p, e

    def rule_23(self):
        for p, e in self.elements():
            if not p.ladder and any(len(w) > 1 for w in self.pins(e)):
                yield p, e

    def rule_24(self):
        for p, e in self.elements():
            if e.kind in ('contact', 'coil', 'outVariable', 'connector', 'jump', 'return') and not e.wires:
                yield p, e
            elif self.is_function(e) and any(not i.wires for i in e.ins):
                yield p, e
            elif any(len(i.wires) != 1 for i in e.inouts):
                yield p, e

    def rule_25(self):
        for p, e in self.elements():
            if e.kind == 'block' and self.callee(e.type) is None:
                yield p, e

    def rule_26(self):
        for p, e in self.elements():
            if e.kind == 'block':
                if self.is_function(e):
                    if e.instance:
                        yield p, e
                else:
                    v = p.names.get(up(e.instance))
                    if v is None or v.block != up(e.type):
                        yield p, e

    def rule_27(self):
        for p, e in self.elements():
            if e.kind != 'block':
                continue
            callee = self.callee(e.type)
            ins, inouts, outs = [up(i.formal) for i in e.ins], [up(i.formal) for i in e.inouts], self.outs_named(e)
            if any(len(set(side)) != len(side) for side in (ins, inouts, outs)):
                yield p, e
                continue
            ins, outs = [i for i in ins if i != 'EN'], [o for o in outs if o != 'ENO']
            if callee.function:
                if self.signature(callee.function, ins) is None or inouts or any(o != 'OUT' for o in outs):
                    yield p, e
            elif not set(ins) <= set(callee.ins) or set(inouts) != set(callee.inouts) or not set(outs) <= set(callee.outs):
                yield p, e

    def rule_28(self):
        for p, e in self.elements():
            if e.kind in ('inVariable', 'contact', 'coil', 'outVariable'):
                h = self.held(p, e.text)
                may = {'inVariable': ('variable', 'output', 'literal'), 'contact': ('variable', 'output')}.get(e.kind, ('variable', 'instance', 'output', 'literal'))
                if h is None or h[0] not in may:
                    yield p, e

    def rule_29(self):
        for p, e in self.elements():
            if e.kind in ('coil', 'outVariable'):
                if not self.written(self.held(p, e.text)):
                    yield p, e
            for i in e.inouts:
                s = p.by_id[i.wires[0].element]
                if s.kind != 'inVariable' or not self.written(self.held(p, s.text)):
                    yield p, e
                    break

    def doubled_or_missing(self, named, naming):
        """Elements of the first kind whose name stood before, and those of the other kind whose name none of them has."""
        for p in self.pous:
            seen = set()
            names = {up(e.name) for e in p.body if e.kind == named}
            for e in p.body:
                if e.kind == named:
                    if up(e.name) in seen:
                        yield p, e
                    seen.add(up(e.name))
                if e.kind == naming and up(e.name) not in names:
                    yield p, e

    def rule_30(self):
        return self.doubled_or_missing('connector', 'continuation')

    def rule_31(self):
        return self.doubled_or_missing('label', 'jump')

    def rule_32(self):
        for p, e in self.elements():
            m = e.mods
            neg, edge, store = m.negated, m.edge != 'none', m.storage != 'none'
            bad = False
            if e.kind == 'contact':
                bad = store or (neg and edge)
            elif e.kind == 'coil':
                bad = neg + edge + store > 1
            elif e.kind == 'outVariable':
                bad = edge or (neg and store)
            elif e.kind == 'inVariable':
                bad = edge or store
            elif e.kind == 'block':
                bad = any(x.mods.edge != 'none' or x.mods.storage != 'none' for x in e.ins + e.outs)
                for x in e.inouts:
                    for y in (x.mods, p.by_id[x.wires[0].element].mods):
                        bad = bad or y.negated or y.edge != 'none' or y.storage != 'none'
            if bad:
                yield p, e

    def rule_33(self):
        for p, e in self.elements():
            if not p.ladder and e.kind in ('leftPowerRail', 'rightPowerRail', 'contact', 'coil'):
                yield p, e

    # types

    def type_all(self):
        """Gives each block's group, each connector and each lone pin the set of types that reach it, added to until nothing is new."""
        for p in self.pous:
            for e in p.body:
                e.group, e.carried = set(), set()
                if e.kind == 'block':
                    e.callee = self.callee(e.type)
                    if e.callee.function:
                        e.classes = self.signature(e.callee.function, [up(i.formal) for i in e.ins if up(i.formal) != 'EN'])
                for i in e.ins + e.inouts:
                    i.lone = set()
                if e.kind in ('inVariable', 'contact', 'coil', 'outVariable'):
                    e.held = self.held(p, e.text)
            p.connectors = {up(e.name): e for e in p.body if e.kind == 'connector'}
        while True:
            before = self.size()
            for p, e in self.elements():
                if e.kind == 'connector':
                    for c in e.wires:
                        e.carried |= self.source_types(p, c)
                elif e.kind == 'continuation':
                    e.carried |= p.connectors[up(e.name)].carried
                elif e.kind == 'block' and e.callee.function:
                    for i in e.ins:
                        cls = self.pin_class(e, i)
                        for c in i.wires:
                            if cls == 'group':
                                e.group |= self.source_types(p, c)
                            elif cls == 'lone':
                                i.lone |= self.source_types(p, c)
                                if self.untyped(p.by_id[c.element]):
                                    i.lone.add('DINT')
            if self.size() == before:
                return

    def size(self):
        """How many types all these sets hold."""
        return sum(len(e.group) + len(e.carried) + sum(len(i.lone) for i in e.ins) for _, e in self.elements())

    def pin_class(self, e, pin):
        """What decides the type of a function's input: its group, the pin alone, or a type."""
        n = up(pin.formal)
        return 'BOOL' if n == 'EN' else e.classes[n]

    def untyped(self, e):
        """Whether an element is a literal without a type of its own."""
        return e.kind == 'inVariable' and e.held[0] == 'literal' and e.held[1][0] == 'whole'

    def held_type(self, held):
        """The type of what an expression holds, or None at an untyped literal."""
        if held[0] == 'variable':
            return held[1].type
        if held[0] == 'output':
            return held[1]
        return held[1][1] if held[1][0] == 'typed' else None

    def out_types(self, e, i):
        """The types of the output i of a block."""
        name = self.outs_named(e)[i]
        if name == 'ENO':
            return {'BOOL'}
        if e.callee.function:
            out = FUNCS[e.callee.function][5]
            return set(e.group) if out == 'group' else {out}
        return {e.callee.outs[name]}

    def source_types(self, p, c):
        """The types of what a connection comes from."""
        e = p.by_id[c.element]
        if e.kind in ('contact', 'coil', 'leftPowerRail'):
            return {'BOOL'}
        if e.kind == 'inVariable':
            t = self.held_type(e.held)
            return {t} if t else set()
        if e.kind == 'continuation':
            return set(e.carried)
        return self.out_types(e, self.output(e, c.formal))

    def typed_pins(self, e):
        """The types of each input pin of an element, with its connections and its modifiers or None. A continuation has no pin."""
        if e.kind in ('contact', 'coil', 'jump', 'return', 'rightPowerRail'):
            yield {'BOOL'}, e.wires, None
        elif e.kind == 'outVariable':
            yield {e.held[1].type}, e.wires, None
        elif e.kind == 'connector':
            yield e.carried, e.wires, None
        elif e.kind == 'block':
            for i in e.ins:
                if up(i.formal) == 'EN':
                    yield {'BOOL'}, i.wires, i.mods
                elif not e.callee.function:
                    yield {e.callee.ins[up(i.formal)]}, i.wires, i.mods
                else:
                    cls = self.pin_class(e, i)
                    if cls == 'group':
                        yield e.group, i.wires, i.mods
                    elif cls == 'lone':
                        yield i.lone, i.wires, i.mods
                    else:
                        yield {cls}, i.wires, i.mods
            for i in e.inouts:
                yield {e.callee.inouts[up(i.formal)]}, i.wires, i.mods

    def has_group(self, e):
        """Whether an element calls a function that works on several types."""
        return e.kind == 'block' and e.callee.function and FUNCS[e.callee.function][4] is not None

    def taken(self):
        """The types that each untyped literal takes, by its element."""
        r = {}
        for p, e in self.elements():
            for types, wires, _ in self.typed_pins(e):
                for c in wires:
                    if self.untyped(p.by_id[c.element]):
                        r.setdefault(id(p.by_id[c.element]), set()).update(types)
        return r

    def rule_34(self):
        for p, e in self.elements():
            if self.has_group(e) and not e.group:
                yield p, e
            if e.kind in ('connector', 'continuation') and not e.carried:
                yield p, e

    def rule_35(self):
        taken = self.taken()
        for p, e in self.elements():
            if self.breaks_35(p, e, taken):
                yield p, e

    def breaks_35(self, p, e, taken):
        """Whether the types at an element don't agree, where its literals take the types in taken."""
        for types, wires, mods in self.typed_pins(e):
            for c in wires:
                if self.source_types(p, c) - types:
                    return True
                if self.untyped(p.by_id[c.element]) and 'TIME' in types:
                    return True
            if len(wires) > 1 and types - {'BOOL'} and e.kind != 'rightPowerRail':
                return True
            if mods and mods.negated and types - {'BOOL'}:
                return True
        if self.has_group(e):
            if len(e.group) > 1 or e.group - FUNCS[e.callee.function][4]:
                return True
        if e.kind == 'block' and e.callee.function:
            if any(i.lone - N for i in e.ins):
                return True
        if e.kind == 'block':
            if any(o.mods.negated and self.out_types(e, i) - {'BOOL'} for i, o in enumerate(e.outs)):
                return True
        if e.kind == 'inVariable' and e.mods.negated:
            t = self.held_type(e.held)
            if (({t} if t else taken.get(id(e), set())) - {'BOOL'}):
                return True
        if e.kind in ('contact', 'coil') and self.held_type(e.held) != 'BOOL':
            return True
        if e.kind == 'outVariable' and (e.mods.negated or e.mods.storage != 'none') and e.held[1].type != 'BOOL':
            return True
        return False

    def rule_36(self):
        taken = self.taken()
        for p, e in self.elements():
            if self.untyped(e):
                n = e.held[1][1]
                if any(not RANGE[t][0] <= n <= RANGE[t][1] for t in taken.get(id(e), set())):
                    yield p, e

    def verdict(self):
        """`ok`, or the line of the first rule that is broken."""
        self.index()
        for r in range(20, 37):
            if r == 34:
                self.type_all()
            for p, e in getattr(self, 'rule_%d' % r)():
                return 'plcx: rule %d at %s %d' % (r, p.name, e.id)
        return 'ok'


def answer(data):
    """The verdict on the bytes of a file."""
    return Rules(project_of(data)).verdict()


if __name__ == '__main__':
    for f in sys.argv[1:]:
        with open(f, 'rb') as h:
            print(('' if len(sys.argv) == 2 else f + ': ') + answer(h.read()))
