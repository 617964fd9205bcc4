"""Random small exchange files that break none of the rules 1 to 16, and are right or nearly right by the rules 20 to 36.

Each seed has its file: a project that is drawn as it should be, and then up to three changes, most of which break a rule.
It was written from the documents of the format alone and shares no code with the crates.

    python3 second/projects.py SEED

prints the file of that seed.
"""
import random
import sys
sys.dont_write_bytecode = True
from rules import FUNCS, RANGE, STANDARD, TYPES, N, literal

COMMON = ['BOOL'] * 8 + ['INT'] * 4 + ['DINT'] * 3 + ['TIME'] * 2 + ['WORD'] * 2 + ['BYTE', 'SINT', 'USINT', 'UINT', 'UDINT', 'DWORD', 'LINT', 'ULINT', 'LWORD']
NAMES = ['A', 'b', 'Go', 'Stop', 'X1', 'y_2', 'Level', 'Sum', 'IN', 'OUT', 'Q', 'CV', 'K', 'N', 'PT', 'Zahl', 'ready', 'M', '_v', 'Count', 'G', 'IN1',
         'S1', 'Temp', 'Lamp', 'Q1', 'Run', 'R', 'ET', 'IN0', 'Valve', 'CLK', 'w']
POUS = ['Main', 'Pump', 'Step', 'Filter_1', 'Gate', 'Loop', 'Press', 'IN2', 'z']
PLAIN_FUNCS = [f for f in FUNCS if '_TO_' not in f]
CONVERSIONS = [f for f in FUNCS if '_TO_' in f]
# short presets, and functions that can fault, for files that are to run
SHORT = ['T#0ms', 'T#-5ms', 'T#1ms', 'T#5ms', 'T#10ms', 'T#10ms', 'T#15ms', 'T#20ms', 'T#30ms', 'T#1s']
FAULTING = ['ADD', 'SUB', 'MUL', 'DIV', 'DIV', 'ABS', 'MUX', 'SHL', 'ROR']
# how often a change is tried, 2 where it isn't listed
WEIGHTS = {
    'bad_id': 1, 'bad_ref': 1, 'bad_ref_to_another_body': 1, 'bad_output_gone': 1, 'bad_second_wire': 4,
    'bad_no_wire': 1, 'bad_pin_gone': 1, 'bad_pin_name': 1, 'bad_pin_twice': 1, 'bad_pin_more': 1,
    'bad_pin_to_other_side': 1, 'bad_in_out_gone': 4, 'bad_few_inputs': 3, 'bad_text': 4, 'bad_contact_text': 3,
    'bad_member': 3, 'bad_target': 4, 'bad_in_out': 14, 'bad_in_out_type': 4, 'bad_connector': 9,
    'bad_label': 5, 'bad_modifier': 3, 'bad_two_modifiers': 6, 'bad_negation': 3, 'bad_negated_number': 8,
    'bad_language': 4, 'bad_untyped': 4, 'bad_declared_type': 5, 'bad_list': 3, 'bad_literal': 5,
    'bad_new_literal': 5, 'bad_shared_literal': 8, 'bad_rewire': 5, 'bad_swap': 3, 'bad_new_name': 3,
    'bad_contact_variable': 5, 'bad_several': 8, 'bad_lone': 4, 'bad_time_literal': 3, 'bad_rail': 3,
}


class E(dict):
    """A thing with named fields; one that was never set is None."""
    __getattr__ = dict.get
    __setattr__ = dict.__setitem__
    __hash__ = object.__hash__
    __eq__ = object.__eq__


def pin(formal, ty=None, cls=None):
    """A pin of a block: its name, its type, and what decides that."""
    return E(formal=formal, ty=ty, cls=cls, wires=[], neg=False, edge='', store='')


class Generator:
    """A project in the making. Each `make_KIND` puts an element into a body and gives the work that wires it later;
    each `bad_CHANGE` changes one thing, and tells whether there was something to change."""

    def __init__(self, seed, to_run=False):
        self.r = random.Random(seed)
        self.to_run = to_run
        self.pous, self.addresses = [], 0

    def chance(self, p):
        """True with the probability p."""
        return self.r.random() < p

    # ------------------------------------------------------------ declarations

    def some_type(self):
        """A type, mostly a common one."""
        return self.r.choice(COMMON) if self.chance(0.93) else self.r.choice(TYPES)

    def project(self):
        """Draws the whole project."""
        r = self.r
        names = r.sample(POUS, r.choice([1, 1, 2, 2, 2, 3]))
        for i, n in enumerate(names):
            kind = 'program' if i == len(names) - 1 and (self.to_run or self.chance(0.8)) else r.choice(['functionBlock', 'functionBlock', 'program'])
            self.pous.append(self.pou(n, kind))
        for p in self.pous:
            self.body(p)
        if self.chance(0.25):
            r.shuffle(self.pous)
        return self

    def pou(self, name, kind):
        """A POU with its declarations."""
        r = self.r
        p = E(name=name, kind=kind, lists=[], elements=[], ladder=self.chance(0.45), next=r.choice([0, 1, 1, 1, 7, 100, 18446744073709551500]))
        pool = r.sample(NAMES, len(NAMES))
        blocks = [q for q in self.pous if q.kind == 'functionBlock']
        shapes = [('localVars', r.randint(2, 6))]
        shapes += [('inputVars', r.randint(1, 3))] if kind == 'functionBlock' or self.chance(0.35) else []
        shapes += [('outputVars', r.randint(1, 3))] if kind == 'functionBlock' or self.chance(0.35) else []
        shapes += [('inOutVars', r.randint(1, 2))] if kind == 'functionBlock' and self.chance(0.6) else []
        shapes += [('localVars', r.randint(1, 2))] if self.chance(0.4) else []
        for cls, n in shapes:
            constant = cls != 'inOutVars' and self.chance(0.3 if p.lists and cls == 'localVars' else 0.05)
            l = E(cls=cls, constant=constant, retain=self.chance(0.4 if self.to_run else 0.15), vars=[])
            for _ in range(n):
                l.vars.append(self.variable(pool.pop(), cls))
            p.lists.append(l)
        instances = []
        for _ in range(r.choice([0, 1, 1, 2, 3])):
            if not pool:
                break
            block = r.choice(blocks).name if blocks and self.chance(0.7) else r.choice(list(STANDARD))
            instances.append(E(name=pool.pop(), ty=None, block=block))
        if instances:
            where = [l for l in p.lists if l.cls == 'localVars' and not l.constant]
            if where and self.chance(0.5):
                r.choice(where).vars += instances
            else:
                p.lists.append(E(cls='localVars', constant=False, retain=self.chance(0.4 if self.to_run else 0.15), vars=instances))
        return p

    def variable(self, name, cls):
        """A variable of an elementary type, perhaps with an initial value and an address."""
        v = E(name=name, ty=self.some_type(), block=None)
        if cls != 'inOutVars' and self.chance(0.25):
            v.first = v.ty, self.literal_of(v.ty) if v.ty == 'TIME' or self.chance(0.6) else self.whole_of(v.ty)
        if cls != 'inOutVars' and self.chance(0.1):
            self.addresses += 1
            v.address = '%%%s%s%d' % (self.r.choice('IQMm'), self.r.choice(['', 'X', 'W', 'd', 'B0.', 'L7.3.']), self.addresses)
        return v

    def variables(self, p, cls=None, constant=None):
        """The variables of a POU, those of some lists where they are named."""
        return [v for l in p.lists for v in l.vars if (cls is None or l.cls in cls) and (constant is None or l.constant == constant)]

    def targets(self, p, ty=None):
        """The variables that can be written."""
        return [v for v in self.variables(p, ('localVars', 'outputVars', 'inOutVars'), False) if v.ty and (ty is None or v.ty == ty)]

    def sides(self, block):
        """inputs, in-outs and outputs of a standard block or a function block, as lists of names and types."""
        for q in self.pous:
            if q.name.upper() == block.upper():
                return tuple([(v.name, v.ty) for v in self.variables(q, (c,))] for c in ('inputVars', 'inOutVars', 'outputVars'))
        s = STANDARD[block.upper()]
        return list(s[0].items()), [], list(s[1].items())

    # ------------------------------------------------------------ bodies

    def new(self, p, kind, **fields):
        """A new element in a body."""
        r = self.r
        e = E(kind=kind, id=p.next, neg=False, edge='', store='', wires=[], ins=[], inouts=[], outs=[], order='', x=0, y=0)
        e.update(fields)
        p.next += r.choice([1, 1, 1, 2, 5])
        if self.chance(0.2):
            e.order = str(r.randint(0, 6))
        e.x, e.y = r.choice([0, 0, 10, 20, 30]), r.choice([0, 0, 0, 10, 20, 40])
        p.elements.append(e)
        return e

    def literal_of(self, ty):
        """A literal of the type."""
        r = self.r
        low, high = RANGE[ty]
        n = r.choice([0, 1, 5, 100, low, high, r.randint(max(low, -200), min(high, 200))])
        n = min(max(n, low), high)
        if ty == 'BOOL':
            return r.choice(['TRUE', 'FALSE', 'true', 'BOOL#1', 'bool#FALSE', 'BOOL#0'])
        if ty == 'TIME':
            return r.choice(['T#1s', 'TIME#100ms', 't#1d_2h', 'T#-5ms', 'T#1.5s', 'T#0ms', 'T#2m30s'])
        if n >= 0 and self.chance(0.25):
            return '%s#16#%X' % (ty, n)
        return '%s#%d' % (ty if self.chance(0.8) else ty.lower(), n)

    def whole_of(self, ty):
        """A literal without a type of its own, in the range of the type."""
        r = self.r
        low, high = RANGE[ty]
        n = r.choice([0, 1, 1, 0, 2, 5, low, high, 100])
        n = min(max(n, low), high)
        if n >= 0 and self.chance(0.2):
            return r.choice(['16#%X' % n, '2#' + bin(n)[2:], '8#%o' % n])
        return r.choice(['%d', '%d', '%+d'] if n >= 0 else ['%d']) % n

    def sources_of(self, p, ty):
        """The outputs that have the type."""
        return [s for s in p.sources if s[2] == ty]

    def spelt(self, name):
        """A name, now and then in another case."""
        if self.chance(0.12):
            return self.r.choice([name.upper(), name.lower(), name.swapcase()])
        return name

    def in_variable(self, p, ty, untyped=0.25):
        """A new inVariable of the type, and whether it has that type of its own."""
        r = self.r
        choices = []
        for v in self.variables(p):
            if v.ty == ty:
                choices.append(self.spelt(v.name))
            elif v.block:
                choices += [self.spelt(v.name) + '.' + self.spelt(o) for o, t in self.sides(v.block)[2] if t == ty]
        if ty != 'TIME' and self.chance(untyped):
            text, typed = self.whole_of(ty), False
        elif choices and self.chance(0.75):
            text, typed = r.choice(choices), True
        else:
            text, typed = self.literal_of(ty), True
        e = self.new(p, 'inVariable', text=text)
        if ty == 'BOOL' and self.chance(0.15):
            e.neg = True
        if typed:
            p.sources.append((e, '', ty))
        else:
            p.loose.append((e, text))
        return e, typed

    def wire(self, p, at, ty, typed_needed=False):
        """Puts one connection of the type at a pin; tells whether its source has a type of its own."""
        r = self.r
        have = self.sources_of(p, ty)
        if typed_needed:
            have = [s for s in have if self.sure(s)]
        if have and self.chance(0.6):
            s = r.choice(have)
            at.wires.append(E(to=s[0], formal=s[1]))
            return self.sure(s)
        if p.loose and not typed_needed and ty != 'TIME' and self.chance(0.1):
            e, text = r.choice(p.loose)
            n = literal(text)[1]
            if RANGE[ty][0] <= n <= RANGE[ty][1] and not (e.neg and ty != 'BOOL'):
                at.wires.append(E(to=e, formal=''))
                return False
        e, typed = self.in_variable(p, ty, 0 if typed_needed else 0.25)
        at.wires.append(E(to=e, formal=''))
        return typed

    def sure(self, s):
        """A source that has its type whatever is wired to it."""
        e = s[0]
        return not (e.kind == 'continuation' or e.kind == 'block' and not e.instance and '_TO_' not in e.type and not s[1].upper() == 'ENO')

    def connect(self, p, at, ty, typed_needed=False):
        """Wires a pin, in a ladder now and then more than once; tells whether a source has a type of its own."""
        typed = self.wire(p, at, ty, typed_needed)
        while p.ladder and ty == 'BOOL' and self.chance(0.2):
            typed = self.wire(p, at, ty) or typed
        if ty == 'BOOL' and at.cls and self.chance(0.12):
            at.neg = True
        return typed

    def body(self, p):
        """Draws the body of a POU."""
        r = self.r
        p.sources, p.loose, late = [], [], []
        if p.ladder:
            rail = self.new(p, 'leftPowerRail')
            p.sources += [(rail, '', 'BOOL')] * 2
        size = r.choice([2, 3, 5, 8] if self.to_run else [1, 2, 3, 3, 4, 5, 6])
        instances = [v for v in self.variables(p) if v.block]
        for _ in range(size):
            kinds = ['function'] * 5 + ['outVariable'] * 3 + ['connector'] + ['jump'] + ['return', 'comment', 'vendorElement', 'label', 'inVariable']
            kinds += ['block'] * (4 if instances else 0) + (['contact'] * 4 + ['coil'] * 3 + ['rightPowerRail'] if p.ladder else [])
            late.append(getattr(self, 'make_' + r.choice(kinds))(p, instances))
        for n in range(r.choice([0, 1, 2, 3]) if self.to_run and p.kind == 'program' else 0):
            self.direct(p, n)
        for f in late:
            if f:
                f()
        if self.chance(0.3):
            r.shuffle(p.elements)

    def direct(self, p, n):
        """A standard block, with short presets, or a function, that the program's own variables set and show."""
        r, l = self.r, E(cls='localVars', constant=False, retain=self.chance(0.3), vars=[])
        p.lists.append(l)
        if self.chance(0.5):
            kind, name = r.choice(list(STANDARD) + ['TON', 'TOF', 'TOF', 'TP', 'TP', 'CTUD']), 'Block%d' % n
            l.vars.append(E(name=name, ty=None, block=kind))
            ins, _, outs = self.sides(kind)
        else:
            kind, name = r.choice(PLAIN_FUNCS if self.chance(0.7) else CONVERSIONS), ''
            fixed, first, _, _, allowed, out = FUNCS[kind]
            group = r.choice(sorted(allowed)) if allowed else None
            ins = [(formal, group if cls == 'group' else r.choice(sorted(N)) if cls == 'lone' else cls) for formal, cls in fixed.items()]
            ins += [('IN%d' % (first + k), group) for k in range(r.choice([2, 2, 3]))] if first is not None else []
            outs = [('OUT', group if out == 'group' else out)]
        e = self.new(p, 'block', type=kind, instance=name)
        for k, (formal, ty) in enumerate(ins + outs):
            v, at = E(name='%s_%d' % (formal, n), ty=ty, block=None), pin(formal, ty, 'in')
            l.vars.append(v)
            if k >= len(ins):
                e.outs.append(at)
                to = self.new(p, 'outVariable', text=v.name)
                to.wires.append(E(to=e, formal=formal))
                p.sources.append((e, formal, ty))
                continue
            e.ins.append(at)
            is_set = ty == 'BOOL' or self.chance(0.1 if name else 0.8)
            text = v.name if is_set else self.literal_of(ty) if not name else r.choice(SHORT) if ty == 'TIME' else r.choice(['-1', '0', '1', '1', '2', '3'])
            at.wires.append(E(to=self.new(p, 'inVariable', text=text), formal=''))

    def make_comment(self, p, _):
        self.new(p, 'comment')

    def make_vendorElement(self, p, _):
        self.new(p, 'vendorElement')

    def make_inVariable(self, p, _):
        self.in_variable(p, self.some_type())

    def make_label(self, p, _):
        p.setdefault('labels', [])
        name = self.r.choice(['L', 'Again', 'done', 'Größe', 'a b', '1']) + str(len(p.labels) or '')
        p.labels.append(name)
        self.new(p, 'label', name=name)

    def make_jump(self, p, _):
        if not p.labels:
            self.make_label(p, _)
        e = self.new(p, 'jump', name=self.spelt(self.r.choice(p.labels)) if self.chance(0.9) else self.r.choice(p.labels))
        return lambda: self.connect(p, e, 'BOOL')

    def make_return(self, p, _):
        e = self.new(p, 'return')
        return lambda: self.connect(p, e, 'BOOL')

    def make_outVariable(self, p, _):
        t = self.targets(p)
        if not t:
            return None
        v = self.r.choice(t)
        e = self.new(p, 'outVariable', text=self.spelt(v.name))
        if v.ty == 'BOOL' and self.chance(0.35):
            e.update(self.r.choice([{'neg': True}, {'store': 'set'}, {'store': 'reset'}]))
        return lambda: self.connect(p, e, v.ty)

    def make_contact(self, p, _):
        c = [self.spelt(v.name) for v in self.variables(p) if v.ty == 'BOOL']
        c += [v.name + '.' + self.spelt(o) for v in self.variables(p) if v.block for o, t in self.sides(v.block)[2] if t == 'BOOL']
        if not c:
            return None
        e = self.new(p, 'contact', text=self.r.choice(c))
        if self.chance(0.4):
            e.update(self.r.choice([{'neg': True}, {'edge': 'rising'}, {'edge': 'falling'}]))
        p.sources += [(e, self.r.choice(['', '', '', 'OUT', 'Q']), 'BOOL')] * 2
        return lambda: self.connect(p, e, 'BOOL')

    def make_coil(self, p, _):
        t = self.targets(p, 'BOOL')
        if not t:
            return None
        e = self.new(p, 'coil', text=self.spelt(self.r.choice(t).name))
        if self.chance(0.4):
            e.update(self.r.choice([{'neg': True}, {'edge': 'rising'}, {'edge': 'falling'}, {'store': 'set'}, {'store': 'reset'}]))
        p.sources.append((e, '', 'BOOL'))
        return lambda: self.connect(p, e, 'BOOL')

    def make_rightPowerRail(self, p, _):
        e = self.new(p, 'rightPowerRail')

        def fill():
            for _ in range(self.r.randint(0, 3)):
                self.wire(p, e, 'BOOL')
        return fill

    def make_connector(self, p, _):
        ty = self.some_type()
        p.setdefault('connectors', [])
        name = self.r.choice(['C', 'link', 'To 2', 'ä']) + str(len(p.connectors) or '')
        p.connectors.append(name)
        e = self.new(p, 'connector', name=name)
        for _ in range(self.r.choice([0, 1, 1, 2])):
            c = self.new(p, 'continuation', name=self.spelt(name))
            p.sources += [(c, self.r.choice(['', '', 'x']), ty)] * 2
        return lambda: self.connect(p, e, ty, True)

    def enable(self, p, e):
        """Perhaps EN and ENO; gives the work that wires EN."""
        r = self.r
        if self.chance(0.25):
            en = pin(self.spelt('EN'), 'BOOL', 'in')
            e.ins.insert(r.randint(0, len(e.ins)), en)
            if self.chance(0.25):
                en.update(r.choice([{'neg': True}, {'edge': 'rising'}, {'store': 'set'}]) if self.chance(0.5) else {})
            else:
                return lambda: self.connect(p, en, 'BOOL')
        return lambda: None

    def make_function(self, p, _):
        r = self.r
        f = r.choice(FAULTING) if self.to_run and self.chance(0.3) else r.choice(PLAIN_FUNCS) if self.chance(0.85) else r.choice(CONVERSIONS)
        fixed, first, least, most, allowed, out = FUNCS[f]
        group = None
        if allowed:
            wanted = [t for t in COMMON if t in allowed]
            have = [s[2] for s in p.sources if s[2] in allowed] + [v.ty for v in self.variables(p) if v.ty in allowed]
            group = r.choice(have) if have and self.chance(0.75) else r.choice(wanted)
        e = self.new(p, 'block', type=self.spelt(f), instance='')
        for name, cls in fixed.items():
            e.ins.append(pin(name, group if cls == 'group' else r.choice(sorted(N)) if cls == 'lone' else cls, cls))
        if first is not None:
            n = most if self.chance(0.01) else r.choice([2, 2, 2, 3, 4])
            e.ins += [pin('IN%d' % (first + i), group, 'group') for i in range(n)]
        if self.chance(0.2):
            r.shuffle(e.ins)
        for i in e.ins:
            i.formal = self.spelt(i.formal)
        enable = self.enable(p, e)
        ty = group if out == 'group' else out
        shape = r.random()
        names = ['OUT'] if shape < 0.55 else [''] if shape < 0.62 else [r.choice(['Out1', 'Result', 'Q'])] if shape < 0.7 \
            else ['OUT', 'ENO'] if shape < 0.8 else ['ENO', 'x'] if shape < 0.85 \
            else ['ENO', 'OUT'] if shape < 0.9 else [] if shape < 0.95 else ['ENO']
        e.outs = [pin(self.spelt(n)) for n in names]
        for o in e.outs:
            formal = '' if len(names) == 1 and self.chance(0.3) else r.choice([o.formal, self.spelt(o.formal), 'OUT']) if o.formal.upper() != 'ENO' else self.spelt('ENO')
            if formal == '' and len(names) > 1:
                formal = 'OUT'
            p.sources += [(e, formal, 'BOOL' if o.formal.upper() == 'ENO' else ty)] * (1 if o.formal.upper() == 'ENO' else 3)
            if (o.formal.upper() == 'ENO' or ty == 'BOOL') and self.chance(0.15):
                o.neg = True

        def fill():
            enable()
            typed = False
            members = [i for i in e.ins if i.cls == 'group']
            for i in e.ins:
                if i.cls == 'in':
                    continue
                last = i.cls == 'group' and i is members[-1]
                got = self.connect(p, i, i.ty, last and not typed and self.chance(0.93))
                typed = typed or (got and i.cls == 'group')
        return fill

    def make_block(self, p, instances):
        r = self.r
        v = r.choice(instances)
        ins, inouts, outs = self.sides(v.block)
        e = self.new(p, 'block', type=self.spelt(v.block), instance=self.spelt(v.name))
        listed = [pin(self.spelt(n), t, 'in') for n, t in ins if self.chance(0.85)]
        r.shuffle(listed) if self.chance(0.2) else None
        e.ins = list(listed)
        e.inouts = [pin(self.spelt(n), t) for n, t in inouts]
        e.outs = [pin(self.spelt(n), t) for n, t in outs if self.chance(0.85)]
        if self.chance(0.15):
            e.outs.insert(r.randint(0, len(e.outs)), pin('ENO', 'BOOL'))
        for o in e.outs:
            formal = '' if len(e.outs) == 1 and self.chance(0.4) else self.spelt(o.formal)
            p.sources += [(e, formal, o.ty)] * 2
            o.neg = o.ty == 'BOOL' and self.chance(0.12)
        enable = self.enable(p, e)

        def fill():
            enable()
            for i in listed:
                if self.chance(0.8):
                    self.connect(p, i, i.ty)
            for i in e.inouts:
                t = self.targets(p, i.ty)
                if not t:
                    v = E(name='plus%d' % len(p.elements), ty=i.ty, block=None)
                    p.lists.append(E(cls='localVars', constant=False, retain=False, vars=[v]))
                    t = [v]
                s = self.new(p, 'inVariable', text=self.spelt(r.choice(t).name))
                i.wires.append(E(to=s, formal=''))
                if self.chance(0.3):
                    p.sources.append((s, '', i.ty))
        return fill

    # ------------------------------------------------------------ changes

    def lead(self, p, wire, texts=None):
        """The wire, which comes from a new literal with one of these texts, or where there are none from any source of the body."""
        if texts:
            wire.to, wire.formal = self.new(p, 'inVariable', text=self.r.choice(texts)), ''
        else:
            wire.to, wire.formal, _ = self.r.choice(p.sources)
        return wire

    def all_wires(self, e):
        """All connections of an element."""
        return [w for l in [e.wires] + [q.wires for q in e.ins + e.inouts] for w in l]

    def holders(self, e):
        """What has a list of connections at an element."""
        k = e.kind
        return e.ins + e.inouts if k == 'block' else [e] if k in ('outVariable', 'contact', 'coil', 'connector', 'jump', 'return', 'rightPowerRail') else []

    def pick(self, what):
        """(POU, item) over the whole project, or None."""
        found = [(p, i) for p in self.pous for e in p.elements for i in what(p, e)]
        return self.r.choice(found) if found else None

    def change(self):
        """One random change."""
        r = self.r
        names = [m for m in dir(self) if m.startswith('bad_') for _ in range(WEIGHTS.get(m, 2))]
        for _ in range(20):
            if getattr(self, r.choice(names))():
                return

    def bad_id(self):
        p = self.r.choice(self.pous)
        if len(p.elements) < 2:
            return False
        a, b = self.r.sample(p.elements, 2)
        a.id = b.id
        return True

    def bad_ref(self):
        found = self.pick(lambda p, e: self.all_wires(e))
        if not found:
            return False
        p, w = found
        w.to = self.r.choice([9999, p.next, 18446744073709551615])
        return True

    def bad_ref_to_another_body(self):
        found = self.pick(lambda p, e: self.all_wires(e))
        if not found or len(self.pous) < 2:
            return False
        q = self.r.choice(self.pous)
        if not q.elements:
            return False
        found[1].to = self.r.choice(q.elements).id
        return True

    def bad_rewire(self):
        """A connection goes to any other element."""
        found = self.pick(lambda p, e: self.all_wires(e))
        if not found:
            return False
        p, w = found
        if p.sources and self.chance(0.75):
            self.lead(p, w)
        else:
            w.to = self.r.choice([e for e in p.elements if e.kind != 'vendorElement'] or [1])
        return True

    def bad_swap(self):
        a, b = self.pick(lambda p, e: self.all_wires(e)), self.pick(lambda p, e: self.all_wires(e))
        if not a or a[0] is not b[0]:
            return False
        a[1].to, a[1].formal, b[1].to, b[1].formal = b[1].to, b[1].formal, a[1].to, a[1].formal
        return True

    def bad_formal(self):
        found = self.pick(lambda p, e: [w for w in self.all_wires(e) if isinstance(w.to, E) and (w.to.kind == 'block' or self.chance(0.2))])
        if not found:
            return False
        found[1].formal = self.r.choice(['', '', 'OUT', 'ENO', 'Q', 'EN', 'IN1', 'X', ' OUT', 'CV'])
        return True

    def bad_output_gone(self):
        found = self.pick(lambda p, e: [e] if e.outs else [])
        if not found:
            return False
        e = found[1]
        e.outs.pop(self.r.randrange(len(e.outs)))
        return True

    def bad_output_more(self):
        found = self.pick(lambda p, e: [e] if e.kind == 'block' else [])
        if not found:
            return False
        e = found[1]
        e.outs.insert(self.r.randint(0, len(e.outs)), pin(self.r.choice(['ENO', 'OUT', '', 'X', 'Q', 'eno', 'Out', 'EN'])))
        return True

    def bad_wire_to_a_connector(self):
        found = self.pick(lambda p, e: self.all_wires(e))
        targets = found and [e for e in found[0].elements if e.kind in ('connector', 'outVariable', 'label', 'jump', 'comment', 'return', 'rightPowerRail')]
        if not targets:
            return False
        found[1].to = self.r.choice(targets)
        return True

    def bad_second_wire(self):
        found = self.pick(lambda p, e: [h for h in self.holders(e) if h.wires])
        if not found:
            return False
        p, h = found
        h.wires.append(E(h.wires[0]))
        if p.sources and self.chance(0.6):
            self.lead(p, h.wires[-1])
        return True

    def bad_no_wire(self):
        found = self.pick(lambda p, e: [h for h in self.holders(e) if h.wires])
        if not found:
            return False
        found[1].wires.clear()
        return True

    def bad_block_type(self):
        found = self.pick(lambda p, e: [e] if e.kind == 'block' else [])
        if not found:
            return False
        types = ['INT_TO_INT', 'REAL_TO_INT', 'Main', 'Add', 'SUB', 'EXPT', '', 'PLUS', 'TIME_TO_DINT', 'BOOL_TO_TIME', ' ADD', 'Standard.TON']
        found[1].type = self.r.choice(types + [q.name for q in self.pous] + list(STANDARD))
        return True

    def bad_instance(self):
        found = self.pick(lambda p, e: [e] if e.kind == 'block' and (e.instance or self.chance(0.3)) else [])
        if not found:
            return False
        p, e = found
        e.instance = self.r.choice(['', 'Nobody', ' ' + e.instance] + [v.name for v in self.variables(p)] + [v.name for v in self.variables(p) if v.block] * 3)
        return True

    def bad_pin_gone(self):
        found = self.pick(lambda p, e: [l for l in (e.ins, e.inouts) if l])
        if not found:
            return False
        l = found[1]
        l.pop(self.r.randrange(len(l)))
        return True

    def bad_pin_name(self):
        found = self.pick(lambda p, e: e.ins + e.inouts + e.outs)
        if not found:
            return False
        p, q = found
        q.formal = self.r.choice(['IN', 'IN1', 'IN2', 'IN3', 'IN0', 'IN4', 'IN01', 'EN', 'ENO', 'Q', 'PV', 'G', 'K', 'N', '', 'X', q.formal + ' ', 'OUT', 'M', 'RUN', 'START'])
        return True

    def bad_pin_twice(self):
        found = self.pick(lambda p, e: [l for l in (e.ins, e.inouts, e.outs) if l])
        if not found:
            return False
        l = found[1]
        q = self.r.choice(l)
        l.append(E(q, formal=q.formal.swapcase() if self.chance(0.5) else q.formal, wires=[E(w) for w in q.wires]))
        return True

    def bad_pin_more(self):
        found = self.pick(lambda p, e: [e] if e.ins else [])
        if not found:
            return False
        p, e = found
        numbered = [i for i in e.ins if i.formal[:2].upper() == 'IN' and i.formal[2:].isdigit()]
        name = 'IN%d' % (max(int(i.formal[2:]) for i in numbered) + self.r.choice([1, 1, 2])) if numbered else self.r.choice(['EN', 'IN2', 'R', 'X', 'ENO'])
        like = self.r.choice(e.ins)
        e.ins.append(E(like, formal=name, wires=[E(w) for w in like.wires]))
        return True

    def bad_pin_to_other_side(self):
        found = self.pick(lambda p, e: [e] if e.ins or e.inouts else [])
        if not found:
            return False
        e = found[1]
        a, b = self.r.sample([e.ins, e.inouts, e.outs], 2)
        if not a:
            return False
        b.append(a.pop(self.r.randrange(len(a))))
        return True

    def bad_text(self):
        found = self.pick(lambda p, e: [e] if e.text is not None else [])
        if not found:
            return False
        p, e = found
        r = self.r
        vs = self.variables(p)
        inst = [v for v in vs if v.block]
        t = ['Nobody', 'a b', '', 'SINT#200', '1.5', 'T#1m1h', 'NOT ' + e.text, '(%s)' % e.text, e.text + '.', 'TRUE', '1', 'INT#1', 'T#0.0001s', 'T#0.001s',
             'ADD', '5 + 1', '1__0', '2#12', '16#', 'BOOL#2', '--1',
             '170141183460469231731687303715884105728', '%IX0.0', "'x'"] + [v.name for v in vs]
        for v in inst:
            ins, inouts, outs = self.sides(v.block)
            t += [v.name + '.' + x for x, _ in (ins + inouts + outs)[:4]] + [v.name + '.ENO', v.name + '. Q', v.name + '.M', v.name + '.Q.Q', v.name]
        e.text = r.choice(t)
        return True

    def bad_target(self):
        found = self.pick(lambda p, e: [e] if e.kind in ('coil', 'outVariable') else [])
        if not found:
            return False
        p, e = found
        vs = [v.name for l in p.lists for v in l.vars if l.cls == 'inputVars' or l.constant or v.block]
        outs = [v.name + '.' + o for v in self.variables(p) if v.block for o, _ in self.sides(v.block)[2]]
        e.text = self.r.choice(vs * 2 + outs + ['TRUE', '-1', 'INT#5', 'T#1s'])
        return True

    def bad_in_out(self):
        found = self.pick(lambda p, e: [(e, i) for i in e.inouts if i.wires])
        if not found:
            return False
        p, (e, i) = found
        how = self.r.random()
        s = i.wires[0].to
        if how < 0.4 and isinstance(s, E) and s.kind == 'inVariable':
            s.text = self.r.choice([v.name for v in self.variables(p)] + ['5', 'TRUE', s.text])
        elif how < 0.6 and isinstance(s, E):
            s.neg = True
        elif how < 0.7:
            self.r.choice([i, s] if isinstance(s, E) else [i]).update(self.r.choice([{'neg': True}, {'edge': 'rising'}, {'store': 'set'}]))
        elif p.sources:
            self.lead(p, i.wires[0])
        return True

    def bad_connector(self):
        found = self.pick(lambda p, e: [e] if e.kind in ('connector', 'continuation') else [])
        if not found:
            return False
        p, e = found
        if self.chance(0.5):
            e.name = 'nowhere'
        else:
            d = self.new(p, 'connector', name=e.name.swapcase() if e.name.isascii() else e.name)
            self.connect(p, d, self.some_type(), True)
        return True

    def bad_label(self):
        found = self.pick(lambda p, e: [e] if e.kind in ('label', 'jump') else [])
        if not found:
            p = self.r.choice(self.pous)
            self.connect(p, self.new(p, 'jump', name='L9'), 'BOOL')
            return True
        p, e = found
        others = [l for q in self.pous if q is not p for l in q.get('labels', [])]
        if others and self.chance(0.4):
            e.name = self.r.choice(others)
        elif self.chance(0.5):
            e.name = self.r.choice(['nowhere', e.name + ' ', 'GRÖSSE', e.name.upper()])
        else:
            self.new(p, 'label', name=e.name.swapcase() if e.name.isascii() else e.name)
        return True

    def bad_modifier(self):
        found = self.pick(lambda p, e: e.ins + e.outs + e.inouts + ([e] if e.kind in ('inVariable', 'outVariable', 'contact', 'coil') else []))
        if not found:
            return False
        q = found[1]
        q.update(self.r.choice([{'edge': 'rising'}, {'edge': 'falling'}, {'store': 'set'}, {'store': 'reset'}, {'neg': not q.neg},
                                {'neg': True, 'edge': 'rising'}, {'neg': True, 'store': 'set'}]))
        return True

    def bad_negation(self):
        found = self.pick(lambda p, e: e.ins + e.outs + ([e] if e.kind in ('inVariable', 'outVariable', 'contact', 'coil') else []))
        if not found:
            return False
        found[1].neg = not found[1].neg
        return True

    def bad_language(self):
        p = self.r.choice(self.pous)
        if p.ladder:
            p.ladder = False
            return True
        if self.chance(0.5):
            e = self.new(p, self.r.choice(['leftPowerRail', 'rightPowerRail']))
            if e.kind == 'rightPowerRail' and p.sources:
                e.wires = [E(to=s[0], formal=s[1]) for s in self.r.sample(p.sources, min(len(p.sources), self.r.randint(0, 2)))]
            return True
        p.ladder = True
        return True

    def bad_untyped(self):
        """All group inputs of a function get untyped literals or its own OUT."""
        found = self.pick(lambda p, e: [e] if any(i.cls == 'group' for i in e.ins) or e.kind == 'connector' else [])
        if not found:
            return False
        p, e = found
        for i in ([e] if e.kind == 'connector' else [i for i in e.ins if i.cls == 'group']):
            own = [s for s in p.sources if s[0] is e] + [s for s in p.sources if s[0].kind == 'continuation'][:2]
            if own and self.chance(0.5):
                s = self.r.choice(own)
                i.wires = [E(to=s[0], formal=s[1])]
            else:
                i.wires = [self.lead(p, E(), ['0', '1', '5', '-1'])]
        return True

    def bad_declared_type(self):
        p = self.r.choice(self.pous)
        vs = [v for v in self.variables(p) if v.ty]
        self.r.choice(vs).ty = self.some_type()
        return True

    def bad_list(self):
        """A list becomes constant, or of another class."""
        p = self.r.choice(self.pous)
        l = self.r.choice(p.lists)
        if any(v.block for v in l.vars):
            return False
        if l.cls != 'inOutVars' and self.chance(0.5):
            l.constant = not l.constant
        else:
            l.cls = self.r.choice(['localVars', 'inputVars', 'outputVars'] + (['inOutVars'] if p.kind == 'functionBlock' else []))
        return True

    def bad_literal(self):
        found = self.pick(lambda p, e: [e] if e.kind == 'inVariable' and (literal(e.text.strip()) or [0])[0] == 'whole' else [])
        if not found:
            found = self.pick(lambda p, e: [e] if e.kind == 'inVariable' else [])
        if not found:
            return False
        found[1].text = self.r.choice(['2', '-1', '255', '256', '127', '128', '-128', '-129', '32767', '32768', '65535',
                                       '65536', '2147483648', '4294967296', '9223372036854775808', '18446744073709551616', '16#FFFF', '+1',
                                       '170141183460469231731687303715884105727', '1_000', '00', '-0'])
        return True

    def bad_new_literal(self):
        """Another input becomes an untyped literal."""
        found = self.pick(lambda p, e: [h for h in self.holders(e) if h.wires])
        if not found:
            return False
        p, h = found
        e = self.new(p, 'inVariable', text=self.r.choice(['0', '1', '2', '-1', '300', '70000', '16#FF']))
        e.neg = self.chance(0.1)
        self.r.choice(h.wires).update(to=e, formal='')
        return True

    def bad_new_name(self):
        """A variable is named as an instance or another thing is."""
        found = self.pick(lambda p, e: [e] if e.kind == 'inVariable' else [])
        if not found:
            return False
        p, e = found
        e.text = self.r.choice(self.variables(p)).name
        return True

    def bad_contact_variable(self):
        found = self.pick(lambda p, e: [e] if e.kind in ('contact', 'coil') else [])
        if not found:
            return False
        p, e = found
        vs = [v.name for v in self.variables(p) if v.ty] + [v.name + '.' + o for v in self.variables(p) if v.block for o, _ in self.sides(v.block)[2]]
        e.text = self.r.choice(vs)
        return True

    def bad_in_out_gone(self):
        found = self.pick(lambda p, e: [e] if e.inouts else [])
        if not found:
            return False
        p, e = found
        i = self.r.choice(e.inouts)
        how = self.r.random()
        if how < 0.4:
            e.inouts.remove(i)
        elif how < 0.8:
            i.wires.append(E(i.wires[0]))
        else:
            i.wires.clear()
        return True

    def bad_in_out_type(self):
        """The variable at an in-out is any that can be written."""
        found = self.pick(lambda p, e: [i for i in e.inouts if i.wires and isinstance(i.wires[0].to, E) and i.wires[0].to.kind == 'inVariable'])
        if not found:
            return False
        p, i = found
        t = self.targets(p)
        if not t:
            return False
        i.wires[0].to.text = self.r.choice(t).name
        return True

    def extensible(self):
        """A call of a function with any number of inputs."""
        return self.pick(lambda p, e: [e] if e.kind == 'block' and not e.instance and (FUNCS.get(e.type.upper()) or [0, None])[1] is not None else [])

    def bad_many_inputs(self):
        found = self.extensible()
        if not found:
            return False
        p, e = found
        fixed, first, least, most, _, _ = FUNCS[e.type.upper()]
        group = [i for i in e.ins if i.cls == 'group']
        if not group:
            return False
        for k in range(len(group), most + self.r.choice([0, 0, 1])):
            like = group[0]
            e.ins.append(E(like, formal='IN%d' % (first + k), wires=[E(w) for w in like.wires]))
        e.ins = e.ins[-64:] if len(e.ins) > 64 else e.ins
        return True

    def bad_few_inputs(self):
        found = self.extensible()
        if not found:
            return False
        group = [i for i in found[1].ins if i.cls == 'group']
        if len(group) < 2:
            return False
        found[1].ins.remove(self.r.choice([group[-1], group[-1], group[0]]))
        return True

    def bad_contact_text(self):
        found = self.pick(lambda p, e: [e] if e.kind in ('contact', 'coil') else [])
        if not found:
            return False
        p, e = found
        e.text = self.r.choice(['TRUE', '1', 'Nobody'] + [v.name for v in self.variables(p) if v.block])
        return True

    def bad_member(self):
        found = self.pick(lambda p, e: [e] if e.text is not None and any(v.block for v in self.variables(p)) else [])
        if not found:
            return False
        p, e = found
        v = self.r.choice([v for v in self.variables(p) if v.block])
        ins, inouts, outs = self.sides(v.block)
        e.text = v.name + '.' + self.r.choice([n for n, _ in ins + inouts + outs] + ['ENO', 'M', 'START', 'RUN'])
        return True

    def bad_two_modifiers(self):
        found = self.pick(lambda p, e: [e] if e.kind in ('contact', 'coil', 'outVariable') else [])
        if not found:
            return False
        found[1].update(self.r.choice([{'neg': True, 'edge': 'rising'}, {'neg': True, 'store': 'set'}, {'edge': 'falling', 'store': 'reset'},
                                       {'edge': 'rising', 'store': ''}, {'store': 'set', 'edge': ''}]))
        return True

    def bad_negated_number(self):
        """What is no BOOL is negated, set or reset."""
        def able(p, e):
            if e.kind == 'block':
                return [q for q in e.ins + e.outs if q.ty and q.ty != 'BOOL'] + [o for o in e.outs if not o.ty]
            if e.kind == 'outVariable':
                return [e] if any(v.name.upper() == e.text.upper() and v.ty != 'BOOL' for v in self.variables(p)) else []
            return [e] if e.kind == 'inVariable' and self.chance(0.3) else []
        found = self.pick(able)
        if not found:
            return False
        q = found[1]
        if q.kind == 'outVariable':
            q.update(self.r.choice([{'neg': True}, {'store': 'set'}, {'store': 'reset'}]))
        else:
            q.neg = True
            if q.cls == 'in' and self.chance(0.5):
                q.wires.clear()
        return True

    def bad_shared_literal(self):
        """An untyped literal, perhaps negated, is wired to another pin too."""
        lits = self.pick(lambda p, e: [e] if e.kind == 'inVariable' and (literal(e.text.strip()) or [0])[0] == 'whole' else [])
        if not lits:
            return False
        p, lit = lits
        holders = [h for e in p.elements for h in self.holders(e) if h.wires]
        for h in self.r.sample(holders, min(len(holders), self.r.choice([1, 1, 2]))):
            h.wires[:] = [E(to=lit, formal='')]
        if self.chance(0.2):
            lit.neg = True
        if self.chance(0.5):
            lit.text = self.r.choice(['0', '1', '2', '5', '200', '-1', '300'])
        return True

    def bad_several(self):
        """A ladder's pin gets a second source, often of its own type."""
        ladders = [p for p in self.pous if p.ladder]
        found = [(p, h) for p in ladders for e in p.elements for h in self.holders(e) if h.wires for _ in range(4 if h.kind in ('connector', 'outVariable') else 1)]
        if not found:
            return False
        p, h = self.r.choice(found)
        h.wires.append(E(h.wires[0]))
        if self.chance(0.3) and p.sources:
            self.lead(p, h.wires[-1])
        elif self.chance(0.3):
            self.lead(p, h.wires[-1], ['0', '1', '2'])
        return True

    def one_source(self, is_so, texts):
        """A wired input that is so gets one source: a literal with one of the texts for its POU, or any."""
        found = self.pick(lambda p, e: [i for i in e.ins if i.wires and is_so(i)])
        if not found:
            return False
        p, i = found
        i.wires[:] = [self.lead(p, i.wires[0], texts(p))]
        return True

    def bad_lone(self):
        """A lone pin gets any source, or a literal."""
        literals = ['1', '0', '2147483647', '2147483648', '-2147483649', 'TRUE', 'WORD#1']
        return self.one_source(lambda i: i.cls == 'lone', lambda p: None if p.sources and self.chance(0.5) else literals)

    def bad_time_literal(self):
        return self.one_source(lambda i: i.ty == 'TIME', lambda p: ['0', '1', '500'])

    def bad_rail(self):
        """A right rail gets any source."""
        ladders = [p for p in self.pous if p.ladder and p.sources]
        if not ladders:
            return False
        p = self.r.choice(ladders)
        e = self.new(p, 'rightPowerRail')
        for _ in range(self.r.choice([1, 1, 2])):
            e.wires.append(self.lead(p, E(), ['0', '1', '2', 'TRUE'] if self.chance(0.2) else None))
        return True

    # ------------------------------------------------------------ the file

    def esc(self, text, attribute=False):
        """A text as it is written in the file."""
        out = ''
        for c in text:
            if c in '<&"' or (self.chance(0.01) and c.isalnum()):
                out += {'<': '&lt;', '&': '&amp;', '"': '&quot;'}.get(c) or self.r.choice(['&#%d;', '&#x%X;']) % ord(c)
            else:
                out += c
        if not attribute and text and self.chance(0.04) and ']]>' not in text:
            cut = self.r.randint(0, len(text))
            plain = '<' not in text and '&' not in text
            return self.r.choice(['<![CDATA[%s]]>' % text, text[:cut] + '<!-- c -->' + text[cut:] if plain else out])
        return out

    def number(self, n):
        """A localId, now and then with zeros before it."""
        return ('0' * self.r.randint(1, 3) if self.chance(0.03) else '') + str(n)

    def mods(self, q):
        """The attributes of the modifiers."""
        t = ''
        if q.neg or self.chance(0.1):
            t += ' negated="%s"' % (self.r.choice(['true', '1']) if q.neg else self.r.choice(['false', '0']))
        if q.edge or self.chance(0.05):
            t += ' edge="%s"' % (q.edge or 'none')
        if q.store or self.chance(0.05):
            t += ' storage="%s"' % (q.store or 'none')
        return t

    def point_in(self, wires, always=False):
        """An input point with its connections."""
        if not wires and not always and self.chance(0.5):
            return ''
        cs = ''
        for w in wires:
            formal = ' formalParameter="%s"' % self.esc(w.formal, True) if w.formal or self.chance(0.1) else ''
            to = self.number(w.to.id if isinstance(w.to, E) else w.to)
            cs += '<connection refLocalId="%s"%s%s' % (to, formal, '/>' if self.chance(0.9) else '><position x="1" y="2"/></connection>')
        return '<connectionPointIn>%s%s</connectionPointIn>' % ('<relPosition x="0" y="8"/>' if self.chance(0.05) else '', cs)

    def kids(self, parts):
        """The parts of an element, now and then in another order or with one more."""
        parts = [x for x in parts if x]
        if self.chance(0.05):
            self.r.shuffle(parts)
        if self.chance(0.02):
            parts.append(self.r.choice(['<documentation><p>text</p></documentation>', '<addData><data name="n"><block localId="1"/></data></addData>']))
        return ''.join(parts)

    def element(self, e):
        """An element with its attributes and parts."""
        k = e.kind
        a = ' localId="%s"' % self.number(e.id)
        if k in ('comment', 'vendorElement'):
            return '<%s%s/>' % (k, a)
        if e.order:
            a += ' executionOrderId="%s"' % e.order
        pos = '<position x="%d" y="%d"/>' % (e.x, e.y) if e.x or e.y or self.chance(0.5) else ''
        space = self.r.choice(['%s'] * 10 + [' %s', '\n  %s\n', '%s\t', '\r\n%s '])
        if k == 'block':
            a += ' typeName="%s"' % self.esc(e.type, True)
            if e.instance or self.chance(0.05):
                a += ' instanceName="%s"' % self.esc(e.instance, True)
            side = lambda tag, pins, out: '' if not pins and self.chance(0.5) else '<%s>%s</%s>' % (tag, ''.join('<variable formalParameter="%s"%s>%s</variable>' % (
                self.esc(q.formal, True), self.mods(q), (self.r.choice(['', '<connectionPointOut/>']) if out else self.point_in(q.wires))) for q in pins), tag)
            parts = [pos, side('inputVariables', e.ins, False), side('inOutVariables', e.inouts, False), side('outputVariables', e.outs, True)]
        elif k == 'inVariable':
            a += self.mods(e)
            parts = [pos, '<connectionPointOut/>' if self.chance(0.8) else '', '<expression>%s</expression>' % (space % self.esc(e.text))]
        elif k == 'outVariable':
            a += self.mods(e)
            parts = [pos, self.point_in(e.wires), '<expression>%s</expression>' % (space % self.esc(e.text))]
        elif k in ('contact', 'coil'):
            a += self.mods(e)
            parts = [pos, self.point_in(e.wires), '<connectionPointOut/>' if self.chance(0.8) else '', '<variable>%s</variable>' % (space % self.esc(e.text))]
        elif k == 'connector':
            a += ' name="%s"' % self.esc(e.name, True)
            parts = [pos, self.point_in(e.wires)]
        elif k == 'continuation':
            a += ' name="%s"' % self.esc(e.name, True)
            parts = [pos, '<connectionPointOut/>' if self.chance(0.8) else '']
        elif k == 'label':
            a += ' label="%s"' % self.esc(e.name, True)
            parts = [pos]
        elif k in ('jump', 'return'):
            a += ' label="%s"' % self.esc(e.name, True) if k == 'jump' else ''
            parts = [pos, self.point_in(e.wires)]
        elif k == 'leftPowerRail':
            parts = [pos] + ['<connectionPointOut formalParameter=""/>'] * self.r.choice([0, 1, 1, 2])
        else:
            cut = self.r.randint(0, len(e.wires))
            parts = [pos] + ([self.point_in(e.wires)] if self.chance(0.5) else [self.point_in(e.wires[:cut], True), self.point_in(e.wires[cut:], True)])
        return '<%s%s>%s</%s>' % (k, a, self.kids(parts), k)

    def declaration(self, v, own):
        """A variable in its list, with its address and initial value where it has a place of its own and still has the type that these are for."""
        at = ' address="%s"' % v.address if v.address and own else ''
        first = '<initialValue><simpleValue value="%s"/></initialValue>' % self.esc(v.first[1], True) if v.first and own and v.first[0] == v.ty else ''
        return '<variable name="%s"%s>%s</variable>' % (v.name, at, self.kids(['<type>%s</type>' % ('<%s/>' % v.ty if v.ty else '<derived name="%s"/>' % self.spelt(v.block)), first]))

    def text(self):
        """The whole file."""
        out = []
        for p in self.pous:
            lists = ''
            for l in p.lists:
                vs = ''.join(self.declaration(v, l.cls != 'inOutVars') for v in l.vars)
                lists += '<%s%s%s>%s</%s>' % (l.cls, ' constant="true"' if l.constant else '', ' retain="true"' if l.retain else '', vs, l.cls)
            tag = 'LD' if p.ladder else 'FBD'
            # no connection of the body names a vendor element
            named = {w.to.id if isinstance(w.to, E) else w.to for e in p.elements for w in self.all_wires(e)}
            elements = [e for e in p.elements if not (e.kind == 'vendorElement' and e.id in named)]
            drawn = '\n'.join(self.element(e) for e in elements)
            out.append('<pou name="%s" pouType="%s"><interface>%s</interface><body><%s>\n%s\n</%s></body></pou>' % (p.name, p.kind, lists, tag, drawn, tag))
        return '<project xmlns="http://www.plcopen.org/xml/tc6_0201"><types><pous>\n%s\n</pous></types></project>\n' % '\n'.join(out)


def made(seed, to_run=False):
    """The bytes of the file of a seed; one that is to run is mostly left as it is drawn."""
    g = Generator(seed, to_run).project()
    for _ in range(g.r.choice([0] * 12 + [1] if to_run else [0, 0, 1, 1, 1, 1, 1, 2, 2, 3])):
        g.change()
    return g.text().encode()


if __name__ == '__main__':
    sys.stdout.buffer.write(made(int(sys.argv[1])))
