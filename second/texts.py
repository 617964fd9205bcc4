"""The structured text of diagrams, written a second time.

It is for files that break no rule. It was written from the documents of the format and of the text alone and shares no code with the crates.

    python3 second/texts.py FILE
"""
import sys
sys.dont_write_bytecode = True
import rules
import scans
from rules import FUNCS, STANDARD, up
from scans import shown, signature_order

BIND = {'OR': 1, 'XOR': 2, 'AND': 3, '=': 4, '<>': 4, '<': 5, '>': 5, '<=': 5, '>=': 5, '+': 6, '-': 6, '*': 7, '/': 7, 'MOD': 7}
HEADS = {'localVars': 'VAR', 'inputVars': 'VAR_INPUT', 'outputVars': 'VAR_OUTPUT', 'inOutVars': 'VAR_IN_OUT'}
OPS = {'ADD': '+', 'MUL': '*', 'SUB': '-', 'DIV': '/', 'MOD': 'MOD', 'AND': 'AND', 'OR': 'OR', 'XOR': 'XOR'}
COMPARE = {'GT': '>', 'GE': '>=', 'EQ': '=', 'LE': '<=', 'LT': '<', 'NE': '<>'}


class X:
    """An expression: its text, and how it binds (9 for what needs no brackets, 8 for NOT)."""

    def __init__(self, text, bind=9):
        self.text, self.bind = text, bind


def op(o, a, b):
    """The operator o between two expressions, in brackets where they bind weaker."""
    k = BIND[o]
    left = a.text if a.bind >= k else '(%s)' % a.text
    right = b.text if b.bind > k else '(%s)' % b.text
    return X('%s %s %s' % (left, o, right), k)


def fold(o, xs):
    """The operator o between each two neighbours, from the left."""
    r = xs[0]
    for x in xs[1:]:
        r = op(o, r, x)
    return r


def no(a):
    """The negation of an expression."""
    return X('NOT ' + (a.text if a.bind >= 8 else '(%s)' % a.text), 8)


class Writer:
    """A project and the lines of its text."""

    def __init__(self, data):
        self.rules = rules.Rules(rules.project_of(data))
        line = self.rules.verdict()
        assert line == 'ok', line
        for p in self.rules.pous:
            scans.plan(p)
        self.rows = []

    def all(self):
        """The whole text."""
        for p in self.rules.pous:
            self.pou(p)
        return ''.join(r + '\n' for r in self.rows)

    def type_name(self, v):
        if v.type:
            return v.type
        return self.rules.blocks[v.block].name if v.block in self.rules.blocks else v.block

    def pou(self, p):
        """The lines of a POU: its declarations, its memories and wires, its networks."""
        word = 'PROGRAM' if p.kind == 'program' else 'FUNCTION_BLOCK'
        self.rows.append('%s %s' % (word, p.name))
        lists = []
        for v in p.variables:
            if not lists or lists[-1][0] is not v.list:
                lists.append((v.list, []))
            lists[-1][1].append(v)
        for l, vs in lists:
            mark = '' if l.name == 'inOutVars' else ' CONSTANT' if rules.truth(l.get('constant')) else ' RETAIN' if rules.truth(l.get('retain')) else ''
            self.rows.append(HEADS[l.name] + mark)
            for v in vs:
                first = '' if v.initial is None else ' := ' + shown(v.type, scans.read_value(v.type, v.initial))
                self.rows.append('  %s%s : %s%s;' % (v.name, ' AT ' + v.address if v.address else '', self.type_name(v), first))
            self.rows.append('END_VAR')
        self.p = p
        self.back = set()
        for e in p.body:
            if e.kind == 'continuation':
                s = p.connectors[up(e.name)]
                if (0, id(s)) in e.feedback:
                    self.back.add((id(s), ''))
            for k, wires in enumerate([i.wires for i in e.ins + e.inouts] if e.kind == 'block' else [e.wires]):
                for c in wires:
                    if (k, id(p.by_id[c.element])) in e.feedback:
                        self.back.add((id(p.by_id[c.element]), self.pin_of(c)))
        memories, wires = [], []
        for e in p.body:
            if e.mods.edge != 'none' and e.kind in ('contact', 'coil'):
                memories.append('PLCX_M%d : BOOL' % e.id)
            for pin, ty in self.wires(e):
                if (id(e), pin) in self.back:
                    memories.append('PLCX_F%d%s : %s' % (e.id, '_' + pin if pin else '', ty))
                wires.append('PLCX_W%d%s : %s' % (e.id, '_' + pin if pin else '', ty))
        if p.loops:
            wires.append('PLCX_N : DINT')
        for head, l in (('VAR', memories), ('VAR_TEMP', wires)):
            if l:
                self.rows += [head] + ['  %s;' % x for x in l] + ['END_VAR']
        self.depth = 1
        if not p.loops:
            for n in p.networks:
                for e in n:
                    self.element(e)
        else:
            k = len(p.networks)
            self.put('PLCX_N := DINT#0;')
            self.put('WHILE PLCX_N < DINT#%d DO' % k)
            self.put('  CASE PLCX_N OF')
            for i, n in enumerate(p.networks):
                self.put('    %d:' % i)
                self.depth = 4
                for e in n:
                    self.element(e)
                self.put('PLCX_N := DINT#%d;' % (i + 1))
                for e in reversed([e for e in n if e.kind in ('jump', 'return')]):
                    self.put('IF PLCX_W%d THEN' % e.id)
                    self.put('  PLCX_N := DINT#%d;' % (k if e.kind == 'return' else p.labels[up(e.name)]))
                    self.put('END_IF;')
                self.depth = 1
            self.put('  END_CASE;')
            self.put('END_WHILE;')
        self.rows.append('END_' + word)

    def put(self, text):
        """A line at the depth of the statements."""
        self.rows.append('  ' * self.depth + text)

    # names

    def spelt(self, e, name):
        """An output's or input's name as the tables or its declaration have it."""
        c = e.callee
        if name in ('EN', 'ENO') or c.function or up(e.type) in STANDARD:
            return name
        return next(v.name for v in self.rules.blocks[up(e.type)].variables if up(v.name) == name and v.cls != 'local')

    def wires(self, e):
        """(pin, type) of each wire of an element, the pin '' where the element is no block."""
        if e.kind in ('contact', 'coil', 'jump', 'return'):
            return [('', 'BOOL')]
        if e.kind in ('connector', 'continuation'):
            return [('', next(iter(e.carried)))]
        if e.kind == 'inVariable' and e.held[0] != 'literal':
            return [('', self.rules.held_type(e.held))]
        if e.kind != 'block':
            return []
        names = self.rules.outs_named(e)
        r = [('ENO', 'BOOL')] if 'ENO' in names or any(up(i.formal) == 'EN' for i in e.ins) else []
        if e.callee.function:
            out = FUNCS[e.callee.function][5]
            r.append(('OUT', next(iter(e.group)) if out == 'group' else out))
        else:
            r += [(self.spelt(e, n), e.callee.outs[n]) for n in names if n != 'ENO']
        return r

    def pin_of(self, c):
        """The pin of the output that a connection reads, '' where its element is no block."""
        s = self.p.by_id[c.element]
        return self.spelt(s, self.rules.outs_named(s)[self.rules.output(s, c.formal)]) if s.kind == 'block' else ''

    def name(self, text):
        """A variable or member, spelt as declared."""
        text = text.strip(' \t\r\n')
        a, _, b = text.partition('.')
        v = self.p.names[up(a)]
        if not b:
            return v.name
        if v.block in STANDARD:
            return v.name + '.' + up(b)
        return v.name + '.' + next(w.name for w in self.rules.blocks[v.block].variables if up(w.name) == up(b))

    # expressions

    def source(self, e, k, c, ty):
        """What a connection of pin k reads."""
        s = self.p.by_id[c.element]
        if s.kind == 'leftPowerRail':
            return X('TRUE')
        if s.kind == 'inVariable' and s.held[0] == 'literal':
            x = X(shown(ty, s.held[1][-1]))
            return no(x) if s.mods.negated else x
        pin = self.pin_of(c)
        back = (k, id(s)) in e.feedback
        return X('PLCX_%s%d%s' % ('F' if back else 'W', s.id, '_' + pin if pin else ''))

    def link(self, e, k, cs, ty, negated=False):
        """What pin k reads: its connection, or the OR of several."""
        x = fold('OR', [self.source(e, k, c, ty) for c in cs])
        return no(x) if negated else x

    def set_if(self, cond, target, value):
        """The IF that gives a variable a value."""
        self.put('IF %s THEN' % cond.text)
        self.put('  %s := %s;' % (target, value))
        self.put('END_IF;')

    def element(self, e):
        """The statements of an element."""
        w = X('PLCX_W%d' % e.id)
        m = X('PLCX_M%d' % e.id)
        mods = e.mods
        give = lambda x: self.put('%s := %s;' % (w.text, x.text))
        if e.kind == 'inVariable' and e.held[0] != 'literal':
            v = X(self.name(e.text))
            give(no(v) if mods.negated else v)
        elif e.kind == 'outVariable':
            ty = e.held[1].type
            l, v = self.link(e, 0, e.wires, ty), self.name(e.text)
            if mods.storage != 'none':
                self.set_if(l, v, 'TRUE' if mods.storage == 'set' else 'FALSE')
            else:
                self.put('%s := %s;' % (v, (no(l) if mods.negated else l).text))
        elif e.kind == 'contact':
            l, v = self.link(e, 0, e.wires, 'BOOL'), X(self.name(e.text))
            if mods.edge == 'rising':
                give(fold('AND', [l, v, no(m)]))
            elif mods.edge == 'falling':
                give(fold('AND', [l, no(v), m]))
            else:
                give(op('AND', l, no(v) if mods.negated else v))
            if mods.edge != 'none':
                self.put('%s := %s;' % (m.text, v.text))
        elif e.kind == 'coil':
            give(self.link(e, 0, e.wires, 'BOOL'))
            v = self.name(e.text)
            if mods.storage != 'none':
                self.set_if(w, v, 'TRUE' if mods.storage == 'set' else 'FALSE')
            elif mods.edge != 'none':
                self.put('%s := %s;' % (v, op('AND', w, no(m)).text if mods.edge == 'rising' else op('AND', no(w), m).text))
                self.put('%s := %s;' % (m.text, w.text))
            else:
                self.put('%s := %s;' % (v, (no(w) if mods.negated else w).text))
        elif e.kind in ('connector', 'jump', 'return'):
            give(self.link(e, 0, e.wires, next(iter(e.carried)) if e.kind == 'connector' else 'BOOL'))
        elif e.kind == 'continuation':
            s = self.p.connectors[up(e.name)]
            give(X('PLCX_%s%d' % ('F' if (0, id(s)) in e.feedback else 'W', s.id)))
        elif e.kind == 'block':
            self.block(e)
        for pin, _ in self.wires(e):
            if (id(e), pin) in self.back:
                t = '%d%s' % (e.id, '_' + pin if pin else '')
                self.put('PLCX_F%s := PLCX_W%s;' % (t, t))

    def block(self, e):
        """The statements of a block."""
        names = self.rules.outs_named(e)
        ins = {up(i.formal): (k, i) for k, i in enumerate(e.ins)}
        wire = lambda pin: 'PLCX_W%d_%s' % (e.id, pin)
        negated = {n for n, o in zip(names, e.outs) if o.mods.negated}
        enabled = 'EN' in ins
        if enabled:
            k, i = ins['EN']
            self.put('%s := %s;' % (wire('ENO'), self.link(e, k, i.wires, 'BOOL', i.mods.negated).text))
        elif 'ENO' in names:
            self.put('%s := TRUE;' % wire('ENO'))
        if e.callee.function:
            out_ty = dict(self.wires(e))['OUT']
            f = self.function(e, ins)
            if enabled:
                self.put('%s := %s;' % (wire('OUT'), shown(out_ty, 0)))
                self.set_if(X(wire('ENO')), wire('OUT'), f.text)
            else:
                self.put('%s := %s;' % (wire('OUT'), f.text))
            for pin, _ in self.wires(e):
                if pin in negated:
                    self.put('%s := NOT %s;' % (wire(pin), wire(pin)))
            return
        v = self.p.names[up(e.instance)].name
        args = []
        for k, i in enumerate(e.ins):
            if i.wires and up(i.formal) != 'EN':
                args.append('%s := %s' % (self.spelt(e, up(i.formal)), self.link(e, k, i.wires, e.callee.ins[up(i.formal)], i.mods.negated).text))
        for i in e.inouts:
            args.append('%s := %s' % (self.spelt(e, up(i.formal)), self.name(self.p.by_id[i.wires[0].element].text)))
        call = '%s(%s);' % (v, ', '.join(args))
        if enabled:
            self.put('IF %s THEN' % wire('ENO'))
            self.put('  ' + call)
            self.put('END_IF;')
        else:
            self.put(call)
        for n in names:
            if n != 'ENO':
                s = self.spelt(e, n)
                self.put('%s := %s%s.%s;' % (wire(s), 'NOT ' if n in negated else '', v, s))
        if 'ENO' in negated:
            self.put('%s := NOT %s;' % (wire('ENO'), wire('ENO')))

    def function(self, e, ins):
        """The expression of a function's call."""
        f = e.callee.function
        group = next(iter(e.group), None)
        xs = []
        for n in signature_order(e):
            k, i = ins[n]
            cls = e.classes[n]
            ty = group if cls == 'group' else next(iter(i.lone)) if cls == 'lone' else cls
            xs.append(self.link(e, k, i.wires, ty, i.mods.negated))
        if f in OPS:
            return fold(OPS[f], xs)
        if f == 'NOT':
            return no(xs[0])
        if f in COMPARE:
            return fold('AND', [op(COMPARE[f], a, b) for a, b in zip(xs, xs[1:])])
        return X('%s(%s)' % (f, ', '.join(x.text for x in xs)))


def text(data):
    """The text of the bytes of a file."""
    return Writer(data).all()


if __name__ == '__main__':
    sys.stdout.write(text(open(sys.argv[1], 'rb').read()))
