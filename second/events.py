"""Files of events and of retained values: how they are read, a second time, and random ones.

It was written from the documents of the format alone and shares no code with the crates.

    python3 second/events.py SEED FILE

prints the events of that seed for the first program of a file that breaks no rule.
"""
import csv
import io
import random
import re
import sys
sys.dont_write_bytecode = True
import conditions
import scans
from rules import RANGE, up

LATEST = 2 ** 62
DIGITS = set('0123456789')


class Refused(Exception):
    """A row of the events, or a line of the retained values, is none."""


# ---------------------------------------------------------------- reading

def settable(side):
    """The types of the variables that an event can set, by their names in capitals."""
    return {up(v.name): v.type for v in side.shown() if not v.constant}


def value_at(ty, text, row):
    """The number that a text stands for at the type."""
    try:
        return scans.read_value(ty, text)
    except ValueError:
        raise Refused(row)


def read_events(side, data):
    """The events that a file stands for: ('scan', time, [(name, value)]), ('warm',), ('cold',)."""
    types = settable(side)
    rows = [r for r in csv.reader(io.StringIO(data.decode(), newline='')) if r]
    names = [up(n) for n in rows[0][2:]] if rows else []
    if not rows or rows[0][:2] != ['event', 'time'] or len(set(names)) < len(names) or not set(names) <= set(types):
        raise Refused(1)
    events, last = [], 0
    for k, row in enumerate(rows[1:], 2):
        if len(row) != len(rows[0]):
            raise Refused(k)
        if row[0] == 'scan':
            if not 1 <= len(row[1]) <= 19 or not set(row[1]) <= DIGITS or not last <= int(row[1]) <= LATEST:
                raise Refused(k)
            last = int(row[1])
            events.append(('scan', last, [(n, value_at(types[n], t, k)) for n, t in zip(names, row[2:]) if t != '']))
        elif row[0] in ('warm', 'cold') and not any(row[1:]):
            events.append((row[0],))
        else:
            raise Refused(k)
    return events


def read_retained(side, data):
    """The values that a file of retained values gives, by their paths in capitals."""
    types = {tuple(map(up, path)): ty for path, ty, _ in side.retained()}
    lines = data.decode().split('\n')
    values = {}
    for k, line in enumerate(lines[:-1] if lines[-1] == '' else lines, 1):
        parts = (line[:-1] if line.endswith('\r') and k < len(lines) else line).split(',', 2)
        path = tuple(up(parts[1]).split('.')) if len(parts) == 3 else None
        if len(parts) != 3 or parts[0] != 'retain' or path not in types or path in values:
            raise Refused(k)
        values[path] = value_at(types[path], parts[2], k)
    return values


# ---------------------------------------------------------------- random files

class Maker:
    """The events of one seed."""

    def __init__(self, seed):
        self.r = random.Random('events %d' % seed)

    def chance(self, p):
        """True with the probability p."""
        return self.r.random() < p

    def cased(self, name):
        """A name, now and then in other letters."""
        return name if self.chance(0.8) else self.r.choice([name.upper(), name.lower(), name.swapcase()])

    def value(self, ty):
        """A literal of the type, mostly a small one."""
        r, (low, high) = self.r, RANGE[ty]
        if ty == 'BOOL':
            return r.choice(['TRUE', 'FALSE', 'TRUE', 'FALSE', 'true', 'BOOL#1', '0', '1'])
        if ty == 'TIME':
            return r.choice(['T#0ms', 'T#5ms', 'T#10ms', 'T#1s', 't#20ms', 'TIME#1m_1s', 'T#-5ms', 'T#%dms' % high])
        n = min(max(r.choice([0, 1, 2, 3, 7, 100, low, high, r.randint(-50, 50)]), low), high)
        return r.choice(['%d', '%d', ty + '#%d', ty.lower() + '#%d']) % n

    def wrong(self, ty):
        """A text that is no value of the type."""
        return self.r.choice(['T#1s' if ty != 'TIME' else '5', ' 1', 'x', '%d' % (RANGE[ty][1] + 1), 'LWORD#18446744073709551616', '1.0', '#1'])

    def events(self, side):
        """A file of events: mostly one that is right."""
        r = self.r
        types = settable(side)
        spelled = {up(v.name): v.name for v in side.shown()}
        names = r.sample(sorted(types), r.randint(0, min(7, len(types))))
        rows, time = [['event', 'time'] + [self.cased(spelled[n]) for n in names]], r.choice([0, 0, 1, 1000, LATEST - 60])
        for _ in range(r.randint(0, 20)):
            if self.chance(0.12):
                rows.append([r.choice(['warm', 'warm', 'cold']), ''] + [''] * len(names))
                continue
            rows.append(['scan', str(time)] + [self.value(types[n]) if self.chance(0.5) else '' for n in names])
            time = min(LATEST, time + r.choice([0, 1, 5, 10, 10, 20, 100, 1000]))
        if self.chance(0.12):
            self.spoil(rows, names, types)
        end = r.choice(['\n', '\n', '\n', '\r\n'])
        lines = [','.join('"%s"' % f if self.chance(0.05) else f for f in row) for row in rows]
        return (end.join(lines) + ('' if self.chance(0.1) else end)).encode()

    def spoil(self, rows, names, types):
        """Changes one field, so that most files aren't events any more."""
        r = self.r
        row = r.choice(rows)
        change = r.choice(['field', 'word', 'time', 'value', 'length', 'name'])
        if change == 'field':
            row[r.randrange(len(row))] = r.choice(['', 'scan', 'warm', '-1', '7'])
        elif change == 'word':
            row[0] = r.choice(['Scan', 'tick', 'retain', 'WARM', 'scan ', 'cold'])
        elif change == 'time':
            row[1] = r.choice(['-0', '00000000000000000007', '4611686018427387905', '0000000000000000009', '0', '1_0'])
        elif change == 'value' and names and row is not rows[0]:
            k = r.randrange(len(names))
            row[2 + k] = self.wrong(types[names[k]])
        elif change == 'length':
            row.append('') if self.chance(0.5) else row.pop()
        else:
            rows[0].append(r.choice([rows[0][-1], 'Nowhere', 'PLCX_W1', 'event']))
            for other in rows[1:]:
                other.append('')

    def retained(self, side):
        """A file of retained values: mostly one that is right."""
        r = self.r
        leaves = side.retained()
        some = r.sample(leaves, r.randint(0, len(leaves)))
        lines = ['retain,%s,%s' % (self.cased('.'.join(path)), self.value(ty)) for path, ty, _ in some]
        if self.chance(0.12):
            lines.insert(r.randint(0, len(lines)), r.choice(lines + ['', 'retain,Nowhere,TRUE', 'retain,X', 'keep,X,1']))
        end = r.choice(['\n', '\n', '\r\n'])
        return ''.join(line + end for line in lines).encode()

    def spoilt_text(self, text):
        """A text in which one or two names or numbers are others, so that it is read but often not ready to run."""
        r = self.r
        for _ in range(r.choice([1, 1, 2])):
            words = [m.span() for m in re.finditer(r"[A-Za-z]+#[-+0-9A-Za-z_.#]+|[A-Za-z_]\w*", text) if '#' in m.group() or up(m.group()) not in conditions.KEYWORDS]
            numbers = [(a, b) for a, b in words if '#' in text[a:b]]
            types = [(a, b) for a, b in words if up(text[a:b]) in RANGE]
            names = [(a, b) for a, b in words if (a, b) not in numbers]
            a, b = r.choice(r.choice([some for some in (numbers, types, names) if some]))
            if (a, b) in numbers:
                other = r.choice(['INT#1', 'BOOL#1', 'BOOL#2', 'SINT#128', 'DINT#7', 'T#5ms', 'WORD#16#FFFF', 'TIME#-1s', 'UINT#65536'])
            elif (a, b) in types:
                other = r.choice(sorted(RANGE) + ['TON', 'REAL'])
            else:
                near = [text[c:d] for c, d in names if up(text[c:d]) not in RANGE and abs(c - a) < 200]
                other = r.choice([r.choice(near), r.choice(near), r.choice(near), 'Nowhere', 'ADD', 'ABS'])
            text = text[:a] + other + text[b:]
        return text

    def turns(self):
        """A budget of turns, or none that is named."""
        return self.r.choice([None, None, None, 0, 1, 2, 3, 5, 20, 1000])


if __name__ == '__main__':
    sys.stdout.buffer.write(Maker(int(sys.argv[1])).events(scans.Side(open(sys.argv[2], 'rb').read())))
