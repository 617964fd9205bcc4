"""The tasks of a resource, read a second time: the plan of a file, its ticks, and what each instance does.

It was written from the documents of the formats alone and shares no code with the crates.

    python3 second/tasks.py FILE TICKS [TURNS]

prints the line of each instance for each event, or why there is none.
"""
import csv
import io
import re
import sys
import xml.parsers.expat
sys.dont_write_bytecode = True
import events
import rules
import scans
from rules import up

MOST_TASKS, MOST_INSTANCES, HIGHEST_PRIORITY = 64, 16, 65535
NAME = re.compile(r'[A-Za-z_][A-Za-z0-9_]{0,127}\Z')
SECONDS = re.compile(r'PT([0-9]+)(?:\.([0-9]{1,9}))?S\Z')


class Broken(Exception):
    """The tasks are wrong: the kind, and the byte of the element."""

    def __init__(self, kind, at):
        super().__init__('plcx: tasks %s at byte %d' % (kind, at))


class Item:
    """An element of the section of the instances: its name, its attributes, its byte and the name of its parent."""

    def __init__(self, name, attributes, at, parent):
        self.name, self.attributes, self.at, self.parent = name, attributes, at, parent


def items_in(data):
    """The root, and the elements below `instances` in document order."""
    parser = xml.parsers.expat.ParserCreate()
    found, stack = [], []

    def start(name, attributes):
        item = Item(name, attributes, parser.CurrentByteIndex, stack[-1] if stack else None)
        item.inside = bool(stack) and (stack[-1].inside or (len(stack) == 1 and name == 'instances'))
        stack.append(item)
        if len(stack) == 1 or item.inside:
            found.append(item)
    parser.StartElementHandler = start
    parser.EndElementHandler = lambda name: stack.pop()
    parser.Parse(data, True)
    return found[0], found[1:]


def interval_of(text):
    """The milliseconds of an interval, or None."""
    seconds = SECONDS.match(text)
    if seconds:
        decimals = seconds.group(2) or ''
        n, rest = divmod(int(seconds.group(1) + decimals) * 1000, 10 ** len(decimals))
        ms = None if rest else n
    else:
        literal = rules.literal(text)
        ms = literal[2] if literal and literal[0] == 'typed' and literal[1] == 'TIME' else None
    return ms if ms is not None and 0 < ms <= events.LATEST else None


class Task:
    """A task: its name, its priority, its interval and its place."""

    def __init__(self, item, place, taken):
        a = item.attributes
        priority, interval = a.get('priority', ''), interval_of(a.get('interval', ''))
        if not NAME.match(a.get('name', '')) or up(a['name']) in taken:
            raise Broken('task', item.at)
        if not re.fullmatch('[0-9]+', priority) or int(priority) > HIGHEST_PRIORITY or interval is None:
            raise Broken('task', item.at)
        taken.add(up(a['name']))
        self.priority, self.interval, self.place, self.last = int(priority), interval, place, None


def plan_of(data):
    """The instances of a file's resource: (name, program, task), each in the order of the file."""
    root, items = items_in(data)
    programs = {up(p.name): p.name for p in rules.project_of(data) if p.kind == 'program'}
    resources = [i for i in items if i.name == 'resource']
    if not resources:
        raise Broken('count', root.at)
    first, task = resources[0], None
    members = [i for i in items if i.parent is first and i.name == 'task']
    if not [i for i in items if i.name == 'pouInstance' and i.parent in members]:
        raise Broken('count', first.at)
    tasks, instances, task_names, names = 0, [], set(), set()
    for item in items:
        if item.name == 'resource' and item is not first:
            raise Broken('count', item.at)
        if item in members:
            if tasks == MOST_TASKS:
                raise Broken('count', item.at)
            task = Task(item, tasks, task_names)
            tasks += 1
        elif item.name == 'pouInstance' and item.parent in members:
            name, program = item.attributes.get('name', ''), item.attributes.get('typeName', '')
            if len(instances) == MOST_INSTANCES:
                raise Broken('count', item.at)
            if not NAME.match(name) or up(name) in names:
                raise Broken('instance', item.at)
            if up(program) not in programs:
                raise Broken('program', item.at)
            names.add(up(name))
            instances.append((name, programs[up(program)], task))
    return instances


def read_ticks(sides, data):
    """The events of a file: ('tick', time, [(instance, name, value)]), ('warm',), ('cold',)."""
    types = {up(name) + '.' + n: (up(name), n, ty) for name, side in sides for n, ty in events.settable(side).items()}
    rows = [r for r in csv.reader(io.StringIO(data.decode(), newline='')) if r]
    names = [up(n) for n in rows[0][2:]] if rows else []
    if not rows or rows[0][:2] != ['event', 'time'] or len(set(names)) < len(names) or not set(names) <= set(types):
        raise events.Refused(1)
    found, last = [], 0
    for k, row in enumerate(rows[1:], 2):
        if len(row) != len(rows[0]):
            raise events.Refused(k)
        if row[0] == 'tick':
            if not 1 <= len(row[1]) <= 19 or not set(row[1]) <= events.DIGITS or not last <= int(row[1]) <= events.LATEST:
                raise events.Refused(k)
            last = int(row[1])
            found.append(('tick', last, [types[n][:2] + (events.value_at(types[n][2], t, k),) for n, t in zip(names, row[2:]) if t != '']))
        elif row[0] in ('warm', 'cold') and not any(row[1:]):
            found.append((row[0],))
        else:
            raise events.Refused(k)
    return found


def line(number, name, result, side):
    """What is told of an instance."""
    return '%d,%s,%s' % (number, name, result) + ''.join(',%s=%s' % (v.name, scans.shown(v.type, side.top.values[up(v.name)])) for v in side.shown()) + '\n'


def rows(instances, sides, ticks):
    """The lines of all events."""
    told, waiting = [], {up(name): {} for name, _ in sides}
    tasks = {id(t): t for _, _, t in instances}.values()
    ranked = sorted(range(len(instances)), key=lambda i: (instances[i][2].priority, instances[i][2].place, i))
    for number, event in enumerate(ticks, 1):
        if event[0] != 'tick':
            for name, side in sides:
                told.append(line(number, name, side.restart(event[0] == 'cold'), side))
                waiting[up(name)] = {}
            for task in tasks:
                task.last = None
            continue
        for instance, name, value in event[2]:
            waiting[instance][name] = value
        due = {id(t) for t in tasks if t.last is None or event[1] - t.last >= t.interval}
        for i in ranked:
            name, side = sides[i]
            if id(instances[i][2]) in due:
                told.append(line(number, name, side.scan(event[1], list(waiting[up(name)].items())), side))
                waiting[up(name)] = {}
        for task in tasks:
            task.last = event[1] if id(task) in due else task.last
    return told


def text(data, ticks, turns=1000):
    """What the action writes."""
    instances = plan_of(data)
    sides = [(name, scans.Side(data, program, turns)) for name, program, _ in instances]
    return 'event,instance,result\n' + ''.join(rows(instances, sides, read_ticks(sides, ticks)))


def main():
    a = sys.argv[1:]
    try:
        sys.stdout.write(text(open(a[0], 'rb').read(), open(a[1], 'rb').read(), int(a[2]) if len(a) > 2 else 1000))
    except Broken as broken:
        sys.exit(str(broken))
    except events.Refused as row:
        sys.exit('plcx: events row %s' % row)


if __name__ == '__main__':
    main()
