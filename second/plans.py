"""Resources with tasks, and files of ticks for them: random ones.

    python3 second/plans.py SEED FILE

prints the file with the tasks of that seed, if it breaks no rule.
"""
import sys
sys.dont_write_bytecode = True
import events
import rules
from rules import up

INTERVALS = ['T#10ms', 'PT0.01S', 'PT0.02S', 'PT1S', 'T#20ms', 't#5ms', 'TIME#1s', 'PT0.0050S', 'PT000.030S', 'T#1s_5ms', 'PT4611686018427387.904S']
NO_INTERVALS = ['PT.5S', 'PT1.S', 'pt1S', 'PT0S', 'T#0ms', 'PT0.0001S', 'T#-5ms', 'PT1.0000000000S', '10', 'PT1M', 'PT4611686018427387.905S', 'PT', '', ' PT1S', 'INT#5']
NO_NAMES = ['', '1st', 'a b', 'a.b', 'x' * 129, 'ü']
NO_PRIORITIES = ['', '-1', '65536', '1.0', ' 1', 'x', '+1']


class Maker(events.Maker):
    """The tasks and the ticks of one seed."""

    def __init__(self, seed):
        super().__init__(seed)
        self.r.seed('tasks %d' % seed)

    def resource(self, programs):
        """The tasks of a resource: [(attributes, [attributes of an instance])]."""
        r = self.r
        names = r.sample(['Fast', 'Slow', 'Task_1', 'IF', '_t', 'main'], 6)
        others = r.sample(['A', 'B', 'Pump_1', 'Pump_2', 'while', '_', 'C3', 'Front', 'Rear', 'Q'], 10)
        tasks = []
        for _ in range(r.choice([1, 1, 2, 2, 2, 3, 4])):
            task = {'name': names.pop(), 'priority': r.choice(['0', '1', '1', '2', '07', '65535']), 'interval': r.choice(INTERVALS)}
            tasks.append((task, [{'name': others.pop(), 'typeName': self.cased(r.choice(programs or ['Nobody']))} for _ in range(r.choice([0, 1, 1, 2]))]))
        return tasks

    def spoil_tasks(self, tasks):
        """Changes one thing, so that most resources aren't right any more."""
        r = self.r
        task, instances = r.choice(tasks)
        change = r.choice(['attribute', 'interval', 'priority', 'name', 'again', 'instance', 'instance again', 'program', 'many'])
        if change == 'attribute':
            item = r.choice([task] + instances)
            del item[r.choice(sorted(item))]
        elif change == 'interval':
            task['interval'] = r.choice(NO_INTERVALS)
        elif change == 'priority':
            task['priority'] = r.choice(NO_PRIORITIES)
        elif change == 'name':
            task['name'] = r.choice(NO_NAMES)
        elif change == 'again':
            task['name'] = r.choice(tasks)[0].get('name', '').swapcase()
        elif change == 'instance' and instances:
            r.choice(instances)['name'] = r.choice(NO_NAMES)
        elif change == 'instance again' and instances:
            instances.append({'name': instances[0]['name'].swapcase(), 'typeName': instances[0]['typeName']})
        elif change == 'program' and instances:
            r.choice(instances)['typeName'] = r.choice(['Nobody', '', ' '])
        elif change == 'many':
            tasks += [({'name': 'T%d' % k, 'priority': '1', 'interval': 'PT1S'}, []) for k in range(64)]

    def section(self, programs):
        """The section of the instances."""
        r = self.r
        tasks = self.resource(programs)
        if self.chance(0.25):
            self.spoil_tasks(tasks)

        def element(name, attributes, inside=''):
            words = sorted(attributes.items(), key=lambda _: r.random())
            return '<%s%s>%s</%s>' % (name, ''.join(' %s="%s"' % w for w in words), inside, name)
        body = ''.join(element('task', task, ''.join(element('pouInstance', i) for i in instances)) for task, instances in tasks)
        loose = element('pouInstance', {'name': 'A', 'typeName': 'Nobody'})
        body = r.choice([body] * 6 + [loose + body, body + '<addData/>', body.replace('</task>', '<documentation/></task>')])
        resource = element('resource', {'name': 'Controller'}, body)
        resources = r.choice([resource] * 14 + [resource * 2, '', element('resource', {}, resource), '<addData>%s</addData>' % resource])
        return '<instances><configurations>%s</configurations></instances>' % element('configuration', {'name': 'Plant'}, resources)

    def with_tasks(self, data):
        """A file with a resource; now and then it has no section of instances."""
        programs = [p.name for p in rules.project_of(data) if p.kind == 'program']
        return data if self.chance(0.02) else data.replace(b'</project>', self.section(programs).encode() + b'</project>')

    def ticks(self, sides):
        """A file of ticks: mostly one that is right."""
        r = self.r
        types = {up(name) + '.' + n: ty for name, side in sides for n, ty in events.settable(side).items()}
        spelled = {up(name) + '.' + up(v.name): name + '.' + v.name for name, side in sides for v in side.shown()}
        names = r.sample(sorted(types), r.randint(0, min(7, len(types))))
        rows, time = [['event', 'time'] + [self.cased(spelled[n]) for n in names]], r.choice([0, 0, 1, 1000, events.LATEST - 60])
        for _ in range(r.randint(0, 20)):
            if self.chance(0.12):
                rows.append([r.choice(['warm', 'warm', 'cold']), ''] + [''] * len(names))
                continue
            rows.append(['tick', str(time)] + [self.value(types[n]) if self.chance(0.5) else '' for n in names])
            time = min(events.LATEST, time + r.choice([0, 1, 5, 10, 10, 20, 100, 1000]))
        if self.chance(0.12):
            self.spoil(rows, names, types)
        end = r.choice(['\n', '\n', '\n', '\r\n'])
        return end.join(','.join('"%s"' % f if self.chance(0.05) else f for f in row) for row in rows).encode() + end.encode()


if __name__ == '__main__':
    sys.stdout.buffer.write(Maker(int(sys.argv[1])).with_tasks(open(sys.argv[2], 'rb').read()))
