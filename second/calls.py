"""Calls of the program on random projects, and the answers that the second reading expects of them."""
import os
import subprocess
import sys
sys.dont_write_bytecode = True
import conditions
import covers
import events
import plans
import projects
import rules
import runs
import scans
import tasks
import texts


class Call:
    """One call of the program: its words, the files that it reads, and the answer that is expected."""

    def __init__(self, action, seed):
        if action == 'run':
            self.words, self.files = [action], {}
            self.expected = self.run(seed, events.Maker(seed))
            return
        of_drawing = action in ('simulate', 'cover', 'cycle')
        data = projects.made(seed, of_drawing)
        if action == 'cycle' and rules.answer(data) == 'ok':
            data = plans.Maker(seed).with_tasks(data)
        self.words, self.files = [action, 'main.xml'], {'main.xml': data}
        line = rules.answer(data)
        if line != 'ok':
            self.expected = 1, b'', (line + '\n').encode()
            if of_drawing:
                self.add('events.csv', b'event,time\n')
        elif action == 'check':
            self.expected = 0, b'ok\n', b''
        elif action == 'compile':
            self.expected = 0, texts.text(data).encode(), b''
        elif action == 'cycle':
            self.expected = self.cycle(data, plans.Maker(seed))
        else:
            self.expected = self.drawn(data, events.Maker(seed), *((covers.CountingSide, covers.counted) if action == 'cover' else (scans.Side, scans.trace)))

    def add(self, name, data):
        """A file, which the words name last."""
        self.words.append(name)
        self.files[name] = data

    def drawn(self, data, maker, kind, answer):
        """Adds the events and the options, and gives the answer that is expected."""
        programs = [p.name for p in rules.project_of(data) if p.kind == 'program']
        return self.ran(programs, lambda name, turns: kind(data, name, turns), maker, answer)

    def run(self, seed, maker):
        """Adds a text that is compiled from a project, or nearly that, and what `simulate` adds."""
        data = projects.made(seed, True)
        while rules.answer(data) != 'ok':
            seed += 10 ** 6
            data = projects.made(seed, True)
        text = texts.text(data)
        if maker.chance(0.4):
            text = maker.spoilt_text(text)
        self.add('main.st', text.encode())
        unit = conditions.Unit(text.encode())
        if unit.answer() != 'ok':
            self.add('events.csv', b'event,time\n')
            return 6, b'', (unit.answer() + '\n').encode()
        programs = [p.name[0] for p in unit.pous if p.program]
        return self.ran(programs, lambda name, turns: runs.TextSide(text, name, turns), maker, scans.trace)

    def ran(self, programs, side_of, maker, answer):
        """Adds the events and the options for one of these programs, and gives the answer that is expected of its side."""
        name = None
        if maker.chance(0.4 if len(programs) == 1 else 0.9):
            name = 'Nobody' if not programs or maker.chance(0.05) else maker.r.choice(programs)
        turns = maker.turns()
        if name not in programs and (name is not None or len(programs) != 1):
            self.add('events.csv', b'event,time\n')
            self.words += ['--program', name] if name is not None else []
            return 8, b'', (('plcx: no program %s\n' % name) if name is not None else 'plcx: %d programs, name one\n' % len(programs)).encode()
        side = side_of(name, 1000 if turns is None else turns)
        self.add('events.csv', maker.events(side))
        self.words += ['--program', maker.cased(name)] if name is not None else []
        self.words += ['--turns', str(turns)] if turns is not None else []
        if maker.chance(0.5):
            self.words.append('--retain')
            self.add('kept', maker.retained(side))
            try:
                side.keep(events.read_retained(side, self.files['kept']))
            except events.Refused as line:
                return 7, b'', ('plcx: retained line %s\n' % line).encode()
        try:
            return 0, answer(side, events.read_events(side, self.files['events.csv'])).encode(), b''
        except events.Refused as row:
            return 7, b'', ('plcx: events row %s\n' % row).encode()

    def cycle(self, data, maker):
        """Adds the ticks and the budget of turns, and gives the answer that is expected."""
        turns = maker.turns()
        options = ['--turns', str(turns)] if turns is not None else []
        try:
            instances = tasks.plan_of(data)
        except tasks.Broken as line:
            self.add('ticks.csv', b'event,time\n')
            self.words += options
            return 10, b'', ('%s\n' % line).encode()
        sides = [(name, scans.Side(data, program, 1000 if turns is None else turns)) for name, program, _ in instances]
        self.add('ticks.csv', maker.ticks(sides))
        self.words += options
        try:
            return 0, tasks.text(data, self.files['ticks.csv'], 1000 if turns is None else turns).encode(), b''
        except events.Refused as row:
            return 7, b'', ('plcx: events row %s\n' % row).encode()

    def answer(self, program, folder):
        """Status, output and error line of the program."""
        for name, data in self.files.items():
            with open(os.path.join(folder, name), 'wb') as file:
                file.write(data)
        try:
            done = subprocess.run([program] + self.words, cwd=folder, stdin=subprocess.DEVNULL, stdout=subprocess.PIPE, stderr=subprocess.PIPE, timeout=60)
        except subprocess.TimeoutExpired:
            return None, b'', b'no answer within 60 seconds'
        return done.returncode, done.stdout, done.stderr
