"""How often a run evaluates each wire, counted a second time.

It was written from the documents of the coverage alone and shares no code with the crates.

    python3 second/covers.py FILE EVENTS [TURNS [PROGRAM]]

prints the counts of all wires over a list of events.
"""
import sys
sys.dont_write_bytecode = True
import scans
import texts
from rules import up


class CountingSide(scans.Side):
    """A program that runs, with a count for each wire of its project."""

    def __init__(self, data, program=None, turns=1000):
        super().__init__(data, program, turns)
        self.texts = texts.Writer(data)
        self.counts = {(id(e), pin): [0, 0] for p in self.rules.pous for e in p.body for pin, _ in self.texts.wires(e)}
        self.made = {}

    def block(self, inst, p, e, wires, give):
        """What a block does, whose outputs are kept by name."""
        self.made[id(e)] = super().block(inst, p, e, wires, give)

    def element(self, inst, p, e, wires):
        """What one element does; where it comes to its end, its wires are counted."""
        super().element(inst, p, e, wires)
        names = self.rules.outs_named(e) if e.kind == 'block' else ['']
        for pin, ty in self.texts.wires(e):
            value = wires[(id(e), names.index(up(pin)))] if up(pin) in names else self.made[id(e)][up(pin)]
            count = self.counts[(id(e), pin)]
            count[0] += 1
            count[1] += int(ty == 'BOOL' and bool(value))

    def text(self):
        """The counts as they are printed."""
        lines, covered, bools = ['pou,element,pin,evaluated,true'], 0, 0
        for p in self.rules.pous:
            for e in p.body:
                for pin, ty in self.texts.wires(e):
                    evaluated, true = self.counts[(id(e), pin)]
                    lines.append('%s,%d,%s,%d,%s' % (p.name, e.id, pin, evaluated, true if ty == 'BOOL' else ''))
                    bools += ty == 'BOOL'
                    covered += ty == 'BOOL' and 0 < true < evaluated
        return ''.join(line + '\n' for line in lines + ['covered %d of %d' % (covered, bools)])


def counted(side, events):
    """The counts over a list of events."""
    scans.trace(side, events)
    return side.text()


def main():
    import events
    a = sys.argv[1:]
    side = CountingSide(open(a[0], 'rb').read(), a[3] if len(a) > 3 else None, int(a[2]) if len(a) > 2 else 1000)
    sys.stdout.write(counted(side, events.read_events(side, open(a[1], 'rb').read())))


if __name__ == '__main__':
    main()
