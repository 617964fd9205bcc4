"""The worst files that the limits allow, and files of 16 MiB that no limit allows, written by formula.

`worst(folder)` writes each into the folder and gives rows of the words of a call and what it has to come to: its
status, and the line on the standard error, where one is fixed.
"""
import os

HEAD = '<project xmlns="http://www.plcopen.org/xml/tc6_0201"><types><pous>\n'
TAIL = '</pous></types></project>\n'
MIB = 1 << 20
MOST_BYTES = 16 * MIB
MOST_ELEMENTS = 4096
MOST_LEVELS_OF_FILE = 64
MOST_LEVELS_OF_BLOCKS = 16
MOST_SOURCES = 64
MOST_INPUTS = 63


def variables(kind, rows):
    """A list of variables of the kind, of pairs of a name and a type's element."""
    rows = ''.join('<variable name="%s"><type>%s</type></variable>' % row for row in rows)
    return '<%s>%s</%s>' % (kind, rows, kind)


def pou(name, kind, lists, body, language='FBD'):
    return '<pou name="%s" pouType="%s"><interface>%s</interface><body><%s>\n%s</%s></body></pou>\n' % (name, kind, lists, language, body, language)


def sources(rows):
    return '<connectionPointIn>%s</connectionPointIn>' % ''.join('<connection refLocalId="%d"/>' % row for row in rows)


def in_variable(number, text):
    return '<inVariable localId="%d"><position x="0" y="%d"/><connectionPointOut/><expression>%s</expression></inVariable>\n' % (number, number, text)


def out_variable(number, source, text):
    return '<outVariable localId="%d"><position x="9" y="%d"/>%s<expression>%s</expression></outVariable>\n' % (number, number, sources([source]), text)


def boolean(*names):
    return [(name, '<BOOL/>') for name in names]


def chain_of_contacts():
    """As many contacts in one line as a body may have elements, with the power rail and a coil."""
    parts = ['<leftPowerRail localId="1"><position x="0" y="0"/><connectionPointOut formalParameter=""/></leftPowerRail>\n']
    for number in range(2, MOST_ELEMENTS):
        parts.append('<contact localId="%d"><position x="%d" y="0"/>%s<connectionPointOut/><variable>A</variable></contact>\n' % (number, number, sources([number - 1])))
    parts.append('<coil localId="%d"><position x="%d" y="0"/>%s<connectionPointOut/><variable>B</variable></coil>\n' % (MOST_ELEMENTS, MOST_ELEMENTS, sources([MOST_ELEMENTS - 1])))
    return HEAD + pou('Main', 'program', variables('localVars', boolean('A', 'B')), ''.join(parts), 'LD') + TAIL


def mesh():
    """A block with 63 inputs, each of which 64 sources lead to."""
    parts = [in_variable(number, 'A') for number in range(1, MOST_SOURCES + 1)]
    pins = ''.join('<variable formalParameter="IN%d">%s</variable>' % (pin, sources(range(1, MOST_SOURCES + 1))) for pin in range(1, MOST_INPUTS + 1))
    parts.append('<block localId="100" typeName="OR"><position x="5" y="0"/><inputVariables>%s</inputVariables><inOutVariables/><outputVariables><variable formalParameter="OUT"><connectionPointOut/></variable></outputVariables></block>\n' % pins)
    parts.append(out_variable(101, 100, 'B'))
    return HEAD + pou('Main', 'program', variables('localVars', boolean('A', 'B')), ''.join(parts), 'LD') + TAIL


def nested_blocks():
    """A program over 16 levels of function blocks, each of which jumps back to its begin until the turns are spent."""
    made = []
    for level in range(MOST_LEVELS_OF_BLOCKS + 1):
        name, kind = ('Main', 'program') if level == 0 else ('F%d' % level, 'functionBlock')
        rows = boolean('A', 'B')
        parts = ['<label localId="1" label="Again"><position x="0" y="0"/></label>\n', in_variable(2, 'TRUE'), out_variable(3, 2, 'B')]
        if level < MOST_LEVELS_OF_BLOCKS:
            rows.append(('Next', '<derived name="F%d"/>' % (level + 1)))
            parts.append('<block localId="4" typeName="F%d" instanceName="Next"><position x="1" y="1"/><inputVariables/><inOutVariables/><outputVariables/></block>\n' % (level + 1))
        parts.append(in_variable(5, 'A'))
        parts.append('<jump localId="6" label="Again"><position x="9" y="9"/>%s</jump>\n' % sources([5]))
        made.append(pou(name, kind, variables('localVars', rows), ''.join(parts)))
    return HEAD + ''.join(made) + TAIL


def nested_elements(levels):
    """Elements of a vendor's data, each in the one before, to a depth of so many levels of the file."""
    around = 3
    inner = levels - around
    data = '<addData><data name="http://example.com" handleUnknown="discard">%s%s</data></addData>' % ('<a>' * inner, '</a>' * inner)
    body = in_variable(1, 'A') + out_variable(2, 1, 'B')
    return HEAD + pou('Main', 'program', variables('localVars', boolean('A', 'B')), body) + '</pous></types>' + data + '</project>\n'


def filled(front, piece, length=MOST_BYTES):
    """The front and then the piece over and over, cut at the length."""
    text = front + piece * ((length - len(front)) // len(piece) + 1)
    return text[:length]


def program_text(assignments):
    return 'PROGRAM Main\nVAR\n  A : BOOL;\n  B : BOOL;\nEND_VAR\n%sEND_PROGRAM\n' % assignments


def nested_text(levels):
    """A text with an expression of so many parentheses, each in the one before."""
    return program_text('  B := %sA%s;\n' % ('(' * levels, ')' * levels))


def nested_statements(levels):
    """A text with so many loops, each in the one before."""
    return program_text('WHILE A DO\n' * levels + 'A := FALSE;\n' + 'END_WHILE;\n' * levels)


def repeated(front, row, length=MOST_BYTES):
    """The front and then as many whole rows as there is room for."""
    return front + row * ((length - len(front)) // len(row))


EVENTS = 'event,time,A\n' + ''.join('scan,%d,TRUE\n' % (10 * scan) for scan in range(3))


def files():
    """The worst files by their names."""
    return {
        'chain.xml': chain_of_contacts(),
        'mesh.xml': mesh(),
        'blocks.xml': nested_blocks(),
        'depth.xml': nested_elements(MOST_LEVELS_OF_FILE),
        'deeper.xml': nested_elements(MOST_LEVELS_OF_FILE + 1),
        'signs.xml': filled('', '<'),
        'opened.xml': filled('', '<a>'),
        'attributes.xml': filled('<a', ' b=""'),
        'children.xml': filled('<a>', '<b/>'),
        'characters.xml': filled('<a>', '&amp;'),
        'events.csv': EVENTS,
        'rows.csv': repeated('event,time,A\n', 'scan,0,TRUE\n'),
        'quotes.csv': filled('event,time,A\n', '"'),
        'columns.csv': filled('event,time,A', ',A'),
        'lines.csv': filled('', 'A := TRUE\n'),
        'empty.csv': '',
        'parentheses.st': nested_text(200),
        'too-many-parentheses.st': nested_text(100000),
        'loops.st': nested_statements(200),
        'too-many-loops.st': nested_statements(100000),
        'negations.st': program_text('  B := %sA;\n' % ('NOT ' * 100000)),
        'calls.st': filled('PROGRAM Main\nB := ', 'NOT('),
        'long.st': filled('', ' ', 64 * MIB + 1),
        'comment.st': filled('', '(*', 64 * MIB),
    }


def write(folder):
    for name, text in files().items():
        with open(os.path.join(folder, name), 'w', newline='') as file:
            file.write(text)
